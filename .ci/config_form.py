"""The configuration after docs/FORMATS.md: the walk over its keys, the checks of its values, and patterns."""

import collections
import re
import tomllib

from store_form import Refusal, folded, is_path, is_platform

FILE_LIMIT = 4_194_304
NUMBER_END = 2**32

# The texts are bytes. An offer is what a builder has where the configuration says nothing else.
Offer = collections.namedtuple("Offer", "name patterns version")
Folder = collections.namedtuple("Folder", "order path exclude")
Config = collections.namedtuple("Config", "platforms folders builders")


class Unconfigured(Refusal):
    """Why a file says no configuration."""

    status, words = 3, b"configuration: %s"

    def __init__(self, *why):
        super().__init__(b" ".join(why))


# ---- the text


def tables_of(text):
    """The tables of a TOML text.

    The texts that TOML 1.1 alone takes are refused here, and nesting beyond 80 isn't; no check that this model reads
    has either.
    """
    try:
        table = tomllib.loads(text.decode().removeprefix("\ufeff"))
    except (UnicodeDecodeError, tomllib.TOMLDecodeError, RecursionError):
        raise Unconfigured(b"not toml") from None
    check_integers(table)
    return table


def check_integers(value):
    """TOML's integers have 64 bits."""
    if isinstance(value, dict):
        value = list(value.values())
    if isinstance(value, list):
        for item in value:
            check_integers(item)
    elif type(value) is int and not -(2**63) <= value < 2**63:
        raise Unconfigured(b"not toml")


# ---- the walk over the keys


def wrong_kind(key):
    return Unconfigured(b"wrong kind", key.encode())


def text(key, value):
    if not isinstance(value, str):
        raise wrong_kind(key)
    return value.encode()


def integer(least):
    def read(key, value):
        if type(value) is not int or not least <= value < NUMBER_END:
            raise wrong_kind(key)
        return value

    return read


def list_of(read):
    def read_all(key, value):
        if not isinstance(value, list):
            raise wrong_kind(key)
        return [read(key, item) for item in value]

    return read_all


def table(kinds, required):
    """Reads a table whose keys have these kinds."""

    def read(key, value):
        if not isinstance(value, dict):
            raise wrong_kind(key)
        found = {}
        for name in sorted(value, key=str.encode):
            if name not in kinds:
                raise Unconfigured(b"unknown key", name.encode())
            found[name] = kinds[name](name, value[name])
        for name in required:
            if name not in found:
                raise wrong_kind(name)
        return found

    return read


read_folder = table({"order": integer(0), "path": text, "exclude": list_of(text)}, ["order", "path"])
read_builder = table({"name": text, "patterns": list_of(text), "version": integer(1)}, ["name"])
read_values = table({"platforms": list_of(text), "folder": list_of(read_folder), "builder": list_of(read_builder)}, [])


# ---- the checks of the values, in their order


def first_repeated(values):
    return next((value for place, value in enumerate(values) if value in values[:place]), None)


def check_orders(folders):
    order = first_repeated([folder["order"] for folder in folders])
    if order is not None:
        raise Unconfigured(b"same order", b"%d" % order)


def check_names(names, is_good, words):
    for place, name in enumerate(names):
        if not is_good(name) or name in names[:place]:
            raise Unconfigured(words, name)


def check_paths(folders):
    for folder in folders:
        path = folder["path"]
        if not is_path(path) or folded(path).split(b"/")[0] == b"cache":
            raise Unconfigured(b"bad path", path)


def check_patterns(tables, key):
    for pattern in (pattern for row in tables for pattern in row.get(key, [])):
        if not 1 <= len(pattern) <= 240:
            raise Unconfigured(b"bad pattern", pattern)


def read_config(bytes_of_file, offers):
    """The configuration that a file's bytes say for these offers, by name."""
    values = read_values("", tables_of(bytes_of_file))
    platforms, folders, builders = (values.get(key, []) for key in ("platforms", "folder", "builder"))
    check_orders(folders)
    check_names([builder["name"] for builder in builders], lambda name: name in offers, b"unknown builder")
    check_names(platforms, is_platform, b"bad platform")
    if not platforms or not folders or not builders:
        raise Unconfigured(b"nothing enabled")
    check_paths(folders)
    check_patterns(folders, "exclude")
    check_patterns(builders, "patterns")
    return Config(
        platforms,
        [Folder(it["order"], it["path"], it.get("exclude", [])) for it in folders],
        [builder_of(it, offers[it["name"]]) for it in builders],
    )


def builder_of(values, offer):
    return Offer(offer.name, values.get("patterns", offer.patterns), values.get("version", offer.version))


# ---- patterns


def wild(pattern, path):
    """Whether a pattern matches a path: by characters, the letters of ASCII in either case."""
    kinds = {"*": ".*", "?": "."}
    wanted = "".join(kinds.get(it) or re.escape(it) for it in folded(pattern).decode())
    return re.fullmatch(wanted, folded(path).decode(), re.DOTALL) is not None


def some_match(patterns, path):
    return any(wild(pattern, path) for pattern in patterns)
