"""The scan of a project's folders after docs/FORMATS.md: winners, hidden files and odd names, and their limits."""

import collections
import os
import stat

from config_form import FILE_LIMIT, some_match
from store_form import Refusal, folded, is_path

FILES_LIMIT = 20_000
BYTES_LIMIT = 268_435_456

# A file's content where it has more bytes than are read.
TOO_LARGE = object()

# Candidates for a path: the first of them in this order wins. The file is its path from the project's root on.
Candidate = collections.namedtuple("Candidate", "path order name file")
# What a scan finds: of each path, in order, the winner and what it has; (order, name) of the other files.
Scan = collections.namedtuple("Scan", "winners hidden odd")


class TreeFault(Refusal):
    status, words = 4, b"tree fault"


class Limit(Refusal):
    status, words = 10, b"limit: %s %d"


# ---- the files of the current folder; links aren't followed


def kind_of(path):
    """The file type of what stands at a path, or None where nothing does or a link or a file is on the way."""
    parts = path.split(b"/")
    fronts = [b"/".join(parts[:count]) for count in range(1, len(parts) + 1)]
    try:
        kinds = [stat.S_IFMT(os.lstat(front).st_mode) for front in fronts]
    except (FileNotFoundError, NotADirectoryError):
        return None
    return kinds[-1] if all(kind == stat.S_IFDIR for kind in kinds[:-1]) else None


def read(path):
    """The bytes of the file at a path, or that it is too large; None where there is no such file."""
    if kind_of(path) != stat.S_IFREG:
        return None
    with open(path, "rb") as file:
        content = file.read(FILE_LIMIT + 1)
    return content if len(content) <= FILE_LIMIT else TOO_LARGE


def names_below(folder, exclude):
    """The names of the plain files below a folder, from it on. Folders in it all of whose files are excluded aren't
    looked into."""

    def walk(place, front):
        if len(b"./" + place) > 4096:
            raise TreeFault
        for entry in os.scandir(place):
            check_utf_8(entry.name)
            if entry.is_file(follow_symlinks=False):
                yield front + entry.name
            elif entry.is_dir(follow_symlinks=False):
                below = front + entry.name + b"/"
                if not any(pattern.endswith(b"*") and some_match([pattern], folded(below)) for pattern in exclude):
                    yield from walk(place + b"/" + entry.name, below)

    if kind_of(folder) == stat.S_IFDIR:
        yield from walk(folder, b"")


def check_utf_8(name):
    try:
        name.decode()
    except UnicodeDecodeError:
        raise TreeFault from None


# ---- the scan


def scan(config):
    candidates, odd = [], []
    for folder in config.folders:
        for name in names_below(folder.path, folder.exclude):
            if not is_path(name):
                odd.append((folder.order, name))
            elif not some_match(folder.exclude, folded(name)):
                candidates.append(Candidate(folded(name), folder.order, name, folder.path + b"/" + name))
    candidates.sort()
    winners = [it for place, it in enumerate(candidates) if not place or candidates[place - 1].path != it.path]
    if len(winners) > FILES_LIMIT:
        raise Limit(b"files", len(winners))
    won = set(winners)
    hidden = [(it.order, it.name) for it in candidates if it not in won]
    return Scan(list(read_all(winners)), hidden, sorted(odd))


def read_all(winners):
    """The winners with what they have, in the order of their paths, up to the one that passes the limit."""
    total = 0
    for winner in winners:
        content = read(winner.file)
        if content is None:
            continue
        total += 0 if content is TOO_LARGE else len(content)
        if total > BYTES_LIMIT:
            raise Limit(b"bytes", total)
        yield winner, content
