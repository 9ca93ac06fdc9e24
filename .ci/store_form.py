"""The form of a store's file after docs/FORMATS.md: names, fields, things, rows, items and records."""

import collections
import re
import struct

MARK = b"APSTORE1"
HEADER = MARK + struct.pack(">Q", 1)
# The tags of things.
BYTES, CREATE_INPUT, JOB_INPUT, PRODUCTS = range(4)

# A thing: its tag, its text, and its kids, which are things too.
Thing = collections.namedtuple("Thing", "tag text kids")
# A product as the text of its thing has it.
Product = collections.namedtuple("Product", "name kind sub refs old formerly bytes")


class Bad(Exception):
    """What doesn't have its form, or isn't lawful."""


class Refusal(Exception):
    """A run that is refused. Each kind has its status, and the words of its line, which take the details."""

    def __init__(self, *details, why=""):
        super().__init__(why)
        self.details = details

    def line(self):
        return b"ap: " + self.words % self.details + b"\n"


class BadStore(Refusal):
    status, words = 9, b"bad store: record %d offset %d"


# ---- names


def is_path(path):
    try:
        path.decode()
    except UnicodeDecodeError:
        return False
    parts = path.split(b"/")
    return (
        1 <= len(path) <= 240
        and not any(part in (b"", b".", b"..") for part in parts)
        and not any(byte < 0x20 or byte in b"\\\x7f" for byte in path)
    )


def folded(path):
    return bytes(byte + 32 if 65 <= byte <= 90 else byte for byte in path)


def is_name(name):
    return re.fullmatch(rb"[a-z0-9_-]{1,32}", name) is not None


def is_platform(name):
    return re.fullmatch(rb"[a-z0-9]{1,16}", name) is not None


def is_file_name(name):
    try:
        name.decode()
    except UnicodeDecodeError:
        return False
    return (
        1 <= len(name) <= 255
        and name not in (b".", b"..")
        and not any(byte < 0x20 or byte in b"/\\\x7f" or 65 <= byte <= 90 for byte in name)
    )


# ---- fields


def number(width, value):
    return value.to_bytes(width, "big")


def behind_length(width, run):
    return number(width, len(run)) + run


def listed(width, all_of):
    return number(width, len(all_of)) + b"".join(all_of)


def path_field(path):
    return behind_length(2, path)


def name_field(name):
    return behind_length(1, name)


def job_id_field(job_id):
    source, key, platform = job_id
    return path_field(source) + name_field(key) + name_field(platform)


class Fields:
    """Reads the fields of a run of bytes one after another."""

    def __init__(self, run):
        self.run, self.at = run, 0

    def take(self, count):
        if self.at + count > len(self.run):
            raise Bad("the bytes end within a field")
        self.at += count
        return self.run[self.at - count : self.at]

    def number(self, width):
        return int.from_bytes(self.take(width), "big")

    def checked(self, width, is_good, what):
        run = self.take(self.number(width))
        if not is_good(run):
            raise Bad(f"no {what}")
        return run

    def path(self):
        return self.checked(2, lambda path: is_path(path) and folded(path) == path, "folded path")

    def raw(self):
        return self.checked(2, is_path, "path")

    def name(self):
        return self.checked(1, is_name, "name")

    def platform(self):
        return self.checked(1, is_platform, "platform")

    def file_name(self):
        return self.checked(2, is_file_name, "file name")

    def blob(self, width=4):
        return self.take(self.number(width))

    def list(self, one, width=4):
        return [one() for _ in range(self.number(width))]

    def one_of(self, *values):
        value = self.number(1)
        if value not in values:
            raise Bad(f"a byte {value}")
        return value

    def job_id(self):
        return self.path(), self.name(), self.platform()

    def is_over(self):
        return self.at == len(self.run)


# ---- things


def bytes_thing(run):
    return Thing(BYTES, run, ())


def mark_kids(fields):
    """The kids that a mark has: the tags that these may have."""
    return [(BYTES,)] if fields.one_of(0, 1, 2) == 0 else []


def create_input_kids(fields):
    fields.list(lambda: (fields.name(), fields.number(4)), 8)
    fields.list(fields.platform, 8)
    fields.path()
    kids = [(BYTES,)] if fields.one_of(0, 2) == 0 else []
    for some in fields.list(lambda: (fields.path(), mark_kids(fields))[1], 8):
        kids += some
    return kids


def job_input_kids(fields):
    fields.name(), fields.number(4), fields.platform(), fields.name(), fields.blob(8), fields.path()
    kids = [(BYTES,)]
    for some in fields.list(lambda: (fields.path(), mark_kids(fields))[1], 8):
        kids += some
    for kind in fields.list(lambda: (fields.one_of(0, 2), fields.job_id())[0], 8):
        kids += [(PRODUCTS,)] if kind == 0 else [(JOB_INPUT,), (PRODUCTS,)]
    return kids


def product_fields(fields):
    return Product(
        fields.file_name(),
        fields.name(),
        fields.number(4),
        fields.list(lambda: (fields.path(), fields.number(4))),
        fields.list(lambda: fields.number(4)),
        fields.list(fields.path),
        None,
    )


def products_kids(fields):
    return [(BYTES,) for _ in fields.list(lambda: product_fields(fields))]


KIDS_OF = {CREATE_INPUT: create_input_kids, JOB_INPUT: job_input_kids, PRODUCTS: products_kids}


def check_form(thing):
    """That the text has the grammar of its tag, and the kids the tags that this asks for."""
    if thing.tag == BYTES:
        wanted = []
    elif thing.tag in KIDS_OF:
        fields = Fields(thing.text)
        wanted = KIDS_OF[thing.tag](fields)
        if not fields.is_over():
            raise Bad("bytes behind the text of a thing")
    else:
        raise Bad(f"the tag {thing.tag}")
    if [(kid.tag,) for kid in thing.kids] != wanted:
        raise Bad("kids of other tags")


def products_of(thing):
    fields = Fields(thing.text)
    return [row._replace(bytes=kid.text) for row, kid in zip(fields.list(lambda: product_fields(fields)), thing.kids)]


# ---- rows: created, results and seen have their things in place of numbers


def job_field(fields):
    return (
        fields.name(),
        fields.number(4),
        fields.platform(),
        fields.name(),
        int.from_bytes(fields.take(4), "big", signed=True),
        fields.blob(),
        tuple(fields.list(lambda: (fields.one_of(0, 1, 2), fields.job_id()))),
    )


def spell_job(job):
    builder, version, platform, key, priority, parameters, dependencies = job
    return (
        name_field(builder)
        + number(4, version)
        + name_field(platform)
        + name_field(key)
        + priority.to_bytes(4, "big", signed=True)
        + behind_length(4, parameters)
        + listed(4, [number(1, kind) + job_id_field(job_id) for kind, job_id in dependencies])
    )


def created_field(fields):
    kind = fields.one_of(0, 1, 2, 3)
    if kind == 0:
        return (0, tuple(fields.list(lambda: job_field(fields))))
    if kind == 1:
        return (1, fields.name(), fields.number(4))
    if kind == 2:
        return (2, fields.name(), fields.platform())
    return (3,)


class Tables:
    """The rows, and the things of a file with their numbers."""

    def __init__(self):
        self.folders, self.sources, self.creates, self.jobs = [], {}, {}, {}
        self.things, self.numbers, self.named, self.defined = {}, {}, collections.Counter(), 0
        # The things that live, and that nothing names.
        self.loose = set()

    # -- things

    def define(self, thing):
        check_form(thing)
        if thing in self.numbers:
            raise Bad("a thing that lives already")
        self.defined += 1
        self.things[self.defined] = thing
        self.numbers[thing] = self.defined
        self.loose.add(thing)
        self.name(thing.kids)

    def drop(self, place):
        thing = self.thing(place)
        if self.named[thing]:
            raise Bad("a Drop of a thing that is named")
        del self.things[place], self.numbers[thing]
        self.loose.discard(thing)
        self.unname(thing.kids)

    def name(self, things):
        self.named.update(things)
        self.loose.difference_update(things)

    def unname(self, things):
        self.named.subtract(things)
        self.loose.update(thing for thing in things if not self.named[thing])

    def thing(self, place, tag=None):
        thing = self.things.get(place)
        if thing is None:
            raise Bad(f"the number {place} doesn't live")
        if tag is not None and thing.tag != tag:
            raise Bad(f"the number {place} has the tag {thing.tag}")
        return thing

    # -- rows; each row's last part is the list of the things that it names

    def put(self, rows, key, row):
        self.name(row[-1])
        if key in rows:
            self.unname(rows[key][-1])
        rows[key] = row

    def remove(self, rows, key):
        if key not in rows:
            raise Bad("a removed row isn't there")
        self.unname(rows.pop(key)[-1])

    def put_folders(self, folders):
        if any(a[0] >= b[0] for a, b in zip(folders, folders[1:])):
            raise Bad("the orders of the folders don't rise")
        self.folders = folders

    # -- items

    def take(self, fields):
        """Reads an item and does it."""
        kind = fields.number(1)
        if kind == 1:
            tag, text = fields.number(1), fields.blob()
            kids = fields.list(lambda: fields.number(8))
            self.define(Thing(tag, text, tuple(self.thing(kid) for kid in kids)))
        elif kind == 2:
            self.drop(fields.number(8))
        elif kind == 3:
            path, order, name = fields.path(), fields.number(4), fields.raw()
            seen = [fields.number(8)] if fields.one_of(0, 2) == 0 else []
            things = [self.thing(place, BYTES) for place in seen]
            self.put(self.sources, path, (order, name, things))
        elif kind == 4:
            self.remove(self.sources, fields.path())
        elif kind == 5:
            path, place = fields.path(), fields.number(8)
            created = created_field(fields)
            self.put(self.creates, path, (created, [self.thing(place, CREATE_INPUT)]))
        elif kind == 6:
            self.remove(self.creates, fields.path())
        elif kind == 7:
            self.take_job(fields)
        elif kind == 8:
            self.remove(self.jobs, fields.job_id())
        elif kind == 9:
            self.put_folders(fields.list(lambda: (fields.number(4), fields.raw())))
        else:
            raise Bad(f"an item {kind}")

    def take_job(self, fields):
        job_id, kind = fields.job_id(), fields.one_of(0, 1, 2, 3)
        if kind == 0:
            place, outcome = fields.number(8), fields.one_of(0, 1)
            last = fields.number(8 if outcome == 0 else 4)
            things = [self.thing(place, JOB_INPUT)]
            if outcome == 0:
                self.put(self.jobs, job_id, ((0, 0), things + [self.thing(last, PRODUCTS)]))
            else:
                self.put(self.jobs, job_id, ((0, 1, last), things))
        elif kind == 1:
            self.put(self.jobs, job_id, ((1,), []))
        else:
            self.put(self.jobs, job_id, ((kind, fields.job_id()), []))

    # -- what is settled: the rows without the numbers

    def rows(self):
        for order, path in self.folders:
            yield ("folders", order, path)
        for kind in ("sources", "creates", "jobs"):
            for key, row in sorted(getattr(self, kind).items()):
                yield (kind, key, *row)


# ---- the file


def standing(file):
    """The payloads of the records that stand, and the offset of the gate behind the last of them."""
    at, payloads = len(HEADER), []
    while len(file) >= at + 5 and file[at] == 1:
        (length,) = struct.unpack_from(">I", file, at + 1)
        if len(file) <= at + 5 + length:
            break
        payloads.append(file[at + 5 : at + 5 + length])
        at += 5 + length
    return payloads, at


def read_tables(file):
    """The tables of a file, where each record is lawful at its place."""
    payloads, _ = standing(file)
    if payloads and not file.startswith(MARK):
        raise BadStore(0, 0, why="another mark")
    tables = Tables()
    for place, payload in enumerate(payloads, 1):
        fields = Fields(payload)
        while not fields.is_over():
            begin = fields.at
            try:
                tables.take(fields)
            except Bad as fault:
                raise BadStore(place, begin, why=str(fault)) from None
    return tables


def opened(file):
    """The file as an opening leaves it."""
    payloads, gate = standing(file)
    if not payloads:
        return bytearray(HEADER + b"\0")
    return bytearray(file[:gate] + b"\0")
