"""What a run over a configuration and a store comes to, after docs/FORMATS.md alone."""

import collections

from config_form import Offer, Unconfigured, read_config, some_match
from scan_form import TOO_LARGE, read, scan
from store_form import (
    CREATE_INPUT,
    HEADER,
    JOB_INPUT,
    MARK,
    PRODUCTS,
    Fields,
    Refusal,
    Thing,
    behind_length,
    bytes_thing,
    job_id_field,
    listed,
    name_field,
    number,
    opened,
    path_field,
    products_of,
    read_tables,
    spell_job,
    standing,
)

LIMIT = 2**32


class StoreFull(Refusal):
    status, words = 11, b"store full: length %d wanted %d"


class Unbuilt(Refusal):
    status, words = 13, b"unbuilt"


class Unsound(Exception):
    """The rows of a store aren't what the builder answers."""


class Store:
    """A file with its tables, to which changes are committed."""

    def __init__(self, before, limit=LIMIT):
        self.limit, self.file, self.ends = limit, bytearray(before), []
        if before.startswith(MARK) or not standing(before)[0]:
            self.file = opened(before)

    def read(self):
        self.tables = read_tables(bytes(self.file))
        self.ends.append(len(self.file))

    def defines(self, things):
        """The items that define what the file lacks at or below these things, kids before parents."""
        places, items = dict(self.tables.numbers), []

        def visit(thing):
            if thing in places:
                return
            for kid in thing.kids:
                visit(kid)
            places[thing] = self.tables.defined + len(items) + 1
            kids = [number(8, places[kid]) for kid in thing.kids]
            items.append(b"\1" + number(1, thing.tag) + behind_length(4, thing.text) + listed(4, kids))

        for thing in things:
            visit(thing)
        return b"".join(items), [number(8, places[thing]) for thing in things]

    def drops(self):
        """The items that drop what no row reaches, by falling number."""
        left, gone = collections.Counter(), []
        loose = list(self.tables.loose)
        while loose:
            thing = loose.pop()
            gone.append(self.tables.numbers[thing])
            for kid in thing.kids:
                left[kid] += 1
                if self.tables.named[kid] == left[kid]:
                    loose.append(kid)
        return b"".join(b"\2" + number(8, place) for place in sorted(gone, reverse=True))

    def take(self, payload):
        fields = Fields(payload)
        while not fields.is_over():
            self.tables.take(fields)

    def commit(self, spell, *things):
        """Commits the items that `spell` gives for the numbers of these things. After StoreFull nothing is committed
        any more."""
        payload, places = self.defines(things)
        payload += spell(*places)
        self.take(payload)
        drops = self.drops()
        self.take(drops)
        payload += drops
        wanted = 5 + len(payload)
        if len(self.file) + wanted > self.limit:
            raise StoreFull(len(self.file), wanted)
        self.file[-1:] = b"\1" + behind_length(4, payload) + b"\0"
        self.ends.append(len(self.file))


# ---- the builder `copy`


COPY = b"copy"
OFFERS = {COPY: Offer(COPY, [b"*.txt", b"*.png", b"*.wav"], 1)}


def base(path):
    return path.rsplit(b"/", 1)[-1]


def copy_created(builders, platforms):
    """What `copy` creates from an input with these builders and their versions, and these platforms."""
    version = dict(reversed(builders)).get(COPY, 1)
    return (0, tuple((COPY, version, platform, COPY, 0, b"", ()) for platform in platforms))


def job_input(path, job, content):
    builder, version, platform, key, _, parameters, _ = job
    text = name_field(builder) + number(4, version) + name_field(platform) + name_field(key)
    text += behind_length(8, parameters) + path_field(path) + number(8, 0) + number(8, 0)
    return Thing(JOB_INPUT, text, (bytes_thing(content),))


def copy_made(path, content):
    """The thing of the products that `copy` makes."""
    text = behind_length(2, base(path)) + name_field(COPY) + number(4, 0) + number(4, 0) * 3
    return Thing(PRODUCTS, number(4, 1) + text, (bytes_thing(content),))


def check_sound(tables):
    """That each row of work has what `copy` answers on its recorded input, and each row the row that it hangs on."""
    for path, (created, (recorded,)) in tables.creates.items():
        fields = Fields(recorded.text)
        builders = fields.list(lambda: (fields.name(), fields.number(4)), 8)
        platforms = fields.list(fields.platform, 8)
        if path not in tables.sources or fields.path() != path or created != copy_created(builders, platforms):
            raise Unsound
    for (path, key, platform), (result, things) in tables.jobs.items():
        job = [it for it in tables.creates.get(path, ((0, ()),))[0][1] if (it[3], it[2]) == (key, platform)]
        if result != (0, 0) or not job:
            raise Unsound
        content = things[0].kids[0].text
        if things != [job_input(path, job[0], content), copy_made(path, content)]:
            raise Unsound


# ---- what is settled for a configuration


def configured(config):
    """The configuration that the file at a path says."""
    content = read(config)
    if content is None:
        raise Unconfigured(b"absent")
    if content is TOO_LARGE:
        raise Unconfigured(b"too large")
    return read_config(content, OFFERS)


class Project:
    """A configuration with what its scan finds; of each source's path its order, its name and its bytes."""

    def __init__(self, config):
        self.config, found = config, scan(config)
        self.hidden, self.odd = found.hidden, found.odd
        if any(content is TOO_LARGE for _, content in found.winners):
            raise Unbuilt
        self.sources = {
            winner.path: (winner.order, winner.name, content)
            for winner, content in found.winners
            if self.matching(winner.path)
        }
        self.paths = sorted(self.sources)

    def matching(self, path):
        """The builders that match a path, with their versions."""
        return [(it.name, it.version) for it in self.config.builders if some_match(it.patterns, path)]

    def settle(self, store, entries):
        """Commits what differs, and lists what is asked for."""
        folders = sorted((folder.order, folder.path) for folder in self.config.folders)
        if store.tables.folders != folders:
            spelled = listed(4, [number(4, order) + path_field(path) for order, path in folders])
            store.commit(lambda: b"\x09" + spelled)
        for path in sorted({*self.sources, *store.tables.sources}):
            self.settle_source(store, path)
        for path in self.paths:
            self.settle_create(store, path, entries)
        for path in self.paths:
            for job in sorted(store.tables.creates[path][0][1], key=lambda job: (job[3], job[2])):
                self.settle_job(store, path, job, entries)

    def settle_source(self, store, path):
        tables = store.tables
        if path not in self.sources:
            items = b"\x04" + path_field(path)
            if path in tables.creates:
                items += b"\x06" + path_field(path)
            for job_id in sorted(tables.jobs):
                if job_id[0] == path:
                    items += b"\x08" + job_id_field(job_id)
            store.commit(lambda: items)
            return
        order, name, content = self.sources[path]
        row = (order, name, [bytes_thing(content)])
        if tables.sources.get(path) != row:
            head = b"\x03" + path_field(path) + number(4, order) + path_field(name) + b"\0"
            store.commit(lambda place: head + place, *row[-1])

    def create_input(self, path):
        builders, platforms = self.matching(path), self.config.platforms
        text = listed(8, [name_field(name) + number(4, version) for name, version in builders])
        text += listed(8, [name_field(platform) for platform in platforms])
        text += path_field(path) + b"\0" + number(8, 0)
        return Thing(CREATE_INPUT, text, (bytes_thing(self.sources[path][-1]),))

    def settle_create(self, store, path, entries):
        tables, wanted = store.tables, self.create_input(path)
        if path in tables.creates and tables.creates[path][-1] == [wanted]:
            return
        builders = self.matching(path)
        entries += [b" ".join((b"create", name, path)) for name, _ in builders]
        (_, jobs) = copy_created(builders, self.config.platforms)
        spelled = b"\0" + listed(4, [spell_job(job) for job in jobs])
        gone = sorted(it for it in tables.jobs if it[0] == path and it[1:] not in [(job[3], job[2]) for job in jobs])
        removed = b"".join(b"\x08" + job_id_field(job_id) for job_id in gone)
        store.commit(lambda place: b"\x05" + path_field(path) + place + spelled + removed, wanted)

    def settle_job(self, store, path, job, entries):
        content = self.sources[path][-1]
        wanted, job_id = job_input(path, job, content), (path, job[3], job[2])
        if job_id in store.tables.jobs and store.tables.jobs[job_id][-1][:1] == [wanted]:
            return
        entries.append(b" ".join((b"process", job[2], job[3], path)))
        head = b"\x07" + job_id_field(job_id) + b"\0"
        store.commit(lambda place, product: head + place + b"\0" + product, wanted, copy_made(path, content))


def laid_out(tables):
    """The cache's files, by path: the products of all jobs."""
    laid = {}
    for (path, _, platform), (_, things) in sorted(tables.jobs.items()):
        for product in products_of(things[1]):
            folder = path[: len(path) - len(base(path))]
            laid[platform + b"/" + folder + product.name] = product.bytes
    for path in laid:
        if any(path[:at] in laid for at, byte in enumerate(path) if byte == 47):
            raise Unbuilt
    return laid


def tables_settled(config):
    """The tables that the configuration at a path settles to."""
    store = Store(b"")
    store.read()
    Project(configured(config)).settle(store, [])
    return store.tables


# ---- runs


def report(project, entries, tables):
    made = len(tables.jobs)
    lines = list(entries)
    lines += [b"hidden %d %s" % other for other in project.hidden]
    lines += [b"odd %d %s" % (order, name.hex().encode()) for order, name in project.odd]
    counts = f"sources {len(tables.sources)} jobs {made} done {made} published {made} shadowed 0 wrote {made} removed 0"
    lines += [counts.encode(), b"problems" if project.odd else b"ok"]
    return b"".join(line + b"\n" for line in lines)


class Run:
    """What a run comes to: its status, its output, and the store's file, which is None where there is none."""

    def __init__(self, config, before, limit=LIMIT):
        self.file = before
        try:
            self.status, self.output = self.go(config, limit)
        except Refusal as stop:
            self.status, self.output = stop.status, stop.line()
        except Unsound:
            self.status, self.output = 99, b""

    def go(self, config, limit):
        config = configured(config)
        store = Store(self.file or b"", limit)
        self.file = store.file
        store.read()
        check_sound(store.tables)
        project, entries = Project(config), []
        project.settle(store, entries)
        laid_out(store.tables)
        return 1 if project.odd else 0, report(project, entries, store.tables)


# ---- the form before this one


def old_store(config):
    file = HEADER
    for path, (_, _, content) in sorted(Project(configured(config)).sources.items()):
        payload = path_field(path) + number(4, 1) + behind_length(4, content)
        payload += path_field(base(path)) + behind_length(4, content)
        file += b"\1" + behind_length(4, payload)
    return file + b"\0"
