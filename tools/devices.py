"""A second reader of the nine devices, made of docs/FORMATS.md alone: what stands on them, and which check of a folder fails first.

The program's own reader isn't looked at: `tools/damages` compares the two, and `tools/logdump` shows what is read.
"""
from collections import defaultdict
from dataclasses import dataclass, field, replace
from pathlib import Path

OPEN, CLOSED = 0xA5, 0
PAGE_BYTES, PAGES, SLOTS, HEAP, ENTRY = 1024, 1024, 168, 16, 6
MASTER_BYTES, AREA, AREA_BYTES = 64, 130, 1_048_576
LOGS, MOST_VALUE, NO_VALUE, LSN_END = 8, 256, 65_535, 2**62
GATE, HEAD, LEAST_GROUP = 1, 5, 9
DATA_BYTES, LOG_BYTES = 2 * (GATE + PAGE_BYTES) * PAGES, AREA + 2 * AREA_BYTES
UNDO, END = 47, 31


# ---- files

def files(folder):
    """The nine devices of a folder. A file that isn't there is blank; one of another length is refused as ValueError."""
    devices = []
    for dev, name in enumerate(["data", *(f"log{number}" for number in range(1, LOGS + 1))]):
        path, size = Path(folder) / name, LOG_BYTES if dev else DATA_BYTES
        data = path.read_bytes() if path.exists() else bytes(size)
        if len(data) != size:
            raise ValueError(f"{path} has {len(data)} bytes, and not {size}")
        devices.append(data)
    return devices


# ---- records

class Broken(Exception):
    """The bytes keep no format, and why."""


@dataclass(frozen=True)
class Record:
    """A log record; `place` and `size` are those of its bytes in the area, and what a kind of record lacks is None."""

    kind: str
    lsn: int
    txn: tuple = None
    prev: int = None
    undo_next: int = None
    page: int = None
    slot: int = None
    capacity: int = None
    before: bytes = None
    after: bytes = None
    epoch: int = None
    begin: int = None
    txns: tuple = ()
    pages: tuple = ()
    dev: int = 0
    place: int = 0
    size: int = 0

    @property
    def rid(self):
        return self.page, self.slot

    @property
    def changes(self):
        return self.kind in ("Update", "Clr")

    @property
    def closes(self):
        return self.kind in ("Commit", "End")


# Behind type and LSN: of each field its name and how it is spelt, in the document's order.
KINDS = {
    1: ("Start", ("epoch",)),
    2: ("Update", ("txn", "prev", "page", "slot", "capacity", "before", "after")),
    3: ("Clr", ("txn", "prev", "undo_next", "page", "slot", "after")),
    4: ("Commit", ("txn", "prev")),
    5: ("End", ("txn", "prev")),
    6: ("BeginCheck", ()),
    7: ("EndCheck", ("begin", "txns", "pages")),
}
# Of each number its bytes, the least and the one above the greatest.
NUMBERS = {
    "epoch": (4, 1, 2**32),
    "lsn": (8, 1, LSN_END),
    "prev": (8, 0, 2**64),
    "undo_next": (8, 0, 2**64),
    "begin": (8, 0, 2**64),
    "noted": (8, 0, 2**64),
    "page": (4, 0, PAGES),
    "slot": (2, 0, SLOTS),
    "capacity": (2, 0, MOST_VALUE + 1),
    "inst": (1, 1, LOGS + 1),
    "seq": (4, 1, 2**32),
    "count": (2, 0, 2**16),
}


class Bytes:
    """Bytes of an area that are read one field after another, up to the end of their group."""

    def __init__(self, data, place, end):
        self.data, self.place, self.end = data, place, end

    def take(self, size):
        if self.place + size > self.end:
            raise Broken("the record passes the end of its group")
        self.place += size
        return self.data[AREA + self.place - size:AREA + self.place]

    def number(self, name):
        size, least, above = NUMBERS[name]
        found = int.from_bytes(self.take(size), "big")
        if not least <= found < above:
            raise Broken(f"{found} is no {name}")
        return found

    def field(self, name):
        match name:
            case "txn":
                return self.number("inst"), self.number("epoch"), self.number("seq")
            case "before" | "after":
                length = int.from_bytes(self.take(2), "big")
                if length == NO_VALUE:
                    return None
                if length > MOST_VALUE:
                    raise Broken(f"a value has {length} bytes")
                return self.take(length)
            case "txns":
                return self.rising(lambda: (self.field("txn"), self.number("noted"), self.number("noted")))
            case "pages":
                return self.rising(lambda: (self.number("page"), self.number("noted")))
        return self.number(name)

    def rising(self, item):
        found = tuple(item() for _ in range(self.number("count")))
        if any(one[0] >= next[0] for one, next in zip(found, found[1:])):
            raise Broken("a table doesn't rise")
        return found

    def record(self, dev):
        """The record that starts here, or Broken."""
        place = self.place
        kind = self.take(1)[0]
        if kind not in KINDS:
            raise Broken(f"{kind} is no type of records")
        name, fields = KINDS[kind]
        lsn = self.number("lsn")
        found = {part: self.field(part) for part in fields}
        return Record(name, lsn, dev=dev, place=place, size=self.place - place, **found)


# ---- twins

@dataclass(frozen=True)
class Half:
    """A slot of a twin: the byte of its gate, whether that is open, its body and the number that the body begins with."""

    at: int
    is_open: bool
    body: bytes

    @property
    def number(self):
        return int.from_bytes(self.body[:8], "big")


def twin(data, at, size):
    """The two slots of a twin, and which one counts: 0, 1 or None."""
    places = (at, at + GATE + size)
    halves = [Half(place, data[place] == OPEN, data[place + GATE:place + GATE + size]) for place in places]
    live = [half for half in (0, 1) if halves[half].is_open]
    return halves, max(live, key=lambda half: halves[half].number, default=None)


# ---- logs

@dataclass(frozen=True)
class Master:
    """What a master's body says."""

    count: int
    area: int
    epoch: int
    check: int
    start: int
    rest: bytes

    @classmethod
    def of(cls, body):
        return cls(*(int.from_bytes(body[low:high], "big") for low, high in ((0, 8), (8, 9), (9, 13), (13, 21), (21, 25))), body[25:])


@dataclass
class Group:
    """A group: the place of its gate, the length of its body, its records, and where the format breaks in it, with the reason."""

    place: int
    length: int
    records: list = field(default_factory=list)
    broken: tuple = None


def group_at(dev, data, place):
    """What stands behind the gate at a place."""
    length = int.from_bytes(data[AREA + place + GATE:AREA + place + HEAD], "big")
    group = Group(place, length)
    if length < LEAST_GROUP or place + HEAD + length + GATE > AREA_BYTES:
        group.broken = place, f"a group can't have {length} bytes here"
        return group
    body = Bytes(data, place + HEAD, place + HEAD + length)
    while not group.broken and body.place < body.end:
        here = body.place
        try:
            group.records.append(body.record(dev))
        except Broken as why:
            group.broken = here, str(why)
    return group


class Log:
    """A log device: its master's slots, and the groups from the start place on, up to a closed gate or to where the format breaks."""

    def __init__(self, dev, data):
        self.dev, self.data = dev, data
        self.halves, self.counts = twin(data, 0, MASTER_BYTES)
        self.masters = [Master.of(half.body) for half in self.halves]
        self.master = None if self.counts is None else self.masters[self.counts]
        self.start = self.master.start if self.master else 0
        self.groups, self.next_gate = self.from_place(self.start) if self.start < AREA_BYTES else ([], self.start)
        self.records = [record for group in self.groups for record in group.records]
        self.broken = next((group.broken for group in self.groups if group.broken), None)

    def from_place(self, place, end=AREA_BYTES):
        """The groups from a place on behind open gates, and the place of the gate behind them."""
        groups = []
        while place < end and self.data[AREA + place] == OPEN:
            groups.append(group_at(self.dev, self.data, place))
            if groups[-1].broken:
                break
            place += HEAD + groups[-1].length
        return groups, place

    def of_transactions(self):
        """The records of each transaction, in their order."""
        found = defaultdict(list)
        for record in self.records:
            if record.txn:
                found[record.txn].append(record)
        return found


# ---- pages

@dataclass(frozen=True)
class Page:
    """A page: its LSN, and its slots, each with its capacity and its value or None."""

    number: int
    lsn: int
    slots: tuple = ()

    @property
    def heap_end(self):
        return HEAP + sum(capacity for capacity, _ in self.slots)


def page_of(body, number):
    """The page of that number whose image these bytes are, or Broken."""
    of, count, end = (int.from_bytes(body[low:high], "big") for low, high in ((8, 12), (12, 14), (14, 16)))
    if of != number:
        raise Broken(f"the image is of page {of}")
    if count > SLOTS:
        raise Broken(f"it has {count} slots")
    place, slots, empty = HEAP, [], PAGE_BYTES - ENTRY * count
    for slot in range(count):
        entry = PAGE_BYTES - ENTRY * (slot + 1)
        at, capacity, length = (int.from_bytes(body[entry + low:entry + low + 2], "big") for low in (0, 2, 4))
        live = 0 if length == NO_VALUE else length
        if at != place or capacity > MOST_VALUE or live > capacity or place + capacity > empty:
            raise Broken(f"the entry of slot {slot} is wrong")
        if any(body[place + live:place + capacity]):
            raise Broken(f"behind the value of slot {slot} stand no zeros")
        slots.append((capacity, None if length == NO_VALUE else body[place:place + live]))
        place += capacity
    if end != place:
        raise Broken(f"the heap ends at {place}, and not at {end}")
    if any(body[end:empty]):
        raise Broken("in the gap stand no zeros")
    return Page(number, int.from_bytes(body[:8], "big"), tuple(slots))


def image(body, number):
    """The page of an image, or the Broken that says why there is none."""
    try:
        return page_of(body, number)
    except Broken as why:
        return why


class Twin:
    """A page's twin on the data device. Of its two slots an open one has a page, or Broken where it is no image of one."""

    def __init__(self, data, number):
        self.number = number
        self.halves, self.counts = twin(data, 2 * (GATE + PAGE_BYTES) * number, PAGE_BYTES)
        self.pages = [image(half.body, number) if half.is_open else None for half in self.halves]

    @property
    def page(self):
        return Page(self.number, 0) if self.counts is None else self.pages[self.counts]


def misfit(page, record):
    """Why a record above it doesn't fit a page, or None."""
    if record.lsn <= page.lsn:
        return "another record has its LSN"
    is_new = record.kind == "Update" and record.slot == len(page.slots)
    if not is_new and record.slot >= len(page.slots):
        return f"the page has {len(page.slots)} slots"
    capacity, value = (record.capacity, None) if is_new else page.slots[record.slot]
    if record.kind == "Update" and record.before != value:
        return "the value before isn't there"
    if record.kind == "Update" and record.capacity != capacity:
        return f"the slot's capacity is {capacity}"
    if record.after is not None and len(record.after) > capacity:
        return "the value after is longer than the slot"
    if is_new and page.heap_end + capacity + ENTRY * (len(page.slots) + 1) > PAGE_BYTES:
        return "the page has no room"
    return None


def changed(page, record):
    """The page behind a record that fits it."""
    slots = list(page.slots)
    if record.slot == len(slots):
        slots.append((record.capacity, record.after))
    else:
        slots[record.slot] = slots[record.slot][0], record.after
    return replace(page, lsn=record.lsn, slots=tuple(slots))


# ---- the seven checks

@dataclass(frozen=True)
class Fault:
    """The check that fails first, with its device and byte, and why."""

    check: int
    dev: int
    at: int
    why: str


def faulty_master(log):
    """Check 1, but for the kept checkpoint."""
    first, second = log.halves
    if first.is_open and second.is_open and first.number == second.number:
        return "both slots have one count"
    for half, master in zip(log.halves, log.masters):
        if half.is_open and master.area:
            return f"a slot that is open names area {master.area}"
        if half.is_open and master.start >= AREA_BYTES:
            return f"the start place {master.start} isn't in the area"
        if half.is_open and any(master.rest):
            return "behind what a slot that is open says stand no zeros"
    return None


def keeps_check(log):
    """Whether the checkpoint that the master names is kept."""
    return any(record.kind == "EndCheck" and record.lsn == log.master.check for record in log.records)


def faulty_start(record, former, log, last_known):
    """Why a Start may not stand behind one of the former epoch, which is None where it is the first one."""
    epoch = log.master.epoch if log.master else 0
    if log.master and record.lsn <= log.master.check:
        if former is not None and record.epoch <= former:
            return f"its epoch isn't above {former}"
        if record.epoch > epoch or record == last_known and record.epoch != epoch:
            return f"the master's epoch is {epoch}"
    elif record.epoch != (epoch if former is None else former) + 1:
        return f"its epoch isn't one above {epoch if former is None else former}"
    return None


def misplaced(log):
    """Of check 2: the first record that may not stand behind those before it, and why; or None."""
    known = [record for record in log.records if record.kind == "Start" and log.master and record.lsn <= log.master.check]
    lsn, former = 0, None
    for record in log.records:
        begun = former if former is not None else log.master.epoch if log.master else 0
        why = None
        if record.lsn <= lsn:
            why = f"its LSN isn't above {lsn}"
        elif record.txn and record.txn[0] != log.dev:
            why = "its transaction is of another instance"
        elif record.txn and record.txn[1] > begun:
            why = f"its transaction is of an epoch above {begun}"
        elif record.kind == "Start":
            why = faulty_start(record, former, log, known[-1] if known else None)
        if why:
            return record, why
        lsn, former = record.lsn, record.epoch if record.kind == "Start" else former
    return None


def stacked(stack, record):
    """Takes what a record does to what is open of its transaction."""
    if record.kind == "Update":
        stack.append(record)
    elif record.kind == "Clr" and stack:
        stack.pop()


def opened(records):
    """The updates of a transaction's records that no undo has taken back."""
    stack = []
    for record in records:
        stacked(stack, record)
    return stack


def is_closed(records):
    """Whether a transaction of these records has committed or ended."""
    return any(record.closes for record in records)


def unbound(records):
    """Of check 3: each record of a transaction that breaks it, and why."""
    closed, last, stack = is_closed(records), len(records) - 1, []
    exempt = closed and records[0].prev != 0
    former = records[0].prev if closed else 0
    for index, record in enumerate(records):
        if record.prev != former:
            yield record, f"the record before it has LSN {former}" if former else "its transaction stays open, and what it names isn't read"
        if record.closes and index < last:
            yield record, "others of its transaction stand behind it"
        if record.kind == "End" and stack:
            yield record, f"the change of LSN {stack[-1].lsn} is open"
        if record.kind == "Clr" and not exempt:
            if not stack:
                yield record, "nothing is open"
            elif (record.rid, record.after, record.undo_next) != (stack[-1].rid, stack[-1].before, stack[-1].prev):
                yield record, f"it doesn't undo the change of LSN {stack[-1].lsn}"
        former = record.lsn
        stacked(stack, record)


def log_fault(log):
    """Checks 1 to 3 of a log."""
    if why := faulty_master(log):
        return Fault(1, log.dev, 0, why)
    if log.master and not log.broken and not keeps_check(log):
        return Fault(1, log.dev, 0, f"no EndCheck of LSN {log.master.check} is read")
    if found := misplaced(log):
        return Fault(2, log.dev, AREA + found[0].place, found[1])
    if log.broken:
        return Fault(2, log.dev, AREA + log.broken[0], log.broken[1])
    found = [pair for records in log.of_transactions().values() for pair in unbound(records)]
    if found:
        record, why = min(found, key=lambda pair: pair[0].place)
        return Fault(3, log.dev, AREA + record.place, why)
    return None


def twin_fault(twin):
    """Check 4 of a page."""
    first, second = twin.halves
    if first.is_open and second.is_open and first.number == second.number:
        return Fault(4, 0, first.at, f"page {twin.number}: both slots have one LSN")
    for half, page in zip(twin.halves, twin.pages):
        if half.is_open and isinstance(page, Broken):
            return Fault(4, 0, half.at, f"page {twin.number}: {page}")
    return None


class Folder:
    """The nine devices as they are read, and the first check that fails."""

    def __init__(self, devices):
        self.logs = [Log(dev, devices[dev]) for dev in range(1, LOGS + 1)]
        self.twins = [Twin(devices[0], number) for number in range(PAGES)]
        self.records, self.changes, self.open, self.newest = [], defaultdict(list), {}, {}
        self.fault = next(filter(None, self.faults()), None)

    def faults(self):
        """What each check finds, in their order; behind one that fails the next need not make sense."""
        yield from map(log_fault, self.logs)
        yield from map(twin_fault, self.twins)
        self.records = sorted((record for log in self.logs for record in log.records), key=lambda record: (record.lsn, record.dev))
        for record in self.records:
            if record.changes:
                self.changes[record.rid].append(record)
        self.open = {txn: opened(records) for log in self.logs for txn, records in log.of_transactions().items() if not is_closed(records)}
        yield from self.page_faults()
        yield from (self.open_fault(stack) for _, stack in sorted(self.open.items()) if stack)
        yield from map(self.room_fault, self.logs)

    def page_faults(self):
        """Check 5: the records above a page's disk image fit, one after another."""
        above = defaultdict(list)
        for record in self.records:
            if record.changes and record.lsn > self.twins[record.page].page.lsn:
                above[record.page].append(record)
        for twin in self.twins:
            page = twin.page
            for record in above[twin.number]:
                if why := misfit(page, record):
                    yield Fault(5, record.dev, AREA + record.place, f"page {twin.number}: {why}")
                    return
                page = changed(page, record)
            self.newest[twin.number] = page

    def open_fault(self, stack):
        """Check 6 of a transaction that stays open: what it would undo is there, and is its own."""
        of_records = defaultdict(list)
        for record in stack:
            of_records[record.rid].append(record)
        for rid, same in of_records.items():
            if why := self.obstacle(rid, same):
                return Fault(6, stack[0].dev, AREA + stack[0].place, f"of record {rid[0]}.{rid[1]}: {why}")
        return None

    def obstacle(self, rid, stack):
        """Why the open changes that a transaction made of a record, from the lowest on, can't be taken back; or None."""
        page, slot = rid
        slots = self.newest[page].slots
        if slot >= len(slots):
            return f"its page has {len(slots)} slots"
        capacity, value = slots[slot]
        for below, record in zip([None, *stack], stack):
            if len(record.before or b"") > capacity:
                return f"the value before LSN {record.lsn} is longer than the slot"
            if below and record.before != below.after:
                return f"LSN {record.lsn} doesn't find what LSN {below.lsn} left"
        if value != stack[-1].after:
            return f"the newest value isn't what LSN {stack[-1].lsn} left"
        others = [record for record in self.changes[rid] if record.txn != stack[0].txn and record.lsn >= stack[0].lsn]
        return f"LSN {others[0].lsn} of another transaction changed it since" if others else None

    def room_fault(self, log):
        """Check 7 of a log: what is open can be undone and ended."""
        mine = [stack for txn, stack in self.open.items() if txn[0] == log.dev]
        reserve = sum(END + sum(UNDO + len(record.before or b"") for record in stack) for stack in mine)
        greatest = max([record.lsn for record in self.records] + [twin.page.lsn for twin in self.twins])
        if log.next_gate + reserve + GATE > AREA_BYTES:
            return Fault(7, log.dev, AREA + log.next_gate, f"{reserve} bytes are needed to undo and end what is open")
        if greatest + sum(1 + len(stack) for stack in self.open.values()) >= LSN_END:
            return Fault(7, log.dev, AREA + log.next_gate, "there are too few LSNs to undo and end what is open")
        return None
