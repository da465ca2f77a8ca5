"""Runs of the built program, and what their replies tell of the table that recovery has to give: `tools/campaign` and `tools/faults` ask both."""
import re
import subprocess
from pathlib import Path

TOP = Path(__file__).resolve().parent.parent
PROGRAM = TOP / "crates" / "sdaries" / "out" / "sdaries"
PICKS = ["keep", "lose", "tear", "junk"]
MOST = 1_000_000  # no line that arms has a greater number


# ---- runs

def replay(lines, words=()):
    """The status and the report of a script, by lines."""
    text = "\n".join(lines) + "\n"
    ran = subprocess.run([PROGRAM, "replay", *words], input=text, capture_output=True, text=True, timeout=120)
    return ran.returncode, ran.stdout.splitlines()


def armed(script, arm):
    """The status and the report where a line behind the first one arms the devices, without its reply."""
    status, report = replay([script[0], arm, *script[1:]])
    return status, report[:1] + report[2:]


def calls_of(script, wanted):
    """How many device calls the lines make, up to one that arms the devices itself: the least number that may pass with nothing changed."""
    low, high = 0, MOST
    while low < high:
        middle = (low + high) // 2
        if armed(script, f"fuse {middle}") == wanted:
            high = middle
        else:
            low = middle + 1
    return low


# ---- replies

def replies(script, report):
    """Each line with what was replied to it, by lines: a table has its rows before its last one."""
    rest = iter(report)
    for line in script:
        reply = [next(rest, "")]
        while line == "table" and re.match(r"\d+\.\d+ ", reply[-1]):
            reply.append(next(rest, ""))
        yield line, reply


def table_of(reply):
    """The table that a reply lists, or None where it was refused."""
    rows = dict(row.split() for row in reply[:-1])
    return rows if reply[-1] == f"table {len(rows)}" else None


def is_number(value):
    """Whether a record has a number."""
    return value is not None and re.fullmatch(r"-?\d+", value) is not None


# Of each change: which values it may find, where None stands for no record, and which one it leaves.
CHANGES = {
    "insert": (lambda old: old is None, lambda old, text: text),
    "write": (lambda old: old is not None, lambda old, text: text),
    "add": (is_number, lambda old, text: str(int(old) + int(text))),
    "delete": (lambda old: old is not None, lambda old, text: None),
}


class Told:
    """What the replies to lines tell of the table that the committed transactions leave.

    `tables` are those that it may be: one, and for each commit that was cut those with it and those without, until a read, a change or a table
    shows which. There are none where no table fits the replies. A change comes into them with the commit of its transaction, behind all that
    committed before, as nobody else finds it earlier: its record is locked. So one that is rolled back, falls or is left open leaves nothing.
    `records` are those that were ever inserted. Where the devices weren't blank, `table` is what they stood for.
    """

    def __init__(self, script, report, table=None):
        self.tables, self.records = [dict(table or {})], set()
        self.changes, self.marks = {}, {}
        for line, reply in replies(script, report):
            if line == "table":
                self.listed(table_of(reply))
            else:
                self.said(line.split(), reply[0].split())

    def said(self, line, reply):
        """Notes what a line did; one that was refused did nothing that counts."""
        match line, reply:
            case ["read", name, record], [_, "read", _, "absent"]:
                self.found(name, record, lambda old: old is None)
            case ["read", name, record], [_, "read", _, "=", value]:
                self.found(name, record, lambda old: old == value)
            case ["insert", name, _, value, *_], [_, "insert", record]:
                self.records.add(record)
                self.changed(name, record, "insert", value)
            case ["write" | "add" as form, name, record, text], [_, "write" | "add", _]:
                self.changed(name, record, form, text)
            case ["delete", name, record], [_, "delete", _]:
                self.changed(name, record, "delete", "")
            case ["save", name, mark], [_, "save", _]:
                self.marks[name, mark] = len(self.changes.get(name, []))
            case ["back", name, mark], [_, "back", _]:
                del self.changes.get(name, [])[self.marks.get((name, mark), 0):]
            case ["commit", name], [_, "commit"]:
                self.tables = [self.seen(name, table) for table in self.tables]
            case ["commit", name], [_, "cut"]:
                self.tables = self.tables + [self.seen(name, table) for table in self.tables]

    def listed(self, table):
        """A table is that of the committed transactions, and refused where another has changed a record."""
        if table is not None:
            self.tables = [one for one in self.tables if one == table]

    def found(self, name, record, fits):
        """What the transaction found in the record fits so."""
        self.tables = [table for table in self.tables if fits(self.seen(name, table).get(record))]

    def changed(self, name, record, form, text):
        """The transaction found a record that it may change so, and did."""
        fits, leaves = CHANGES[form]
        self.found(name, record, fits)
        self.changes.setdefault(name, []).append((record, leaves, text))

    def seen(self, name, table):
        """What the transaction finds: its own changes over a table."""
        own = dict(table)
        for record, leaves, text in self.changes.get(name, []):
            own[record] = leaves(own.get(record), text)
        return {record: value for record, value in own.items() if value is not None}
