"""A second reader of scripts, made of docs/FORMATS.md alone: which line of a text is bad, and by which cause.

The forms of lines are read out of the table of the document; what its sentences say of the parts of a form, which it writes in
capitals, stands here. The program's own reader isn't looked at: `tools/readers` compares the two.
"""
import re
from pathlib import Path

FORMATS = Path(__file__).resolve().parent.parent / "docs" / "FORMATS.md"

# The limits on size: of a line, of lines, of a text, of lines that list the records.
LINE_BYTES, LINES, TEXT_BYTES, TABLES = 1024, 100_000, 4_194_304, 64

PICKS = ("keep", "lose", "tear", "junk")
DIGITS = re.compile(r"[0-9]+")
NUMBER = re.compile(r"0|[1-9][0-9]{0,9}")
NAME = re.compile(r"[a-z][a-z0-9]{0,15}")
PRINTED = bytes(range(32, 127))


# ---- the parts of forms

def number(word):
    """The number that a word spells, or None."""
    return int(word) if NUMBER.fullmatch(word) else None


def within(least, most=9_999_999_999):
    """Whether a word is a number from one to the other."""
    return lambda word, words: number(word) is not None and least <= number(word) <= most


def is_record(word, words):
    """Whether a word is a page, a dot and a slot of at most three digits."""
    page, dot, slot = word.partition(".")
    return dot == "." and number(page) is not None and number(slot) is not None and len(slot) <= 3


def is_amount(word, words):
    """Whether a word is a number, with a minus before it or without."""
    return number(word.removeprefix("-")) is not None


def is_capacity(word, words):
    """Whether a word is a number of bytes in which the value before it has room."""
    return within(len(words[-2]), 65_535)(word, words)


# Of each part that is a number, or has one: whether its form and its range are right. A part that means something else in the
# form that begins with a word has a row with that word.
NUMBERS = {
    "complex N": within(1, 8), "complex P": within(1, 1024), "complex F": within(1, 1024),
    "fuse K": within(0, 1_000_000), "fault K": within(1, 1_000_000), "recover K": within(1),
    "I": within(1), "J": within(1), "P": within(0), "R": is_record, "M": is_amount, "C": is_capacity,
}  # fmt: skip
# Of each part that has a place: whether it is there, by the number of instances and that of pages.
PLACES = {
    "I": lambda word, insts, pages: int(word) <= insts,
    "J": lambda word, insts, pages: int(word) <= insts,
    "recover I": lambda word, insts, pages: int(word) <= 8,
    "P": lambda word, insts, pages: int(word) < pages,
    "complex P": lambda word, insts, pages: True,
    "R": lambda word, insts, pages: int(word.partition(".")[0]) < pages,
}
NAMES = ("T", "S")
ANY = ("V",)


def of_part(rows, form, part):
    """What the rows have of a part of a form, or None."""
    return rows.get(f"{form[0]} {part}", rows.get(part))


def forms():
    """The forms of the document's table, each by its words: fixed ones in small letters, and parts in capitals."""
    section = FORMATS.read_text().split("\n## Scripts\n")[1].split("\n## ")[0]
    rows = re.findall(r"^\| (`.*?) \|", section, re.M)
    found = [form.split() for row in rows for form in re.findall(r"`([^`]+)`", row)]
    for form in found:
        for part in form:
            known = part in NAMES + ANY + ("PICK",) or of_part(NUMBERS, form, part)
            assert known or not part.isupper(), f"docs/FORMATS.md: no reader of the part {part} of `{' '.join(form)}`"
    return found


FORMS = forms()
FIRST = next(form for form in FORMS if form[0] == "complex")
OF_LENGTH = {count: [form for form in FORMS if len(form) == count] for count in {len(form) for form in FORMS}}


def begins(form):
    """Whether a line of this form begins a transaction, and names it."""
    return "T" in form and "begin" in form


def is_of_kind(form, words):
    """Whether so many words are of a line of this form, by its fixed ones; digits alone stand for the instance before a verb."""
    if form[0] == "I" and not DIGITS.fullmatch(words[0]):
        return False
    return all(word in PICKS if part == "PICK" else part.isupper() or word == part for part, word in zip(form, words))


# ---- lines

class Script:
    """What the lines of a text have told so far, none of which is bad."""

    def __init__(self):
        self.count = self.end = self.tables = 0  # lines; the byte behind the last one, its LF included; tables among them
        self.insts = self.pages = None  # of the first line
        self.begun = set()

    def passes(self, cause, form, words):
        """Whether the cause doesn't hold of the words, as those of this form."""
        parts = list(zip(form, words))
        match cause:
            case "number":
                tests = [(of_part(NUMBERS, form, part), word) for part, word in parts]
                return all(test(word, words) for test, word in tests if test)
            case "name":
                return all(NAME.fullmatch(word) for part, word in parts if part in NAMES)
            case "place":
                tests = [(of_part(PLACES, form, part), word) for part, word in parts]
                return all(test(word, self.insts, self.pages) for test, word in tests if test)
            case "used":
                return all(word not in self.begun for part, word in parts if part == "T" and begins(form))
            case "unknown":
                return all(word in self.begun for part, word in parts if part == "T" and not begins(form))

    def judge(self, line, words, end):
        """The cause by which the next line is bad, of these bytes and words, or None; and its form, where it is good and has one.
        `end` is the byte behind it."""
        if len(line) > LINE_BYTES or self.count >= LINES or end > TEXT_BYTES or (words == ["table"] and self.tables >= TABLES):
            return "size", None
        if line.translate(None, PRINTED):
            return "byte", None
        if not words or line.startswith(b"#"):
            return None, None
        if words[0] != "complex" if self.insts is None else words[0] == "complex" and len(words) == len(FIRST):
            return "order", None
        left = [form for form in OF_LENGTH.get(len(words), ()) if is_of_kind(form, words)]
        if not left:
            return "word", None
        for cause in ("number", "name", "place", "used", "unknown"):
            left = [form for form in left if self.passes(cause, form, words)]
            if not left:
                return cause, None
        return None, left[0]

    def take(self, line, end):
        """The cause by which the next line is bad, or None where it is good and taken."""
        words = [word for word in line.decode("latin-1").split(" ") if word]
        cause, form = self.judge(line, words, end)
        if not cause:
            self.count += 1
            self.end = end
        if form:
            self.tables += form == ["table"]
            if form == FIRST:
                self.insts, self.pages = int(words[1]), int(words[2])
            if begins(form):
                self.begun.add(words[form.index("T")])
        return cause


def first_bad(text):
    """The number of the first bad line of a text and its cause, or None where the text is a script."""
    script = Script()
    lines = text.split(b"\n")
    if not lines[-1]:
        lines.pop()
    for line in lines:
        cause = script.take(line, min(len(text), script.end + len(line) + 1))
        if cause:
            return script.count + 1, cause
    return None if script.insts else (script.count + 1, "order")
