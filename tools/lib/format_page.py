"""The layouts, tables of codes and lists of docs/FORMAT.md, as its page has them."""
import os
import re
from typing import NamedTuple

TOP = os.path.dirname(os.path.dirname(os.path.dirname(os.path.abspath(__file__))))
# the kinds that stand in no transaction, and the sections of the page whose fields several kinds have
ALONE = ("HDR", "GRH", "GRT", "TRL")
INNER, CARRIED = "Every record inside a transaction", "Carried records"
ROW = re.compile(r"^\| (\d+) \| (\d+) \| (\d+) \| (.+?) \| (.+?) \|$", re.M)


class Field(NamedTuple):
    """A field of a kind: its number from 1, its first byte in the line from 0, its width, its name and the type of its cells."""

    number: int
    start: int
    width: int
    name: str
    type: str

    @property
    def is_derived(self):
        """Whether its cells are numbers that follow from the other records."""
        return self.type.startswith("derived")

    @property
    def is_made(self):
        """Whether its cells follow from the record's kind or from the other records, so that no value has them."""
        return self.is_derived or self.type.startswith(("the letters", "its letters"))


def page():
    """The text of the page."""
    with open(f"{TOP}/docs/FORMAT.md", encoding="utf-8") as it:
        return it.read()


def type_of(kind, words):
    """The type of a field for that kind: 'required text, in OPU text' names two."""
    if ", in " not in words:
        return words
    first, other = words.split(", in ")
    return other.split(" ", 1)[1] if other.startswith(kind) else first


def sections(text):
    """The fields of each section of layouts: of a kind, or of several."""
    found = {}
    for section in re.split(r"^### ", text, flags=re.M)[1:]:
        title, rows = section.split("\n", 1)
        for name in title.split(":")[0].split(" and "):
            found[name] = [Field(int(number), int(start), int(width), field, type_of(name, words)) for number, start, width, field, words in ROW.findall(rows)]
    return found


def layouts(text=None):
    """All fields of each kind, in the order of the page."""
    text = text or page()
    found = sections(text)
    own = {kind: fields for kind, fields in found.items() if re.fullmatch("[A-Z]{3}", kind)}
    own |= {kind: found[CARRIED] for kind in carried_kinds(text)}
    return {kind: fields if kind in ALONE else found[INNER] + fields for kind, fields in own.items()}


def named(text, sentence):
    """The kinds that a sentence of the page names."""
    return re.findall(r"\b[A-Z]{3}\b", re.search(sentence, text or page(), flags=re.M)[0])


def carried_kinds(text=None):
    """The kinds whose records are carried as text."""
    return named(text, r"^\*\*Carried records\*\* .*?\.")


def tail_kinds(text=None):
    """The kinds that may stand in the tail of a work."""
    return named(text, '^- "Tail" is .*')


def tables(text=None):
    """The codes of each table."""
    rows = re.findall(r"^\| (\w+) \| \d+ \| (.*`.*) \|$", text or page(), flags=re.M)
    return {name: re.findall("`(.+?)`", codes) for name, codes in rows}
