"""What an input is made into: supertables or tables with their columns and tags, and rows."""
from dataclasses import dataclass, field

from bring.faults import Bad, Fault, count_of, named
from bring.kinds import TIME, Field, parse_type
from bring.words import Names

MOST_COLUMNS = 256
MOST_TAGS = 32


@dataclass
class Rules:
    """What the command line says of values: the unit of times, what is rounded, and the types and scales by name."""
    unit: str = None
    round: bool = False
    round_values: bool = False
    types: dict = field(default_factory=dict)
    scales: dict = field(default_factory=dict)
    skips: frozenset = frozenset()
    look: int = None
    used: set = field(default_factory=set)

    def apply(self, it):
        """Gives a field its type and scale, where the command line has them."""
        if it.raw in self.types:
            self.used.add(it.raw)
            try:
                it.type = parse_type(self.types[it.raw], it.is_tag)
            except Bad as bad:
                raise Fault(f"--types: column {named(it.raw)}: {bad}") from None
        if it.raw in self.scales:
            self.used.add(it.raw)
            it.scale = self.scales[it.raw]
            if it.is_tag or it.type is not None and it.type.form != "number":
                raise Fault(f"--scale: column {named(it.raw)} isn't one of numbers")

    def is_skipped(self, raw):
        if raw in self.skips:
            self.used.add(raw)
        return raw in self.skips

    def check_used(self, what):
        """Each name of the command line must be one of the input."""
        for raw in [*self.types, *self.scales, *sorted(self.skips)]:
            if raw not in self.used:
                raise Fault(f"column {named(raw)}: {what}")


class Measure:
    """A supertable, or a plain table where there are no tags, that is to be made."""

    def __init__(self, raw, time):
        self.raw, self.word, self.columns, self.tags = raw, None, [], []
        self.time = Field(time)
        self.time.type = TIME

    def fields(self):
        return [*self.columns, *self.tags]

    def settle(self, names, place, note):
        """Gives types and names, and notes what was changed."""
        if 1 + len(self.columns) > MOST_COLUMNS:
            raise Fault(f"{place}: {1 + len(self.columns)} columns, and a table can have {MOST_COLUMNS}")
        if len(self.tags) > MOST_TAGS:
            raise Fault(f"{place}: {len(self.tags)} tags, and a supertable can have {MOST_TAGS}")
        self.word, changed = names.give(self.raw, "measures")
        if changed:
            note(f"table {named(self.raw)} is named {self.word}")
        inner = Names()
        for it in [self.time, *self.fields()]:
            it.word, changed = inner.give(it.raw, "column")
            what = "tag" if it.is_tag else "column"
            if changed:
                note(f"{what} {named(it.raw)} is named {it.word}")
            if it.settle():
                note(f"{what} {named(it.raw)} has no value in the rows that were looked at, and is {it.type.text}")
            if it.scale is not None:
                note(f"column {named(it.raw)} is scaled: {it.word} has its values times {it.scale}")

    def create(self):
        """The statement that makes it."""
        columns = ", ".join(f"{it.word} {it.type.text}" for it in [self.time, *self.columns])
        if not self.tags:
            return f"CREATE TABLE {self.word} ({columns})"
        tags = ", ".join(f"{it.word} {it.type.text}" for it in self.tags)
        return f"CREATE STABLE {self.word} ({columns}) TAGS ({tags})"

    def note_rounded(self, note):
        for it in [self.time, *self.columns]:
            if it.rounded:
                how = "rounded down" if it.type.form == "time" else "rounded"
                note(f"column {named(it.raw)}: {count_of(it.rounded, 'value was', 'values were')} {how}")


@dataclass
class Row:
    """A row: its line, its table's measure and tags, the table's own name where it has one, and its values, as literals."""
    line: int
    measure: Measure
    tags: tuple
    name: str
    columns: tuple   # the fields that it has, in the order of the measure; None for all
    values: tuple    # the time, then the values
