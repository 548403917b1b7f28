"""Rows of a CSV file with a header, whose first column is the time."""
import csv
from itertools import islice

from bring.faults import Bad, Fault, count_of, named
from bring.kinds import Field
from bring.measures import Measure, Row

SAID = {"unexpected end of data": "a value in quotes isn't closed", "new-line character": "a carriage return stands inside a line",
        "expected after": "a quote that closes a value isn't followed by a delimiter", "field limit": "a value is too long"}


class CsvRows:
    """A CSV file, read twice: once for the types of columns, unless all are given, and once for the rows."""

    def __init__(self, source, rules, table, tags, name, delimiter, null):
        self.source, self.rules, self.delimiter, self.null = source, rules, delimiter, null
        self.table, self.tag_names, self.name = table, tags, name
        self.measure, self.header, self.places, self.name_at, self.tag_places = None, [], [], None, []

    def records(self):
        """The records of the file with the line in which each begins, but for empty lines."""
        last = 0

        def texts():
            nonlocal last
            for last, text in self.source.lines():
                yield text

        reader = csv.reader(texts(), delimiter=self.delimiter, strict=True, skipinitialspace=True)
        begins = 1
        try:
            for cells in reader:
                if cells:
                    yield begins, cells
                begins = last + 1
        except csv.Error as wrong:
            said = next((ours for theirs, ours in SAID.items() if theirs in str(wrong)), str(wrong))
            raise Fault(f"{self.source.name}:{begins}: {said}") from None

    def place(self, line, raw=None):
        return f"{self.source.name}:{line}" + ("" if raw is None else f": column {named(raw)}")

    def read_header(self, records):
        """Reads the header, and checks that each name of the command line is in it."""
        line, cells = next(records, (1, None))
        if cells is None:
            raise Fault(f"{self.source.name}:1: the file is empty; a header is missing")
        self.header = [cell.strip() for cell in cells]
        for at, raw in enumerate(self.header):
            if not raw:
                raise Fault(f"{self.place(line)}: column {at + 1} has no name")
            if raw in self.header[:at]:
                raise Fault(f"{self.place(line, raw)}: stands twice in the header")
        for raw in [*self.tag_names, *([self.name] if self.name else [])]:
            if raw not in self.header:
                raise Fault(f"{self.place(line, raw)}: isn't in the header ({', '.join(map(named, self.header))})")
            if raw in self.rules.skips:
                raise Fault(f"{self.place(line, raw)}: is named in --skip, and in --tags or --name too")
        for raw in [*self.tag_names, self.name, *sorted(self.rules.skips)]:
            if raw == self.header[0]:
                raise Fault(f"{self.place(line, raw)}: the first column is the time: it is no tag and no name, and isn't left out")
        return line

    def make_measure(self, line):
        """The table of the header's columns."""
        self.measure = Measure(self.table, self.header[0])
        for at, raw in enumerate(self.header):
            left_out = self.rules.is_skipped(raw) or raw == self.name
            if at == 0 or raw in self.tag_names or left_out:
                continue
            self.measure.columns.append(Field(raw))
            self.places.append(at)
        self.measure.tags = [Field(raw, True) for raw in self.tag_names]
        self.tag_places = [self.header.index(raw) for raw in self.tag_names]
        self.name_at = self.header.index(self.name) if self.name else None
        for it in self.measure.fields():
            self.rules.apply(it)
        self.rules.check_used(f"isn't in the header of {self.source.name} as a column or a tag with values")
        if not self.measure.columns:
            raise Fault(f"{self.place(line)}: no column is left beside the time")

    def checked(self, line, cells):
        """A record with as many cells as the header has."""
        if len(cells) < len(self.header):
            missing = self.header[len(cells)]
            raise Fault(f"{self.place(line, missing)}: is missing: {count_of(len(cells), 'value')}, "
                        f"and the header has {count_of(len(self.header), 'column')}")
        if len(cells) > len(self.header):
            raise Fault(f"{self.place(line)}: {len(cells)} values, and the header has {count_of(len(self.header), 'column')}")
        return cells

    def cell(self, cells, at, is_tag=False):
        """The text of a cell, or None for NULL."""
        text = cells[at] if is_tag else cells[at].strip()
        return None if text in ("", self.null) else text

    def prepare(self, names, note):
        """Reads the header, and the rows for the types that aren't given."""
        records = self.records()
        line = self.read_header(records)
        self.make_measure(line)
        if any(it.type is None for it in self.measure.fields()):
            self.look(records)
            if self.rules.look is not None:
                note(f"types are by a look at the first {count_of(self.rules.look, 'row')}")
        self.measure.settle(names, self.place(line), note)
        return [self.measure]

    def look(self, records):
        """Looks at the values of the rows, or of the first ones."""
        at = [*self.places, *self.tag_places]
        looked = [(place, it) for place, it in zip(at, self.measure.fields()) if it.type is None]
        for line, cells in islice(records, self.rules.look):
            self.checked(line, cells)
            for place, it in looked:
                try:
                    it.see(self.cell(cells, place, it.is_tag), line)
                except Bad as bad:
                    raise Fault(f"{self.place(line, it.raw)}: {bad}") from None

    def literal(self, line, it, text):
        try:
            return it.literal(text, self.rules)
        except Bad as bad:
            raise Fault(f"{self.place(line, it.raw)}: {bad}") from None

    def rows(self):
        """The rows, checked."""
        records, found, measure = self.records(), False, self.measure
        next(records, None)
        for line, cells in records:
            found = True
            self.checked(line, cells)
            time = self.cell(cells, 0)
            if time is None:
                raise Fault(f"{self.place(line, self.header[0])}: there is no time")
            values = [self.literal(line, measure.time, time)]
            values += [self.literal(line, it, self.cell(cells, at)) for at, it in zip(self.places, measure.columns)]
            tags = tuple(self.literal(line, it, self.cell(cells, at, True)) for at, it in zip(self.tag_places, measure.tags))
            name = None if self.name_at is None else self.cell(cells, self.name_at)
            if name is None and self.name_at is not None:
                raise Fault(f"{self.place(line, self.name)}: is empty, and names the table")
            yield Row(line, measure, tags, name, None, tuple(values))
        if not found:
            raise Fault(f"{self.source.name}:1: no row follows the header")
