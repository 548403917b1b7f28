"""A script for `play` that is made of rows: CREATE statements, INSERTs of many rows, and COMMITs where they are asked for."""
import json
import sys

from bring.faults import Fault, named
from bring.words import Names, mark_of

LONGEST_STATEMENT = 1048576
LONGEST_SCRIPT = 67108864
MOST_TABLES = 1048576
HELD_BYTES = 16 * 1024 * 1024
NOTES_SHOWN = 20


class Pending:
    """Rows of a table that wait for their INSERT."""

    def __init__(self, table, columns, measure):
        self.columns, self.groups = columns, []
        listed = "" if columns is None else f" ({', '.join(it.word for it in (measure.time, *columns))})"
        self.head = f"INSERT INTO {table}{listed} VALUES"
        self.bytes = len(self.head)

    def text(self):
        return " ".join([self.head, *self.groups])


class Script:
    """Writes a script. Each part of it is at most as long as one `play` takes."""

    def __init__(self, outputs, session, most_rows, commit, part):
        self.outputs, self.session, self.most_rows, self.commit, self.part = outputs, session, most_rows, commit, part
        self.file, self.length, self.notes, self.noted, self.names = None, 0, [], 0, Names()
        self.made, self.tables, self.pending, self.held, self.uncommitted = 0, {}, {}, 0, 0

    def line(self, text):
        """Writes a line, in a new part where this one is full."""
        data = text.encode() + b"\n"
        if self.file is None or self.length and self.length + len(data) > self.part:
            if self.file is not None and self.outputs.to == "-":
                raise Fault(f"the script is longer than {self.part} bytes, which is what play takes: with --to FILE it is written "
                            "in parts")
            self.file, self.length = self.outputs.start(), 0
        self.file.write(data)
        self.length += len(data)

    def statement(self, text):
        if len(text.encode()) > LONGEST_STATEMENT:
            raise Fault(f"a statement would be longer than {LONGEST_STATEMENT} bytes: {text[:60]} ...")
        self.line(f"{self.session}: {text}")

    def comment(self, text):
        self.line(f"# {text}")

    def note(self, text):
        """Notes something: a comment in the script, and a line on standard error when all went well."""
        self.comment(text)
        self.noted += 1
        if self.noted <= NOTES_SHOWN:
            self.notes.append(text)

    def create(self, measures):
        """Makes the supertables and the plain tables."""
        for measure in measures:
            self.make(measure.create())

    def make(self, text):
        """A statement that makes a table or a supertable."""
        self.made += 1
        if self.made > MOST_TABLES:
            raise Fault(f"there are more than {MOST_TABLES} tables and supertables")
        self.statement(text)

    def table_of(self, row, place):
        """The name of a row's table, which is made where it is new."""
        measure = row.measure
        if not measure.tags:
            return measure.word
        key = (measure.word, row.name or row.tags)
        if key not in self.tables:
            self.tables[key] = (self.make_table(row), row.tags if row.name else None, row.line)
        table, tags, line = self.tables[key]
        if tags is not None and tags != row.tags:
            here, there = ", ".join(row.tags), ", ".join(tags)
            raise Fault(f"{place}:{row.line}: table {named(row.name)} has other tags here ({here}) than in line {line} ({there})")
        return table

    def make_table(self, row):
        """Makes a subtable, named by its tags or by the name that the row has."""
        raw = row.name
        if raw is None:
            plain = (it[1:-1].replace("''", "'") if it[0] == "'" else it.lower() for it in row.tags)
            raw = "_".join([row.measure.word, *plain])
        word, changed = self.names.give(raw, "table", mark_of(json.dumps([row.measure.raw, row.name, row.tags])))
        if changed:
            self.note(f"table {named(raw)} is named {word}")
        self.make(f"CREATE TABLE {word} USING {row.measure.word} TAGS ({', '.join(row.tags)})")
        return word

    def add(self, row, place):
        """Takes a row; it is written with the rows of its table."""
        table = self.table_of(row, place)
        waiting = self.pending.get(table)
        group = f"({', '.join(row.values)})"
        if waiting is not None and (waiting.columns != row.columns or waiting.bytes + len(group) + 1 > LONGEST_STATEMENT):
            self.flush(table)
            waiting = None
        if waiting is None:
            waiting = self.pending[table] = Pending(table, row.columns, row.measure)
        waiting.groups.append(group)
        waiting.bytes += len(group) + 1
        self.held += len(group) + 100
        self.uncommitted += 1
        if len(waiting.groups) >= self.most_rows:
            self.flush(table)
        if self.held > HELD_BYTES:
            self.flush_all()
        if self.commit is not None and self.uncommitted >= self.commit:
            self.end_batch()

    def flush(self, table):
        waiting = self.pending.pop(table)
        self.held -= sum(len(group) + 100 for group in waiting.groups)
        self.statement(waiting.text())

    def flush_all(self):
        for table in list(self.pending):
            self.flush(table)

    def end_batch(self):
        self.flush_all()
        self.statement("COMMIT")
        self.uncommitted = 0

    def finish(self):
        """Writes what waits."""
        self.flush_all()
        if self.commit is not None and self.uncommitted:
            self.end_batch()

    def tell(self, files):
        """Says on standard error what was noted, and which files were written where they are more than one."""
        for text in self.notes:
            print(f"import: note: {text}", file=sys.stderr)
        if self.noted > NOTES_SHOWN:
            print(f"import: note: {self.noted - NOTES_SHOWN} more notes are comments of the script", file=sys.stderr)
        if len(files) > 1:
            listed = ", ".join(files)
            print(f"import: note: the script has {len(files)} parts, to be played in this order: {listed}", file=sys.stderr)
