"""Rows of a file in InfluxDB line protocol: measurement[,tag=value...] field=value[,field=value...] timestamp."""
import re
from itertools import islice

from bring.faults import Bad, Fault, count_of, named, shown
from bring.kinds import BOOL, NUMBER, Field, not_held, number_type
from bring.measures import Measure, Row

ESCAPED = re.compile(r"\\([,= ])")
MEASUREMENT = re.compile(r"(?:[^, ]|(?<=\\)[, ])+")
KEY = re.compile(r"(?:[^,= ]|(?<=\\)[,= ])+")
TEXT = re.compile(r'"(?:[^"\\]|\\.)*"')
BARE = re.compile(r"[^, ]+")
INT, UINT = re.compile(r"([+-]?[0-9]+)i"), re.compile(r"([0-9]+)u")
TRUTH = ("t", "T", "true", "True", "TRUE", "f", "F", "false", "False", "FALSE")
TYPES = {"int": number_type("BIGINT"), "unsigned": number_type("BIGINT", True), "truth": BOOL}
FORMS = {"int": "a whole number", "unsigned": "an unsigned number", "truth": "a truth value", "float": "a floating-point number",
         "text": "a text"}


class Cursor:
    """A place in a line that is being read."""

    def __init__(self, text):
        self.text, self.at = text, 0

    def take(self, pattern, what):
        found = pattern.match(self.text, self.at)
        if not found:
            raise Bad(f"{what} is missing at byte {len(self.text[: self.at].encode()) + 1} of the line")
        self.at = found.end()
        return found.group(0)

    def skip(self, text):
        """Whether this text is next; then it is passed."""
        if self.text.startswith(text, self.at):
            self.at += len(text)
            return True
        return False

    def blanks(self):
        begin = self.at
        while self.skip(" "):
            pass
        return self.at > begin


def field_value(cursor):
    """The form of a field's value and its text."""
    if cursor.text.startswith('"', cursor.at):
        return "text", cursor.take(TEXT, "the end of a text in quotes")
    text = cursor.take(BARE, "a value")
    for form, pattern in (("int", INT), ("unsigned", UINT)):
        found = pattern.fullmatch(text)
        if found:
            return form, found.group(1)
    if NUMBER.fullmatch(text):
        return "float", text
    if text in TRUTH:
        return "truth", text
    raise Bad(f"{shown(text)} is no value")


def pairs(cursor, value, what):
    """Pairs `key=value`, separated by commas."""
    found = {}
    while True:
        key = ESCAPED.sub(r"\1", cursor.take(KEY, f"a {what}'s name"))
        if not cursor.skip("="):
            raise Bad(f"{what} {named(key)}: `=` is missing")
        if key in found:
            raise Bad(f"{what} {named(key)}: stands twice in the line")
        try:
            found[key] = value(cursor)
        except Bad as bad:
            raise Bad(f"{what} {named(key)}: {bad}") from None
        if not cursor.skip(","):
            return found


def parsed(text):
    """The measurement, tags, fields and time of a line."""
    cursor = Cursor(text)
    measurement = ESCAPED.sub(r"\1", cursor.take(MEASUREMENT, "a measurement"))
    tags = {}
    if cursor.skip(","):
        tags = pairs(cursor, lambda it: ESCAPED.sub(r"\1", it.take(KEY, "a value")), "tag")
    if not cursor.blanks():
        raise Bad("the fields are missing")
    fields = pairs(cursor, field_value, "field")
    if cursor.at < len(text) and not cursor.blanks():
        raise Bad(f"{shown(text[cursor.at:])} follows a field")
    return measurement, tags, fields, text[cursor.at:]


class LineRows:
    """A file in line protocol, read twice: once for the measurements with their tags and fields, and once for the rows."""

    def __init__(self, source, rules, name):
        self.source, self.rules, self.name, self.measures, self.known = source, rules, name, {}, {}

    def lines(self):
        """The lines, read, but for comments and empty lines."""
        for number, text in self.source.lines():
            text = text.rstrip("\r\n").strip(" ")
            if text and not text.startswith("#"):
                try:
                    yield number, parsed(text)
                except Bad as bad:
                    raise Fault(f"{self.source.name}:{number}: {bad}") from None

    def fault(self, line, what, raw, bad):
        return Fault(f"{self.source.name}:{line}: {what} {named(raw)}: {bad}")

    def field_of(self, measure, raw, is_tag):
        """The field or tag of a name in a measure, made where it isn't there."""
        key = (measure.raw, raw, is_tag)
        if key not in self.known:
            it = Field(raw, is_tag)
            self.rules.apply(it)
            self.known[key] = it
            (measure.tags if is_tag else measure.columns).append(it)
        return self.known[key]

    def see(self, it, form, text, line):
        """Looks at the value of a field."""
        if form == "text" or form == "float" and it.scale is None:
            raise not_held(text, it.raw)
        if form == "float" or it.scale is not None and form in ("int", "unsigned"):
            it.see(text, line)
            return
        if it.look.form not in (None, form):
            raise Bad(f"is {FORMS[form]} here, and {FORMS.get(it.look.form, 'a scaled number')} in line {it.look.line}")
        if it.look.form is None:
            it.look.form, it.look.line = form, line
        if it.type is None:
            it.type = TYPES[form]

    def prepare(self, names, note):
        """Looks at the lines for measurements, tags and fields."""
        found = False
        for line, (measurement, tags, fields, _) in islice(self.lines(), self.rules.look):
            found = True
            if measurement not in self.measures:
                self.measures[measurement] = Measure(measurement, "ts")
            self.look_at(self.measures[measurement], line, tags, fields)
        if not found:
            raise Fault(f"{self.source.name}:1: the file is empty; no line has values")
        self.rules.check_used(f"is no field or tag of {self.source.name}")
        if self.rules.look is not None:
            note(f"tags and fields are by a look at {self.looked()}")
        kept = [measure for measure in self.measures.values() if measure.columns]
        if not kept:
            raise Fault(f"{self.source.name}: no field is left")
        for measure in kept:
            for it in measure.tags:   # texts, whatever they look like, unless their types are given
                it.look.is_plain = False
            measure.settle(names, f"{self.source.name}: measurement {named(measure.raw)}", note)
        return kept

    def look_at(self, measure, line, tags, fields):
        for raw, text in tags.items():
            if not self.rules.is_skipped(raw):
                try:
                    self.field_of(measure, raw, True).look.tag(text, line)
                except Bad as bad:
                    raise self.fault(line, "tag", raw, bad) from None
        for raw, (form, text) in fields.items():
            if not self.rules.is_skipped(raw):
                try:
                    self.see(self.field_of(measure, raw, False), form, text, line)
                except Bad as bad:
                    raise self.fault(line, "field", raw, bad) from None

    def time(self, line, measure, text):
        if not text:
            raise self.fault(line, "column", "ts", "there is no time")
        if not re.fullmatch(r"[+-]?[0-9]+", text):
            raise self.fault(line, "column", "ts", f"{shown(text)} is no time")
        try:
            return measure.time.literal(text, self.rules)
        except Bad as bad:
            raise self.fault(line, "column", "ts", bad) from None

    def known_field(self, line, measure, raw, is_tag):
        it = self.known.get((measure.raw, raw, is_tag))
        if it is None:
            raise self.fault(line, "tag" if is_tag else "field", raw, f"wasn't in {self.looked()}: give a greater --look")
        return it

    def looked(self):
        return f"the first {count_of(self.rules.look, 'line')} with values"

    def literals(self, line, measure, given, is_tag):
        """The literals of tags or fields by the field."""
        found = {}
        for raw, value in given.items():
            if self.rules.is_skipped(raw):
                continue
            it = self.known_field(line, measure, raw, is_tag)
            form, text = ("tag", value) if is_tag else value
            try:
                if form == "text" or form == "float" and it.scale is None:
                    raise not_held(text, it.raw)
                if form != "tag" and (form == "truth") != (it.type.form == "truth"):
                    raise Bad(f"is {FORMS[form]}, and the column's type is {it.type.text}")
                found[it] = it.literal(text, self.rules)
            except Bad as bad:
                raise self.fault(line, "tag" if is_tag else "field", raw, bad) from None
        return found

    def rows(self):
        """The rows, checked."""
        for line, (measurement, tags, fields, time) in self.lines():
            measure = self.measures.get(measurement)
            if measure is None:
                raise self.fault(line, "measurement", measurement, f"wasn't in {self.looked()}: give a greater --look")
            at = self.time(line, measure, time)
            given = self.literals(line, measure, tags, True)
            values = self.literals(line, measure, fields, False)
            columns = tuple(it for it in measure.columns if it in values)
            if not columns:   # all of them are left out
                continue
            if self.name is not None and self.name not in tags:
                raise self.fault(line, "tag", self.name, "is missing, and names the table")
            literals = (at, *(values[it] for it in columns))
            whole = None if len(columns) == len(measure.columns) else columns
            yield Row(line, measure, tuple(given.get(it, "NULL") for it in measure.tags), tags.get(self.name), whole, literals)
