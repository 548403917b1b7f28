"""Types of columns and tags: how they are named, found by a look at values, and how a value is written in a statement."""
import re
from dataclasses import dataclass
from decimal import Decimal
from fractions import Fraction

from bring.faults import Bad, shown
from bring.times import iso_parts, read_time

WHOLE = re.compile(r"[+-]?[0-9]+")
PLAIN = re.compile(r"0|-?[1-9][0-9]*")
NUMBER = re.compile(r"[+-]?(?:[0-9]+(?:\.[0-9]*)?|\.[0-9]+)(?:[eE][+-]?[0-9]+)?")
TRUTHS = {"true": "TRUE", "t": "TRUE", "1": "TRUE", "false": "FALSE", "f": "FALSE", "0": "FALSE"}
BITS = {"TINYINT": 8, "SMALLINT": 16, "INT": 32, "INTEGER": 32, "BIGINT": 64}
NOT_BUILT = ("FLOAT", "DOUBLE", "NCHAR", "VARBINARY", "JSON", "GEOMETRY", "DECIMAL")
WIDEST_TEXT = 4096
LONGEST_NUMBER = 60
FORMS = {"truth": "a truth value", "number": "a number", "time": "a time"}


@dataclass(frozen=True)
class Type:
    """A type of the language: how it is written, its form, and its bounds; of a text, `most` is the bytes that it may have."""
    text: str
    form: str
    least: int = 0
    most: int = 0


BOOL = Type("BOOL", "truth")
TIME = Type("TIMESTAMP", "time")


def number_type(word, unsigned=False):
    bits = BITS[word]
    if unsigned:
        return Type(f"{word} UNSIGNED", "number", 0, 2**bits - 1)
    return Type(word, "number", -(2 ** (bits - 1)), 2 ** (bits - 1) - 1)


def text_type(width):
    return Type(f"VARCHAR({width})", "text", 0, width)


def parse_type(text, is_tag):
    """The type that a text names, as the language writes it, in any case."""
    words = text.upper().split()
    if words == ["BOOL"]:
        return BOOL
    if words == ["TIMESTAMP"]:
        return TIME
    if words and words[0] in BITS and words[1:] in ([], ["UNSIGNED"]):
        return number_type(words[0], len(words) == 2)
    wide = re.fullmatch(r"(?:VARCHAR|BINARY) ?\( ?([0-9]{1,9}) ?\)", " ".join(words))
    if wide and not is_tag:
        raise Bad("only tags can be texts")
    if wide and 1 <= int(wide.group(1)) <= WIDEST_TEXT:
        return text_type(int(wide.group(1)))
    if wide:
        raise Bad(f"a text can have 1 to {WIDEST_TEXT} bytes")
    if words and words[0].split("(")[0] in NOT_BUILT:
        raise Bad(f"the type {shown(text)} isn't supported: take a whole-number type, with --scale if need be")
    raise Bad(f"{shown(text)} is no type")


def whole_of(text):
    """The number of a text of digits with an optional sign."""
    if len(text) > LONGEST_NUMBER:
        raise Bad(f"{shown(text)} is wider than 64 bits")
    return int(text)


def scaled(text, factor, rounds):
    """The whole number that a decimal number times a factor is; and whether it was rounded."""
    number = Decimal(text) if len(text) <= LONGEST_NUMBER else None
    if number is None or abs(number.adjusted()) > LONGEST_NUMBER or abs(number.as_tuple().exponent) > 2 * LONGEST_NUMBER:
        raise Bad(f"{shown(text)} has too many digits")
    exact = Fraction(number) * factor
    if exact.denominator != 1 and not rounds:
        raise Bad(f"{shown(text)} times {factor} is no whole number: take a greater --scale, or --round-values")
    return round(exact), exact.denominator != 1


def quoted(text, most):
    """A text as a literal."""
    if any(ord(it) < 32 or ord(it) == 127 for it in text):
        raise Bad(f"{shown(text)} has a control character")
    width = len(text.encode())
    if width > most:
        raise Bad(f"{shown(text)} has {width} bytes, and {most} are allowed")
    return "'" + text.replace("'", "''") + "'"


class Look:
    """What the values of a column were like: their form, and the least and the greatest number or the widest text."""

    def __init__(self):
        self.form, self.line, self.least, self.most, self.width = None, 0, 0, 0, 0
        self.is_plain = True

    def saw(self, form, line):
        if self.form not in (None, form):
            raise Bad(f"has {FORMS[form]} here, and {FORMS[self.form]} in line {self.line}: give its type with --types")
        if self.form is None:
            self.form, self.line = form, line

    def saw_number(self, number, line):
        self.saw("number", line)
        self.least, self.most = min(self.least, number), max(self.most, number)
        if self.least < -(2**63) or self.most >= (2**63 if self.least < 0 else 2**64):
            raise Bad(f"{number} is too wide: no type holds {self.least} and {self.most}")

    def value(self, text, line, raw):
        """Looks at a value of a column that isn't scaled; `raw` is the column's name."""
        if WHOLE.fullmatch(text):
            self.saw_number(whole_of(text), line)
        elif text.lower() in ("true", "false"):
            self.saw("truth", line)
        elif iso_parts(text):
            self.saw("time", line)
        else:
            raise not_held(text, raw)

    def tag(self, text, line):
        """Looks at a value of a tag: any can be a text."""
        form = "number" if PLAIN.fullmatch(text) else "truth" if text.lower() in ("true", "false") else "text"
        if form == "number":
            number = whole_of(text) if len(text) <= LONGEST_NUMBER else 2**64
            self.least, self.most = min(self.least, number), max(self.most, number)
        self.is_plain = self.is_plain and self.form in (None, form) and form != "text"
        if self.form is None:
            self.form, self.line = form, line
        self.width = max(self.width, len(text.encode()))
        if self.width > WIDEST_TEXT:
            raise Bad(f"{shown(text)} has {self.width} bytes, and a tag can have {WIDEST_TEXT}")

    def number_type(self):
        """The least of INT, BIGINT and BIGINT UNSIGNED that holds the numbers; None where none does."""
        every = (number_type("INT"), number_type("BIGINT"), number_type("BIGINT", True))
        return next((it for it in every if it.least <= self.least and self.most <= it.most), None)

    def column_type(self):
        return {"truth": BOOL, "time": TIME}.get(self.form) or self.number_type()

    def tag_type(self):
        if self.is_plain and self.form == "truth":
            return BOOL
        if self.is_plain and self.form == "number" and self.number_type():
            return self.number_type()
        return text_type(next(it for it in (16, 64, 256, 1024, WIDEST_TEXT) if self.width <= it))


def not_held(text, raw):
    """The fault of a value that no column can hold as it is."""
    if NUMBER.fullmatch(text):
        return Bad(f"{shown(text)} is no whole number: scale the column, for example with --scale {raw}=1000")
    return Bad(f"{shown(text)} is a text, which only a tag can be: leave the column out with --skip {raw}, or make it a tag")


class Field:
    """A column or a tag: its name in the input and in the language, its type, and how its values are written."""

    def __init__(self, raw, is_tag=False):
        self.raw, self.is_tag, self.word, self.type, self.scale = raw, is_tag, None, None, None
        self.look, self.rounded = Look(), 0

    def see(self, text, line):
        """Looks at a value, where the type isn't given."""
        if self.type is not None or text is None:
            return
        if self.is_tag:
            self.look.tag(text, line)
        elif self.scale is None:
            self.look.value(text, line, self.raw)
        elif NUMBER.fullmatch(text):
            self.look.saw_number(scaled(text, self.scale, True)[0], line)
        else:
            raise Bad(f"{shown(text)} is no number")

    def settle(self):
        """Takes the type that the look gives; gives whether there was nothing to look at."""
        if self.type is not None:
            return False
        self.type = self.look.tag_type() if self.is_tag else self.look.column_type()
        return self.look.form is None

    def number(self, text, rules):
        """A value of a number type as a literal."""
        if self.scale is not None and NUMBER.fullmatch(text):
            number, was_rounded = scaled(text, self.scale, rules.round_values)
            self.rounded += was_rounded
        elif self.scale is None and WHOLE.fullmatch(text):
            number = whole_of(text)
        elif self.scale is None:
            raise not_held(text, self.raw)
        else:
            raise Bad(f"{shown(text)} is no number")
        if not self.type.least <= number <= self.type.most:
            raise Bad(f"{number} isn't in the range of {self.type.text}, {self.type.least} to {self.type.most}")
        return str(number)

    def time(self, text, rules):
        """A time in milliseconds, as a literal."""
        millis, was_rounded = read_time(text, rules.unit, rules.round)
        self.rounded += was_rounded
        return str(millis)

    def literal(self, text, rules):
        """A value as the language writes it; None is NULL."""
        if text is None:
            return "NULL"
        if self.type.form == "number":
            return self.number(text, rules)
        if self.type.form == "time":
            return self.time(text, rules)
        if self.type.form == "text":
            return quoted(text, self.type.most)
        if text.lower() not in TRUTHS:
            raise Bad(f"{shown(text)} is neither true nor false")
        return TRUTHS[text.lower()]
