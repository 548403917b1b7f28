"""Times: read from ISO 8601 or from numbers, and written as ISO 8601. Inside they are whole milliseconds since 1970, UTC."""
import datetime
import re
from fractions import Fraction

from bring.faults import Bad, shown

LAST = 253402300799999
DAY = 86400000
UNITS = {"s": (1000, 1), "ms": (1, 1), "us": (1, 1000), "ns": (1, 1000000)}   # milliseconds as numerator and denominator
ZONE = r"(?: ?([Zz]|[+-][0-9]{2}(?::?[0-9]{2})?))?"
ISO = re.compile(
    r"([0-9]{4})-([0-9]{2})-([0-9]{2})(?:[Tt ]([0-9]{2}):([0-9]{2})(?::([0-9]{2})(?:[.,]([0-9]{1,30}))?)?" + ZONE + r")?")
BASIC = re.compile(r"([0-9]{4})([0-9]{2})([0-9]{2})[Tt]([0-9]{2})([0-9]{2})(?:([0-9]{2})(?:[.,]([0-9]{1,30}))?)?" + ZONE)
DECIMAL = re.compile(r"[+-]?[0-9]{1,40}(?:\.[0-9]{0,40})?")


def iso_parts(text):
    """The parts of an ISO 8601 time, or None where the text hasn't its form."""
    return ISO.fullmatch(text) or BASIC.fullmatch(text)


def zone_of(text):
    """The milliseconds that a zone is ahead of UTC."""
    if text in (None, "Z", "z"):
        return 0
    hours, minutes = int(text[1:3]), int(text[3:].strip(":") or 0)
    if hours > 23 or minutes > 59:
        raise Bad(f"the zone {text} doesn't exist")
    return (1 if text[0] == "+" else -1) * (60 * hours + minutes) * 60000


def of_iso(parts):
    """The whole milliseconds of the parts of an ISO 8601 time, and whether there is more behind them."""
    year, month, day, hour, minute, second = (int(it or 0) for it in parts.groups()[:6])
    try:
        days = datetime.date(year, month, day).toordinal() - 719163
    except ValueError:
        raise Bad(f"{shown(parts.group(0))} is no time: there is no such day") from None
    if hour > 23 or minute > 59 or second > 59:
        raise Bad(f"{shown(parts.group(0))} is no time: there is no such time of day")
    digits = (parts.group(7) or "").ljust(3, "0")
    clock = hour * 3600000 + minute * 60000 + second * 1000 + int(digits[:3])
    return days * DAY + clock - zone_of(parts.group(8)), digits[3:].strip("0") != ""


def of_number(text, unit):
    """The same of a number of a unit."""
    numerator, denominator = UNITS[unit]
    if "." not in text:
        millis, rest = divmod(int(text) * numerator, denominator)
        return millis, rest != 0
    exact = Fraction(text) * numerator / denominator
    return exact.numerator // exact.denominator, exact.denominator != 1


def read_time(text, unit=None, rounds=False):
    """The milliseconds of a time: ISO 8601, or a number of a unit; and whether it was rounded down."""
    parts = iso_parts(text)
    if parts:
        millis, has_rest = of_iso(parts)
    elif not DECIMAL.fullmatch(text):
        raise Bad(f"{shown(text)} is no time")
    elif unit is None:
        raise Bad(f"{shown(text)} is no ISO 8601 time; for numbers give --unit ms, s, us or ns")
    else:
        millis, has_rest = of_number(text, unit)
    if not 0 <= millis <= LAST:
        raise Bad(f"{shown(text)} isn't in the years 1970 to 9999")
    if has_rest and not rounds:
        raise Bad(f"{shown(text)} has parts of a millisecond; --round rounds down")
    return millis, has_rest


def write_time(millis):
    """A time as ISO 8601 in UTC, or as a number where its year hasn't four digits."""
    day, rest = divmod(millis, DAY)
    if not 1 <= day + 719163 <= datetime.date.max.toordinal():
        return str(millis)
    date = datetime.date.fromordinal(day + 719163)
    seconds, parts = divmod(rest, 1000)
    return f"{date.isoformat()}T{seconds // 3600:02}:{seconds // 60 % 60:02}:{seconds % 60:02}.{parts:03}Z"
