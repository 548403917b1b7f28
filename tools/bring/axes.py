"""Axes of a picture: which places get a tick, and what stands at them."""
import datetime
from fractions import Fraction

from bring.faults import Bad
from bring.reports import decimal_of
from bring.times import DAY, write_time

FIRST_DAY, EPOCH = 1, 719163
STEPS = [1, 2, 5, 10, 20, 50, 100, 200, 500]
STEPS += [1000 * it for it in (1, 2, 5, 10, 15, 30)]
STEPS += [60000 * it for it in (1, 2, 5, 10, 15, 30)]
STEPS += [3600000 * it for it in (1, 2, 3, 6, 12)]
STEPS += [DAY * it for it in (1, 2, 5, 10)]
MONTHS = [1, 2, 3, 6] + [12 * it for it in (1, 2, 5, 10, 20, 50, 100, 200, 500, 1000, 2000)]


def date_of(millis):
    day = millis // DAY + EPOCH
    if not FIRST_DAY <= day <= datetime.date.max.toordinal():
        raise Bad(f"the time {millis} isn't in the years 1 to 9999")
    return datetime.date.fromordinal(day)


def month_places(least, most, step):
    """The beginnings of months from `least` to `most`, of which the number is a multiple of `step`."""
    first, last = date_of(least), date_of(most)
    months = range(-(-(first.year * 12 + first.month - 1) // step) * step, last.year * 12 + last.month, step)
    starts = (datetime.date(it // 12, it % 12 + 1, 1) for it in months)
    places = ((it.toordinal() - EPOCH) * DAY for it in starts)
    return [it for it in places if least <= it <= most]


def time_label(millis, step, before):
    """What stands at a time: below the time of day also the date, where it isn't that of the tick before."""
    date, clock = write_time(millis)[:10], write_time(millis)[11:23]
    if step >= DAY:
        return [date]
    clock = clock[:5] if step >= 60000 else clock[:8] if step >= 1000 else clock
    return [clock] if before == date else [clock, date]


def time_ticks(least, most, at_most=7):
    """The ticks of an axis of times, each with its lines of text."""
    for step in STEPS:
        first = -(-least // step) * step
        if (most - first) // step < at_most:
            ticks, before = [], None
            for at in range(first, most + 1, step):
                ticks.append((at, time_label(at, step, before)))
                before = write_time(at)[:10]
            return ticks
    for step in MONTHS:
        if (most - least) // (31 * DAY * step) > at_most:
            continue
        places = month_places(least, most, step)
        if len(places) <= at_most:
            return [(at, [write_time(at)[: 7 if step < 12 else 4]]) for at in places]
    return []


def number_step(span, at_most):
    """The least of 1, 2 and 5 times a power of ten that parts a span at most so often; and the digits behind its point."""
    step, digits = Fraction(1), 0
    while step * at_most >= span:
        step, digits = step / 10, digits + 1
    while True:
        for factor in (1, 2, 5):
            if span <= factor * step * at_most:
                return factor * step, digits
        step, digits = step * 10, max(digits - 1, 0)


def number_ticks(least, most, at_most=6):
    """The ticks of an axis of numbers; the first and the last hold all between them."""
    if least == most:
        least, most = least - 1, most + 1
    step, digits = number_step(Fraction(most) - least, at_most - 2)
    first, last = Fraction(least) // step, -(Fraction(-most) // step)
    return [(at * step, [decimal_of(at * step, digits)]) for at in range(first, last + 1)]
