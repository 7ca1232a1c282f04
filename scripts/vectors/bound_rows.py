"""Caveats that are bounds of time, and such as only begin as one: the calendar, and each letter."""
from vectors.rows import Row

TIME = b"2026-01-31T12:34"
DAYS = [31, 28, 31, 30, 31, 30, 31, 31, 30, 31, 30, 31]
LEAP = [0, 4, 400, 1600, 1904, 1996, 2000, 2024, 2400, 9996]
COMMON = [1, 100, 200, 300, 1700, 1800, 1900, 1970, 2023, 2100, 9999]


def rows():
    yield from calendar()
    yield from times()
    yield from spellings()


def bound(about, caveat, rule="time"):
    return Row("bound", about, rule, {"caveat": caveat}, "bounds of time")


def limit(about, time, rule):
    return bound(about, b"time < " + time, rule)


def calendar():
    for month, days in enumerate(DAYS, 1):
        for day in (0, 1, days, days + 1, 99):
            yield limit(f"day {day} of month {month} in 2023", b"2023-%02d-%02dT00:00" % (month, day), "date")
    for month in (0, 13, 99):
        yield limit(f"month {month}", b"2023-%02d-01T00:00" % month, "date")
    for year in LEAP:
        yield limit(f"the 29th of February {year:04}, a leap year", b"%04d-02-29T00:00" % year, "date")
        yield limit(f"the 30th of February {year:04}", b"%04d-02-30T00:00" % year, "date")
        yield limit(f"the first of March {year:04}", b"%04d-03-01T00:00" % year, "seconds")
    for year in COMMON:
        yield limit(f"the 29th of February {year:04}, no leap year", b"%04d-02-29T00:00" % year, "date")
        yield limit(f"the 28th of February {year:04}", b"%04d-02-28T00:00" % year, "seconds")
        yield bound(f"the first of January {year:04}, as a lower bound", b"time >= %04d-01-01T00:00" % year, "lower bound")
    yield limit("the first second that is told", b"0000-01-01T00:00:00", "seconds")
    yield limit("the last second that is told", b"9999-12-31T23:59:59", "seconds")
    yield limit("the last second before 1970", b"1969-12-31T23:59:59", "seconds")
    yield limit("the first second of 1970", b"1970-01-01T00:00:00", "seconds")
    yield limit("the last second of 31 bits", b"2038-01-19T03:14:07", "seconds")
    yield limit("the second behind it", b"2038-01-19T03:14:08", "seconds")


def times():
    for hour in (0, 1, 9, 12, 23, 24, 25, 99):
        yield limit(f"hour {hour}", b"2026-01-31T%02d:00" % hour, "clock")
    for minute in (0, 1, 59, 60, 99):
        yield limit(f"minute {minute}", b"2026-01-31T12:%02d" % minute, "clock")
    for second in (0, 1, 59, 60, 61, 99):
        yield limit(f"second {second}", b"2026-01-31T12:34:%02d" % second, "clock")
    yield limit("a leap second that there was", b"2016-12-31T23:59:60Z", "clock")
    yield limit("midnight as 24:00", b"2026-01-31T24:00", "clock")


def spellings():
    for front, rule in ((b"time < ", "time limit"), (b"time >= ", "lower bound")):
        for end in (b"", b":56", b"Z", b":56Z"):
            yield bound(f"`{(front + TIME + end).decode()}`", front + TIME + end, rule)
    right = b"time < " + TIME
    changed = {
        "two spaces behind the sign": b"time <  " + TIME,
        "no space behind the sign": b"time <" + TIME,
        "no space before the sign": b"time< " + TIME,
        "two spaces before the sign": b"time  < " + TIME,
        "a space before it": b" " + right,
        "a space behind it": right + b" ",
        "a line feed behind it": right + b"\n",
        "a zero byte behind it": right + b"\0",
        "a tab in the place of a space": right.replace(b" ", b"\t", 1),
        "a capital first letter": b"T" + right[1:],
        "the sign <=": b"time <= " + TIME,
        "the sign >": b"time > " + TIME,
        "the sign =": b"time = " + TIME,
        "the sign =>": b"time => " + TIME,
        "no sign": b"time " + TIME,
        "the word alone": b"time < ",
        "nothing but a date": b"time < 2026-01-31",
        "nothing but an hour": b"time < 2026-01-31T12",
        "a space in the place of T": right.replace(b"T", b" "),
        "a small t": right.replace(b"T", b"t"),
        "a small z": right + b"z",
        "two Z": right + b"ZZ",
        "Z before the seconds": right + b"Z:56",
        "a fraction of a second": right + b":56.0",
        "a fraction behind a comma": right + b":56,0",
        "an offset of no hours": right + b"+00:00",
        "an offset of an hour": right + b"-01:00",
        "a second of one digit": right + b":5",
        "a second of three digits": right + b":056",
        "a colon at its end": right + b":",
        "a year of five digits": b"time < 12026-01-31T12:34",
        "a year of three digits": b"time < 026-01-31T12:34",
        "a year below zero": b"time < -026-01-31T12:34",
        "a year with a plus": b"time < +2026-01-31T12:34",
        "a month of one digit": b"time < 2026-1-31T12:34",
        "no hyphens": b"time < 20260131T12:34",
        "slashes in the place of hyphens": right.replace(b"-", b"/"),
        "dots in the place of hyphens": right.replace(b"-", b"."),
        "no colon": b"time < 2026-01-31T1234",
        "a week's date": b"time < 2026-W05-6T12:34",
        "a day of the year": b"time < 2026-031T12:34",
        "digits that aren't ASCII": "time < ٢٠٢٦-01-31T12:34".encode(),
        "a letter in the place of a digit": right.replace(b"31", b"3I"),
        "a hyphen that isn't ASCII": right.replace(b"-", "−".encode(), 1),
        "a second bound behind it": right + b" " + right,
        "nothing": b"",
        "the word before": b"before < " + TIME,
    }
    for named, caveat in changed.items():
        yield bound(f"a bound with {named}", caveat, "no bound")
    for at in range(7, len(right)):
        yield bound(f"a limit in which the letter at {at} is a space", right[:at] + b" " + right[at + 1 :], "no bound")
