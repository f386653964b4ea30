"""Stamps of logs, as exact numbers of ns since 1970: no number is ever a float."""

from __future__ import annotations

import re
from decimal import Context, Decimal
from typing import Tuple

UNITS = {"s": 9, "ms": 6, "us": 3, "ns": 0}
STAMP_LIMIT, DECIMALS_MOST = 2**62, 500
# More digits than any line has.
EXACT = Context(prec=1_000_000)
MONTHS = ("jan", "feb", "mar", "apr", "may", "jun", "jul", "aug", "sep", "oct", "nov", "dec")
ZONE = r"(?P<zone>Z|UTC|GMT|[+-]\d\d(?::?\d\d)?)?"
TIME = r"(?P<hour>\d\d):(?P<minute>\d\d)(?::(?P<second>\d\d)(?:[.,](?P<decimals>\d+))?)?"
# 2026-11-30T02:24:55.103755+01:00 (ISO 8601, RFC 3339); 30/Nov/2026:02:24:55 +0000 (common log format), 30 Nov 2026 02:24:55.103 (Redis);
# Nov 30 02:24:55.103755 (RFC 3164), Nov 30 2026 02:24:55.
DATED = [
    re.compile(rf"(?P<year>\d{{4}})-(?P<month>\d\d)-(?P<day>\d\d)[T ]{TIME} ?{ZONE}", re.I | re.A),
    re.compile(rf"(?P<day>\d\d)[/ ](?P<month>[a-z]{{3}})[/ ](?P<year>\d{{4}})[: ]{TIME} ?{ZONE}", re.I | re.A),
    re.compile(rf"(?P<month>[a-z]{{3}}) {{1,2}}(?P<day>\d\d?)(?: (?P<year>\d{{4}}))? {TIME} ?{ZONE}", re.I | re.A),
]
NUMBER = re.compile(r"\d+(\.\d+)?([eE][+-]?\d{1,9})?", re.A)

# Exact ns since 1970 (or of a span), and the number of decimals of a second that the text had.
Ns = Tuple[Decimal, int]


class Unreadable(Exception):
    """A line, or a stamp in it, is not what it should be; the text says what was expected."""


def days_since_1970(year: int, month: int, day: int) -> int:
    """Returns the number of days from the first day of 1970 to a date of the Gregorian calendar. Raises Unreadable where there is no such day."""
    lengths = [31, 29 if year % 4 == 0 and (year % 100 or year % 400 == 0) else 28, 31, 30, 31, 30, 31, 31, 30, 31, 30, 31]
    if not 1 <= month <= 12 or not 1 <= day <= lengths[month - 1]:
        raise Unreadable("no such day")
    past = year - 1
    leap_days = past // 4 - past // 100 + past // 400
    return 365 * past + leap_days - 719162 + sum(lengths[: month - 1]) + day - 1


def seconds_of_zone(text: str) -> int:
    """Returns the seconds by which a zone's clocks are ahead of UTC."""
    if text.upper() in ("Z", "UTC", "GMT"):
        return 0
    digits = text[1:].replace(":", "").ljust(4, "0")
    if int(digits[:2]) > 23 or int(digits[2:]) > 59:
        raise Unreadable("no such offset")
    return (-1 if text[0] == "-" else 1) * (3600 * int(digits[:2]) + 60 * int(digits[2:]))


def month_of(text: str) -> int:
    """Returns the number of a month, be it a number or three letters."""
    if text.isdigit():
        return int(text)
    if text.lower() not in MONTHS:
        raise Unreadable(f"{text} is no month")
    return MONTHS.index(text.lower()) + 1


def span_of(text: str, unit: str) -> Ns:
    """Returns the ns that a number in a unit is, whether since 1970 or of a span. Raises Unreadable where it is no number."""
    if not NUMBER.fullmatch(text):
        raise Unreadable(f"`{text[:60]}` is no number")
    number = Decimal(text)
    # (a number of 30 digits is out of range in each unit)
    if number.adjusted() > 30:
        raise Unreadable(f"`{text[:60]}` is out of range: its ns pass 2^62")
    if int(number.as_tuple().exponent) < -DECIMALS_MOST:
        raise Unreadable(f"`{text[:60]}` has more than {DECIMALS_MOST} decimals")
    return number.scaleb(UNITS[unit], EXACT), 9 - UNITS[unit] + max(-int(number.as_tuple().exponent), 0)


def whole_ns(ns: Decimal) -> int:
    """Returns the whole ns of a stamp; what is below is cut off. Raises Unreadable where a row cannot have it."""
    if not 0 <= ns < STAMP_LIMIT:
        raise Unreadable("it is before 1970, or its ns since then pass 2^62: is --unit right?")
    return int(ns)


class Stamps:
    """Reads the stamps of one log: the unit of those that are numbers, the offset of those that have none, and the year of the first one
    that has none. Where later ones go on from December to January, or back, the year goes along."""

    def __init__(self, unit: str = "s", zone: str | None = None, year: int | None = None) -> None:
        self.unit, self.zone, self.year = unit, zone, year
        self.month: int | None = None

    def read(self, text: str) -> Ns:
        """Returns the ns of a stamp. Raises Unreadable where it is none."""
        text = text.strip()
        dated = next((it for it in (pattern.fullmatch(text) for pattern in DATED) if it), None)
        if dated:
            return self.read_dated(dated)
        if not NUMBER.fullmatch(text):
            raise Unreadable("it is neither an ISO stamp nor a number")
        return span_of(text, self.unit)

    def read_dated(self, found: re.Match[str]) -> Ns:
        """Returns the ns of a stamp that one of DATED matched."""
        month = month_of(found["month"])
        year = int(found["year"]) if found["year"] else self.year_of(month)
        hour, minute, second, decimals = int(found["hour"]), int(found["minute"]), int(found["second"] or 0), found["decimals"] or ""
        # (a leap second is the first one of the next minute, as in each clock that counts seconds since 1970)
        if hour > 23 or minute > 59 or second > 60:
            raise Unreadable("no such time of a day")
        zone = found["zone"] or self.zone
        if not zone:
            raise Unreadable("it has no offset, and --zone gives none")
        whole = 86400 * days_since_1970(year, month, int(found["day"])) + 3600 * hour + 60 * minute + second - seconds_of_zone(zone)
        if whole < 0:
            return Decimal(-1), 0
        return Decimal(f"{whole}{decimals}").scaleb(9 - len(decimals), EXACT), len(decimals)

    def year_of(self, month: int) -> int:
        """Returns the year of a stamp that has none, by its month and that of the one before."""
        if self.year is None:
            raise Unreadable("it has no year, and --year gives none")
        if self.month is not None and abs(month - self.month) > 6:
            self.year += 1 if month < self.month else -1
        self.month = month
        return self.year
