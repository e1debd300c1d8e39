"""Dates and times of files as the format's page says (docs/FORMAT.md), by counting days: the plain reader with which the tests compare
the program. It takes nothing from the program, and no library of dates.

Sources: CF Conventions, "Time Coordinate" and "Calendar"; ISO 8601.
"""
import re
from dataclasses import dataclass

CIVIL, NOLEAP, DAYS_360 = "civil", "noleap", "360_day"
# The calendar that a name in a file stands for, and whether times before 1582-10-15 are read in it. None is no name.
CALENDARS = {None: (CIVIL, False), b"standard": (CIVIL, False), b"gregorian": (CIVIL, False), b"proleptic_gregorian": (CIVIL, True),
             b"noleap": (NOLEAP, True), b"365_day": (NOLEAP, True), b"360_day": (DAYS_360, True)}
SECONDS = {b"day": 86400, b"hour": 3600, b"minute": 60, b"second": 1}
UNITS = re.compile(rb"(day|hour|minute|second)s?[ \t]+since[ \t]+(\d{4})-(\d{1,2})-(\d{1,2})"
                   rb"(?:(?:T|[ \t]+)(\d{1,2}):(\d{1,2})(?::(\d{1,2})(?:\.0+)?)?)?")
LAST_YEAR = 9999


@dataclass(frozen=True)
class Time:
    """Seconds from 0001-01-01T00:00:00 of a calendar."""
    calendar: str
    seconds: int

    def __str__(self):
        year, month, day = date_of(self.calendar, self.seconds // 86400)
        second = self.seconds % 86400
        return f"{year:04}-{month:02}-{day:02}T{second // 3600:02}:{second // 60 % 60:02}:{second % 60:02}"


@dataclass(frozen=True)
class Coding:
    """How numbers count times: a unit in seconds, from a reference."""
    unit: int
    reference: Time
    early: bool


def month_days(calendar, year, month):
    if calendar == DAYS_360:
        return 30
    leap = calendar == CIVIL and year % 4 == 0 and (year % 100 != 0 or year % 400 == 0)
    return [31, 29 if leap else 28, 31, 30, 31, 30, 31, 31, 30, 31, 30, 31][month - 1]


def days_before_year(calendar, year):
    """The days from 0001-01-01 to the first one of a year."""
    n = year - 1
    if calendar == DAYS_360:
        return 360 * n
    return 365 * n + (n // 4 - n // 100 + n // 400 if calendar == CIVIL else 0)


def day_number(calendar, year, month, day):
    """The days from 0001-01-01 to a date; None for a date that the calendar hasn't."""
    if not (1 <= year <= LAST_YEAR and 1 <= month <= 12 and 1 <= day <= month_days(calendar, year, month)):
        return None
    return days_before_year(calendar, year) + sum(month_days(calendar, year, m) for m in range(1, month)) + day - 1


def date_of(calendar, days):
    year = days // 366 + 1
    while days_before_year(calendar, year + 1) <= days:
        year += 1
    days, month = days - days_before_year(calendar, year), 1
    while days >= month_days(calendar, year, month):
        days, month = days - month_days(calendar, year, month), month + 1
    return year, month, days + 1


def time_of(calendar, year, month, day, hour=0, minute=0, second=0):
    days = day_number(calendar, year, month, day)
    if days is None or not (hour < 24 and minute < 60 and second < 60):
        return None
    return Time(calendar, 86400 * days + 3600 * hour + 60 * minute + second)


def is_read(time, early):
    """Whether a time lies in the years 1 to 9999, and in the Gregorian calendar where earlier ones aren't read."""
    first = 0 if early else time_of(CIVIL, 1582, 10, 15).seconds
    return first <= time.seconds < 86400 * days_before_year(time.calendar, LAST_YEAR + 1)


def coding_of(units, calendar):
    """What the texts of the attributes `units` and `calendar` say; None where they don't count times that are read."""
    found = UNITS.fullmatch(units)
    if not found or calendar not in CALENDARS:
        return None
    named, early = CALENDARS[calendar]
    reference = time_of(named, *(int(it or 0) for it in found.groups()[1:]))
    return Coding(SECONDS[found.group(1)], reference, early) if reference and is_read(reference, early) else None


def decoded(coding, count):
    """The time of a count; None where it isn't read."""
    time = Time(coding.reference.calendar, coding.reference.seconds + count * coding.unit)
    return time if is_read(time, coding.early) else None
