"""Starts of intervals as utilities write them: the date forms, and the order of day and month."""

import datetime
import re

DATE = r"(?P<a>[0-9]{1,4})(?P<mark>[-./])(?P<b>[0-9]{1,2})(?P=mark)(?P<c>[0-9]{1,4})"
TIME = r"(?P<hour>[0-9]{1,2}):(?P<minute>[0-9]{2})(:(?P<second>[0-9]{2})(\.0+)?)?"
HALF = r"( ?(?P<half>[AaPp])\.?[Mm]\.?)?"
OFFSET = r"( ?(?P<offset>Z|[+-][0-9]{2}(:?[0-9]{2})?))?"
FORM = re.compile(rf"{DATE}([T ,]+){TIME}{HALF}{OFFSET}")
DATE_ALONE = re.compile(DATE)
LOOKS_LIKE = re.compile(rf"{DATE}([^0-9].*)?", re.DOTALL)

YEAR_FIRST, MONTH_FIRST, DAY_FIRST = "year", "month", "day"


class Unread(Exception):
    """Why a start can't be read."""


def looks_like_date(text):
    """Whether a cell begins with a date of some form."""
    return LOOKS_LIKE.fullmatch(text) is not None


def order_of(cells):
    """Which of day and month comes first in the dates of a file: a number above 12 tells it, and so do points."""
    orders = set()
    slashes = False
    for cell in cells:
        found = DATE_ALONE.match(cell)
        if not found or len(found["a"]) == 4:
            continue
        if found["mark"] == ".":
            orders.add(DAY_FIRST)
            continue
        slashes = True
        if int(found["a"]) > 12:
            orders.add(DAY_FIRST)
        if int(found["b"]) > 12:
            orders.add(MONTH_FIRST)
    if len(orders) > 1:
        raise Unread("in some dates the day comes first and in others the month: say by --date which form they have, as --date '%d/%m/%Y %H:%M'")
    if not orders and slashes:
        raise Unread("the dates don't tell whether day or month comes first: say it by --date, as --date '%m/%d/%Y %H:%M' or '%d/%m/%Y %H:%M'")
    return orders.pop() if orders else YEAR_FIRST


def full_year(text):
    """A year of four digits, or of two in this century."""
    if len(text) == 4:
        return int(text)
    if len(text) == 2:
        return 2000 + int(text)
    raise Unread("its year has neither two nor four digits")


def date_of(found, order):
    """The year, month and day of a date."""
    if len(found["a"]) == 4:
        return int(found["a"]), int(found["b"]), int(found["c"])
    first, second, year = int(found["a"]), int(found["b"]), full_year(found["c"])
    return (year, first, second) if order == MONTH_FIRST else (year, second, first)


def hour_of(found):
    """The hour from 0 to 24 of a time of day; 24 is the end of the day."""
    hour = int(found["hour"])
    if not found["half"]:
        return hour
    if not 1 <= hour <= 12:
        raise Unread("an hour with AM or PM is from 1 to 12")
    return hour % 12 + (12 if found["half"] in "Pp" else 0)


def read_start(cell, order, form=None):
    """The start that a cell has, in the clock of the file."""
    if form is not None:
        return read_by_form(cell, form)
    found = FORM.fullmatch(cell)
    if not found:
        if DATE_ALONE.fullmatch(cell):
            raise Unread("it has no time of day; where date and time are two columns give both, as --start Date,Time")
        raise Unread("its form isn't known; say it by --date, as --date '%d/%m/%Y %H:%M'")
    if int(found["second"] or 0):
        raise Unread("its seconds aren't 0")
    hour = hour_of(found)
    over = hour == 24 and found["minute"] == "00"
    try:
        start = datetime.datetime(*date_of(found, order), 0 if over else hour, int(found["minute"]))
        return start + datetime.timedelta(days=1 if over else 0)
    except (ValueError, OverflowError):
        raise Unread("there is no such day or time") from None


def read_by_form(cell, form):
    """The start that a cell has by a form of strptime."""
    try:
        start = datetime.datetime.strptime(cell, form)
    except (ValueError, OverflowError, re.error):
        raise Unread(f"it isn't of the form {form}") from None
    if start.second or start.microsecond:
        raise Unread("its seconds aren't 0")
    return start.replace(tzinfo=None)


def offset_of(cell):
    """The offset from UTC that a start names; empty where it names none."""
    found = FORM.fullmatch(cell)
    return (found["offset"] or "") if found else ""


def text_of(start):
    """A start as the project's files have it."""
    return f"{start.year:04d}-{start.month:02d}-{start.day:02d}T{start.hour:02d}:{start.minute:02d}"
