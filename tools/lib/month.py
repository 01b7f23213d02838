"""One month of an export, interval by interval: which month, what is missing or doubled, and how it is filled."""

import calendar
import datetime

from lib import decimals, starts
from lib.program import Failed

LARGEST_NET = 10**9


def read_month(text):
    """The year and month of `YYYY-MM`; a ValueError where it is none."""
    year, mark, month = text.partition("-")
    if not (mark and len(year) == 4 and len(month) == 2 and text.isascii() and year.isdigit() and month.isdigit()):
        raise ValueError("a month is written as 2025-03")
    if int(year) < 1 or not 1 <= int(month) <= 12:
        raise ValueError("there is no such month")
    return int(year), int(month)


def month_text(month):
    """A month as `YYYY-MM`."""
    return f"{month[0]:04d}-{month[1]:02d}"


def starts_of(month, minutes):
    """The starts of all intervals of a month."""
    count = calendar.monthrange(*month)[1] * 1440 // minutes
    first = datetime.datetime(*month, 1)
    return [first + datetime.timedelta(minutes=minutes * interval) for interval in range(count)]


def by_start(readings):
    """The readings of each start, in the file's order."""
    found = {}
    for reading in readings:
        found.setdefault(reading.start, []).append(reading)
    return found


def choose_month(export, path):
    """The one month of which the file has every interval, or the one that it has at all."""
    found = {reading.start for reading in export.readings}
    months = sorted({(start.year, start.month) for start in found})
    whole = [month for month in months if found.issuperset(starts_of(month, export.minutes))]
    chosen = whole or months
    if len(chosen) != 1:
        names = ", ".join(month_text(month) for month in chosen[:24])
        which = "whole months" if whole else "parts of months"
        raise Failed(f"{path}: the file has {len(chosen)} {which}: {names}; choose one by --month")
    return chosen[0]


def gap_of(export, start, path):
    """Where a missing interval should stand: the line of the reading before it."""
    before = [reading for reading in export.readings if reading.start < start]
    if before:
        return f"{path} line {max(before, key=lambda reading: (reading.start, reading.line)).line}: behind it"
    return f"{path} line {export.readings[0].line}: before it"


def check_places(export, month, path):
    """Refuses a reading of the month that begins between two intervals."""
    for reading in export.readings:
        if (reading.start.year, reading.start.month) == month and (reading.start.hour * 60 + reading.start.minute) % export.minutes:
            raise Failed(f"{path} line {reading.line}: {starts.text_of(reading.start)} isn't the start of an interval of {export.minutes} minutes")


def net_of_start(start, readings, fill, path, notes):
    """The net reading of an interval that the file has, in Wh exactly; none where no cell of it is filled."""
    if len(readings) > 1 and fill is None:
        first, second = readings[:2]
        raise Failed(
            f"{path} line {second.line}: the interval {starts.text_of(start)} stands also in line {first.line}, as the hour does that comes "
            "twice in autumn; --fill adds them up"
        )
    filled = [reading.net for reading in readings if reading.net is not None]
    if len(readings) > 1 and filled:
        lines = " and ".join(str(reading.line) for reading in readings)
        notes.append(f"{starts.text_of(start)} stands in lines {lines}: the readings are added up")
    return sum(filled) if filled else None


def missing(export, start, readings, path):
    """Refuses an interval without a reading."""
    if readings:
        raise Failed(f"{path} line {readings[0].line}: the interval {starts.text_of(start)} has an empty reading; --fill zero or previous fills it")
    raise Failed(
        f"{gap_of(export, start, path)} the interval {starts.text_of(start)} is missing, as the hour is that is left out in spring; "
        "--fill zero or previous fills it"
    )


def previous_of(found, start, minutes, path):
    """The reading before the month's first interval."""
    try:
        before = found.get(start - datetime.timedelta(minutes=minutes), [])
    except OverflowError:
        before = []
    filled = [reading.net for reading in before if reading.net is not None]
    if not filled:
        raise Failed(f"{path}: the interval {starts.text_of(start)} is missing, and there is none before it that could fill it")
    return sum(filled)


def month_of(export, month, fill, path):
    """Each interval of the month with its net reading in whole Wh, and what there is to tell of them."""
    check_places(export, month, path)
    found = by_start(export.readings)
    result, notes, unround, before = [], [], 0, None
    for start in starts_of(month, export.minutes):
        readings = found.get(start, [])
        net = net_of_start(start, readings, fill, path, notes)
        if net is None:
            if fill is None:
                missing(export, start, readings, path)
            if fill == "previous":
                net = previous_of(found, start, export.minutes, path) if before is None else before
            else:
                net = 0
            notes.append(f"{starts.text_of(start)} is missing: {'0' if fill == 'zero' else 'the reading before it'} is taken")
        before = net
        whole = decimals.rounded(net)
        if abs(whole) > LARGEST_NET:
            where = f"{path} line {readings[0].line}" if readings else path
            raise Failed(f"{where}: {starts.text_of(start)} has {whole} Wh; a reading is at most {LARGEST_NET} Wh in size; is the unit right?")
        unround += whole != net
        result.append((start, whole))
    if unround:
        notes.append(f"{unround} readings weren't whole Wh and are rounded, a half to the even number")
    return result, notes
