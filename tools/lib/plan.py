"""The printed plan of a month: its lines, checked for their form."""

import calendar
import dataclasses
import datetime
import re

from lib import starts
from lib.program import Failed

MONEY = r"-?[0-9]{1,40}\.[0-9]{2,21}"
NATURAL = r"[0-9]{1,18}"
# The lines before the intervals in their order: the name, what follows it, and whether it may be left out or come often.
HEAD = (
    ("dispatch", r"plan", "1"),
    ("label", r"[!-~]{1,64}", "1"),
    ("month", r"[0-9]{4}-[0-9]{2}", "1"),
    ("minutes", r"15|30|60", "1"),
    ("verdict", r"least|gap budget|gap duality", "1"),
    ("bill", MONEY, "1"),
    ("lower", MONEY, "?"),
    ("metered", MONEY, "1"),
    ("boxes", NATURAL, "1"),
    ("period", rf"{NATURAL} import {NATURAL} charge {MONEY}", "*"),
    ("credit", MONEY, "1"),
    ("group", rf"{NATURAL} peak {NATURAL} charge {MONEY}", "*"),
    ("flat", rf"peak {NATURAL} floor {NATURAL} charge {MONEY}", "?"),
    ("fixed", MONEY, "1"),
    ("sum", MONEY, "1"),
    ("minimum", rf"none|{MONEY}", "1"),
)
INTERVAL = re.compile(rf"([0-9]{{4}}-[0-9]{{2}}-[0-9]{{2}}T[0-9]{{2}}:[0-9]{{2}}) ([A-Za-z0-9_-]{{1,32}}) ([0-9]{{1,3}}) (-?[0-9]{{1,12}})", re.ASCII)


@dataclasses.dataclass
class Interval:
    """A line of an interval: its start, the mode, the level behind it, and the flow through the meter in Wh."""

    start: str
    mode: str
    level: int
    flow: int


@dataclasses.dataclass
class Plan:
    """A plan: the values of the lines before the intervals by their name, and the intervals."""

    values: dict
    intervals: list

    def value(self, name):
        """What follows the name of a line that comes once."""
        return self.values[name][0] if self.values[name] else None

    def minutes(self):
        """How long an interval is."""
        return int(self.value("minutes"))

    def peaks(self):
        """The greatest power in W of each demand charge with its name."""
        peaks = [(f"group {value.split()[0]}", int(value.split()[2])) for value in self.values["group"]]
        return peaks + [("flat", int(value.split()[1])) for value in self.values["flat"]]


def read_head(lines, path):
    """The values of the lines before the intervals, and how many lines these are."""
    values = {name: [] for name, _, _ in HEAD}
    place = 0
    for name, form, times in HEAD:
        while place < len(lines) and lines[place].partition(" ")[0] == name and not (values[name] and times != "*"):
            value = lines[place].partition(" ")[2]
            if not re.fullmatch(form, value, re.ASCII):
                raise Failed(f"{path} line {place + 1}: no line of a plan: '{lines[place][:60]}'")
            values[name].append(value)
            place += 1
        if times == "1" and not values[name]:
            found = f"'{lines[place][:60]}'" if place < len(lines) else "the end"
            raise Failed(f"{path} line {place + 1}: this is no plan: in place of the line '{name}' stands {found}")
    return values, place


def starts_of(values, path):
    """The starts of the month's intervals."""
    year, month = (int(part) for part in values["month"][0].split("-"))
    minutes = int(values["minutes"][0])
    if not (1 <= year and 1 <= month <= 12):
        raise Failed(f"{path} line 3: there is no month {values['month'][0]}")
    first = datetime.datetime(year, month, 1)
    count = calendar.monthrange(year, month)[1] * 1440 // minutes
    return [starts.text_of(first + datetime.timedelta(minutes=minutes * interval)) for interval in range(count)]


def read_plan(path, text):
    """The plan of a text that `plan` printed."""
    lines = text.splitlines()
    values, place = read_head(lines, path)
    expected = starts_of(values, path)
    intervals = []
    for number, line in enumerate(lines[place:], place + 1):
        found = INTERVAL.fullmatch(line)
        if not found:
            raise Failed(f"{path} line {number}: no line of an interval: '{line[:60]}'")
        if len(intervals) == len(expected) or found[1] != expected[len(intervals)]:
            wanted = expected[len(intervals)] if len(intervals) < len(expected) else "the end"
            raise Failed(f"{path} line {number}: in place of {wanted} stands {found[1]}")
        intervals.append(Interval(found[1], found[2], int(found[3]), int(found[4])))
    if len(intervals) != len(expected):
        raise Failed(f"{path} line {len(lines) + 1}: the plan ends before {expected[len(intervals)]}")
    return Plan(values, intervals)
