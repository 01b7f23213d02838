"""A utility's interval export: its heading, its rows, and what each says of an interval."""

import dataclasses
import datetime
import fractions
from collections import Counter

from lib import decimals, starts, table
from lib.program import Failed

LARGEST_HEADING = 40
LENGTHS = (15, 30, 60)


@dataclasses.dataclass
class Wanted:
    """What the command line says of a file."""

    start: str = None
    imported: str = None
    exported: str = None
    unit: str = "kWh"
    date: str = None
    minutes: int = None
    ends: bool = False


@dataclasses.dataclass
class Columns:
    """The places of the columns that are read."""

    start: list
    imported: int
    exported: int = None

    def last(self):
        """The greatest place."""
        return max(*self.start, self.imported, self.exported or 0)


@dataclasses.dataclass
class Reading:
    """A row of the export: its line, its start, and the net reading in Wh, exactly; none where the cell is empty."""

    line: int
    start: datetime.datetime
    net: fractions.Fraction = None


@dataclasses.dataclass
class Export:
    """All readings of a file in its order, how long their intervals are, and what there is to tell of them."""

    readings: list
    minutes: int
    notes: list


def columns_of(wanted, header, path):
    """The columns by name or number; the first is the start and the one behind it the import where none are given."""
    start = table.places_of(wanted.start, header, path) if wanted.start else [0]

    def single(names):
        """The place of one column."""
        places = table.places_of(names, header, path)
        if len(places) != 1:
            raise Failed(f"{path}: '{names}' is more than one column")
        return places[0]

    imported = single(wanted.imported) if wanted.imported else max(start) + 1
    return Columns(start, imported, single(wanted.exported) if wanted.exported else None)


def named_columns(wanted, cells):
    """Whether a row has all columns that are given by their names."""
    folded = [cell.casefold() for cell in cells]
    for names in (wanted.start, wanted.imported, wanted.exported):
        if names and names.strip().casefold() not in folded:
            for name in (name.strip() for name in names.split(",")):
                if name.casefold() not in folded and not name.isdigit():
                    return False
    return True


def start_cell(cells, columns):
    """The text of a row's start."""
    return " ".join(cells[place] if place < len(cells) else "" for place in columns.start).strip()


def has_start(cells, columns, wanted):
    """Whether a row looks like one of readings."""
    cell = start_cell(cells, columns)
    if starts.looks_like_date(cell):
        return True
    if wanted.date is None:
        return False
    try:
        starts.read_start(cell, None, wanted.date)
    except starts.Unread:
        return False
    return True


def header_above(rows, wanted):
    """The header among the rows of a heading: the last with all named columns, or the last where none is named."""
    names = [name for name in (wanted.start, wanted.imported, wanted.exported) if name]
    if not rows or all(name.replace(",", "").replace(" ", "").isdigit() for name in names):
        return rows[-1][1] if rows else []
    return next((cells for _, cells in reversed(rows) if named_columns(wanted, cells)), None)


def split_heading(rows, wanted, path):
    """The columns, the header, and the rows of readings: those from the first on that has a date in the column of starts."""
    if not rows:
        raise Failed(f"{path} line 1: there are no rows")
    for place, (_, cells) in enumerate(rows[:LARGEST_HEADING]):
        header = header_above(rows[:place], wanted)
        if header is None:
            continue
        try:
            columns = columns_of(wanted, header, path)
        except Failed:
            continue
        if has_start(cells, columns, wanted):
            return columns, header, rows[place:]
    heading = header_above(rows[:LARGEST_HEADING], wanted)
    columns = columns_of(wanted, rows[0][1] if heading is None else heading, path)
    line, cells = rows[min(1, len(rows) - 1)]
    cell = decimals.shown(start_cell(cells, columns))
    raise Failed(f"{path} line {line}: no date stands in the column of starts, but {cell}; choose it by --start")


def unit_note(title, unit):
    """What to tell where a column's title names another unit than the one that is read; none where it doesn't."""
    words = "".join(letter if letter.isalnum() else " " for letter in title.casefold()).split()
    named = [name for name in ("kWh", "Wh", "kW") if name.casefold() in words]
    if named and unit not in named:
        return f"the column '{title}' is read in {unit}, and its title says {named[0]}: --unit {named[0]} reads it so"
    return None


def factor_of(unit, minutes):
    """How many Wh one of a unit is in an interval; kW is the interval's average."""
    return {"Wh": fractions.Fraction(1), "kWh": fractions.Fraction(1000), "kW": fractions.Fraction(1000 * minutes, 60)}[unit]


def number_of(cell, comma):
    """The value of a cell; a comma is the point where the separator is another one."""
    return decimals.read_decimal(cell.replace(",", ".") if comma and cell.count(",") == 1 and "." not in cell else cell)


def find_minutes(found, wanted, path):
    """How long the intervals are: what the commonest distance of two starts is."""
    different = sorted(set(found))
    if len(different) < 2:
        if wanted.minutes is not None:
            return wanted.minutes
        raise Failed(f"{path}: there is one interval alone; say by --minutes how long it is")
    steps = Counter((after - before) // datetime.timedelta(minutes=1) for before, after in zip(different, different[1:]))
    minutes = min(steps, key=lambda step: (-steps[step], step))
    if wanted.minutes not in (None, minutes):
        raise Failed(f"{path}: --minutes says {wanted.minutes}, and the starts are {minutes} minutes apart")
    if minutes not in LENGTHS:
        raise Failed(f"{path}: the starts are {minutes} minutes apart; readings are every 15, 30 or 60 minutes")
    return minutes


def read_starts(rows, columns, wanted, path):
    """The start of each row, and what there is to tell of them."""
    cells = [start_cell(cells, columns) for _, cells in rows]
    try:
        order = None if wanted.date else starts.order_of(cells)
    except starts.Unread as unread:
        raise Failed(f"{path} line {rows[0][0]}: {unread}") from None
    found = []
    for (line, _), cell in zip(rows, cells):
        try:
            found.append(starts.read_start(cell, order, wanted.date))
        except starts.Unread as unread:
            raise Failed(f"{path} line {line}: the start {decimals.shown(cell)} isn't read: {unread}") from None
    offsets = sorted({starts.offset_of(cell) for cell in cells} - {""})
    if wanted.date is None and offsets:
        return found, [f"the starts name the offset {' and '.join(offsets)}; they are taken as the clock shows them"]
    return found, []


def net_of(cells, columns, factor, comma):
    """The net reading of a row in Wh, or none where the import is empty; and whether its export is empty."""
    imported = cells[columns.imported]
    if not imported:
        return None, False
    net = number_of(imported, comma)
    if columns.exported is None:
        return net * factor, False
    if not cells[columns.exported]:
        return net * factor, True
    exported = number_of(cells[columns.exported], comma)
    if exported < 0:
        raise ValueError(f"the export {decimals.shown(cells[columns.exported])} is below 0")
    return (net - exported) * factor, False


def read_export(path, text, wanted):
    """All readings of an export."""
    separator = table.find_separator(text)
    all_rows = table.rows_of(path, text, separator)
    columns, header, rows = split_heading(all_rows, wanted, path)
    begins, notes = read_starts(rows, columns, wanted, path)
    minutes = find_minutes(begins, wanted, path)
    titles = [header[place] for place in (columns.imported, columns.exported) if place is not None and place < len(header)]
    notes += filter(None, (unit_note(title, wanted.unit) for title in titles))
    heading = [line for line, _ in all_rows if line < rows[0][0]]
    if len(heading) > 1:
        notes.append(f"the readings begin in line {rows[0][0]}; {len(heading)} rows before it are the heading")
    shift = datetime.timedelta(minutes=minutes if wanted.ends else 0)
    factor = factor_of(wanted.unit, minutes)
    readings, empty = [], 0
    for (line, cells), begin in zip(rows, begins):
        if len(cells) <= columns.last():
            raise Failed(f"{path} line {line}: the row has {len(cells)} cells, and column {columns.last() + 1} is read")
        try:
            net, blank = net_of(cells, columns, factor, separator != ",")
            readings.append(Reading(line, begin - shift, net))
        except OverflowError:
            raise Failed(f"{path} line {line}: the interval begins before the year 1") from None
        except ValueError as fault:
            hint = "; where date and time are two columns give both, as --start Date,Time" if ":" in cells[columns.imported] else ""
            raise Failed(f"{path} line {line}: {fault}{hint}") from None
        empty += blank
    if empty:
        notes.append(f"{empty} empty cells of the export are read as 0")
    return Export(readings, minutes, notes)
