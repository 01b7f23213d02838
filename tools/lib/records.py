"""Reads record files, rows of the rate database's bulk CSV, row by row."""

import csv
import string

from lib.program import Failed

# Characters of a line or a cell. The bulk file's longest have some thousands; a quote that is never closed would take all the memory.
LONGEST = 1 << 24
SMALL = str.maketrans(string.ascii_uppercase, string.ascii_lowercase)


def small(name):
    """A column's name in small letters, as the program compares names: ASCII alone."""
    return name.translate(SMALL)


def trimmed(cell):
    """A cell without the spaces and tabs at its ends."""
    return cell.strip(" \t")


def lines_of(file, path):
    """The lines of a file, none longer than the longest."""
    number = 0
    while True:
        line = file.readline(LONGEST)
        number += 1
        if not line:
            return
        if len(line) >= LONGEST:
            raise Failed(f"{path} line {number}: the line is too long for a record file")
        yield line


def rows_of(path):
    """Each row that isn't blank, with the number of the line where it begins; the header is the first."""
    csv.field_size_limit(LONGEST)
    try:
        # any bytes are read, as the program does
        with open(path, encoding="utf-8-sig", errors="surrogateescape", newline="") as file:
            reader = csv.reader(lines_of(file, path))
            line = 1
            try:
                for cells in reader:
                    if cells:
                        yield line, cells
                    line = reader.line_num + 1
            except csv.Error as error:
                raise Failed(f"{path} line {line}: {error}") from None
    except OSError as error:
        raise Failed(f"{path}: {error.strerror}") from None


def header_of(rows, path):
    """The names of the columns, which stand first."""
    for line, cells in rows:
        names = [trimmed(cell) for cell in cells]
        if "\0" in "".join(names):
            raise Failed(f"{path} line {line}: this isn't a CSV file in UTF-8")
        return names
    raise Failed(f"{path} line 1: there is no header")


def first_places(names):
    """The place of each name in small letters; of two columns of one name the first counts."""
    places = {}
    for place, name in enumerate(names):
        places.setdefault(small(name), place)
    return places


def cell_at(cells, place):
    """A cell of a row; empty where there is no such column or cell."""
    return trimmed(cells[place]) if place is not None and place < len(cells) else ""


def find_record(path, label):
    """The header, and the line and the cells of the one record with this label."""
    rows = rows_of(path)
    header = header_of(rows, path)
    place = first_places(header).get("label")
    if place is None:
        raise Failed(f"{path} line 1: the header has no column label; columns are separated by commas")
    found = None
    for line, cells in rows:
        if cell_at(cells, place) != label:
            continue
        if found:
            raise Failed(f"{path} line {line}: the label {label} stands twice, first in line {found[0]}")
        found = line, cells
    if not found:
        raise Failed(f"{path}: no record has the label {label}")
    return header, found[0], found[1]
