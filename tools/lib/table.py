"""Tables of text: the rows of a CSV file with the line of each, and its columns by name or number."""

import csv
import io

from lib.program import Failed

SEPARATORS = (",", ";", "\t")
SAMPLE = 60


def rows_of(path, text, separator=","):
    """The rows that aren't blank, each with the number of the line where it begins; cells are without the spaces at their ends."""
    if "\0" in text:
        line = text.count("\n", 0, text.index("\0")) + 1
        raise Failed(f"{path} line {line}: a zero byte stands there; this is no text")
    reader = csv.reader(io.StringIO(text, newline=""), delimiter=separator)
    rows = []
    line = 1
    try:
        for cells in reader:
            trimmed = [cell.strip(" \t\u00a0") for cell in cells]
            if any(trimmed):
                rows.append((line, trimmed))
            line = reader.line_num + 1
    except csv.Error as error:
        raise Failed(f"{path} line {line}: {error}") from None
    return rows


def find_separator(text):
    """The separator by which most of the first lines have one and the same number of cells, two or more."""
    sample = [line for line in text.splitlines() if line.strip()][:SAMPLE]

    def fitness(separator):
        """How many lines have the commonest number of cells, and that number."""
        counts = {}
        for cells in csv.reader(sample, delimiter=separator):
            if len(cells) > 1:
                counts[len(cells)] = counts.get(len(cells), 0) + 1
        return max(((count, cells) for cells, count in counts.items()), default=(0, 0))

    try:
        # a comma may also stand inside of numbers, so it is asked last
        return max((";", "\t", ","), key=lambda separator: (fitness(separator)[0], separator != ",", fitness(separator)[1]))
    except csv.Error:
        return ","


def place_of(name, header, path):
    """The place of a column, counted from 0, by its name, or by its number from 1; none where there is no such name."""
    for form in (str, str.casefold):
        places = [place for place, title in enumerate(header) if form(title) == form(name)]
        if len(places) > 1:
            raise Failed(f"{path}: {len(places)} columns have the name '{name}'; choose one by its number")
        if places:
            return places[0]
    if name.isascii() and name.isdigit() and len(name) < 5 and int(name) > 0:
        return int(name) - 1
    return None


def places_of(names, header, path):
    """The places of columns whose names are separated by commas; a name may have a comma itself."""
    whole = place_of(names.strip(), header, path)
    if whole is not None:
        return [whole]
    places = [place_of(name.strip(), header, path) for name in names.split(",")]
    if None in places:
        missing = names.split(",")[places.index(None)].strip()
        titles = ", ".join(header) or "nothing"
        raise Failed(f"{path}: there is no column '{missing}'; the header has {titles}")
    return places
