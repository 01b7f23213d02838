"""The modes of a battery file."""

from lib import decimals, table
from lib.program import Failed

HEADER = ["kind", "name", "change", "grid_wh", "low", "high"]


def grids_of(path, text):
    """What each mode adds to the net reading in Wh, by the mode's name."""
    rows = table.rows_of(path, text)
    if not rows or [cell.casefold() for cell in rows[0][1]] != HEADER:
        line = rows[0][0] if rows else 1
        raise Failed(f"{path} line {line}: a battery file begins with {','.join(HEADER)}")
    grids = {}
    for line, cells in rows[1:]:
        if len(cells) != len(HEADER) or cells[0] not in ("set", "mode"):
            raise Failed(f"{path} line {line}: neither a set nor a mode")
        if cells[0] == "mode":
            try:
                grids[cells[1]] = decimals.read_whole(cells[3])
            except ValueError as fault:
                raise Failed(f"{path} line {line}: {fault}") from None
    return grids
