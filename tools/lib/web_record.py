"""Records of the rate database's web form (JSON) as rows with the column names of its bulk file."""

import json

from lib.program import Failed
from lib.record_names import ALL_PARTS, MONTH_LISTS, STRUCTURES, TIER_NAME
from lib.records import small

# how deep lists and objects may stand inside each other
DEEPEST = 20


class Number(str):
    """A number as it stands in the JSON: it is never made a float."""


def no_number(text):
    """NaN and Infinity, which are no numbers of JSON."""
    raise Failed(f"{text} is no number")


def one_of_each(pairs):
    """An object, in which no field may stand twice."""
    fields = {}
    for name, value in pairs:
        if name in fields:
            raise Failed(f"the field {name} stands twice in one object")
        fields[name] = value
    return fields


def read_json(text, path):
    """The JSON of a file, with the text of each number."""
    try:
        return json.loads(text, parse_float=Number, parse_int=Number, parse_constant=no_number, object_pairs_hook=one_of_each)
    except json.JSONDecodeError as error:
        raise Failed(f"{path} line {error.lineno}: this isn't JSON: {error.msg}") from None
    except RecursionError:
        raise Failed(f"{path}: lists and objects stand too deep inside each other") from None
    except Failed as failed:
        raise Failed(f"{path}: {failed}") from None


def records_of(value, path):
    """The records that the JSON has: those of `items`, those of a list, or itself."""
    if isinstance(value, dict) and "items" in value:
        value = value["items"]
    elif isinstance(value, dict):
        for answer in ("error", "errors"):
            if answer in value and "label" not in value:
                raise Failed(f"{path}: the database answered with an error: {nested_text(value[answer])[:200]}")
        value = [value]
    if not isinstance(value, list) or not value:
        raise Failed(f"{path}: there is no record in it: a list, `items` with a list, or one record")
    return value


def nested_text(value, depth=0):
    """A value inside a list or an object, as JSON has it."""
    if depth > DEEPEST:
        raise Failed("lists and objects stand too deep inside each other")
    if isinstance(value, list):
        return "[" + ", ".join(nested_text(item, depth + 1) for item in value) + "]"
    if isinstance(value, dict):
        return "{" + ", ".join(f"{json.dumps(name, ensure_ascii=False)}: {nested_text(item, depth + 1)}" for name, item in value.items()) + "}"
    return value if isinstance(value, Number) else json.dumps(value, ensure_ascii=False)


def cell_of(value):
    """A field as one cell; null, an empty list and an empty object are empty."""
    if value is None or value == [] or value == {}:
        return ""
    return str(value) if isinstance(value, str) else nested_text(value)


def tier_cells(structure, periods):
    """The columns of a structure's tiers, each with its cell."""
    cells = []
    if not isinstance(periods, list):
        raise Failed(f"{structure} isn't a list of periods")
    for period, tiers in enumerate(periods):
        if tiers is None:
            continue
        if not isinstance(tiers, list):
            raise Failed(f"{structure}: period {period} isn't a list of tiers")
        for tier, parts in enumerate(tiers):
            if parts is None:
                continue
            if not isinstance(parts, dict):
                raise Failed(f"{structure}: tier {tier} of period {period} has no fields")
            cells += [(f"{structure}/period{period}/tier{tier}{small(part)}", cell_of(value)) for part, value in parts.items()]
    return cells


def month_cells(name, months):
    """A list of months in one cell or, where a month has nothing, in the columns of each month."""
    if isinstance(months, list) and len(months) == 12 and None in months:
        return [(f"{MONTH_LISTS[name]}{month}", cell_of(value)) for month, value in enumerate(months, 1)]
    return [(name, cell_of(months))]


def row_of(fields):
    """A record's cells by the names of their columns."""
    if not isinstance(fields, dict):
        raise Failed("this is no object with fields")
    row = {}
    for written, value in fields.items():
        name = small(written)
        if name in STRUCTURES and value is not None:
            cells = tier_cells(name, value)
        elif name in MONTH_LISTS:
            cells = month_cells(name, value)
        else:
            cells = [(name, cell_of(value))]
        for column, cell in cells:
            if column in row:
                raise Failed(f"two fields are for the column {column}")
            if not (column + cell).isascii():
                check_characters(column, cell)
            row[column] = cell
    if not row.get("label"):
        raise Failed("it has no label")
    return row


def check_characters(column, cell):
    """Halves of characters, which JSON can say, can't be written."""
    try:
        (column + cell).encode("utf-8")
    except UnicodeEncodeError:
        raise Failed(f"the field of column {column!a} has half a character") from None


def rows_of_records(values, path):
    """The rows of all records."""
    rows = []
    for number, fields in enumerate(values, 1):
        try:
            rows.append(row_of(fields))
        except Failed as failed:
            label = fields.get("label") if isinstance(fields, dict) else None
            raise Failed(f"{path}: record {number}{f' ({label})' if label else ''}: {failed}") from None
    return rows


def tier_order(column):
    """Where a tier's column stands among those of its structure: by period, tier and part."""
    _, period, tier, part = TIER_NAME.fullmatch(column).groups()
    return len(period), period, len(tier), tier, ALL_PARTS.index(part) if part in ALL_PARTS else len(ALL_PARTS), part


def header_of(rows):
    """The columns of all rows: the label, then the others as they first come, a structure's tiers together and in order."""
    groups = {"label": {"label": True}}
    for row in rows:
        for column in row:
            tier = TIER_NAME.fullmatch(column)
            groups.setdefault((tier[1],) if tier else column, {})[column] = True
    header = []
    for group in groups.values():
        header += sorted(group, key=tier_order) if len(group) > 1 else group
    return header
