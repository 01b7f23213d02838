"""The names of a record's columns: those that the program reads, those of the database beside them, and the nearest to a misspelled one."""

import difflib
import re

from lib.records import cell_at, first_places, small

PERIODS = 36
TIERS = 16

# the parts that are read of each structure's tiers
STRUCTURES = {
    "energyratestructure": ("max", "unit", "rate", "adj", "sell"),
    "demandratestructure": ("max", "rate", "adj"),
    "flatdemandstructure": ("max", "rate", "adj"),
    "coincidentratestructure": ("rate", "adj"),
}
ALL_PARTS = STRUCTURES["energyratestructure"]

# the lists of months, and what stands in front of the month in the twelve columns that are read where the list is empty
MONTH_LISTS = {
    "flatdemandmonths": "flatdemandmonth",
    "demandratchetpercentage": "demandratchetpercentage",
    "fueladjustmentsmonthly": "fueladjustmentsmonthly",
}

PLAIN = (
    "label", "dgrules", "energyweekdayschedule", "energyweekendschedule", "demandrateunit", "demandweekdayschedule",
    "demandweekendschedule", "flatdemandunit", "lookbackpercent", "fixedchargefirstmeter", "fixedchargeunits", "mincharge",
    "minchargeunits", "annualmincharge", "demandreactivepowercharge",
)

# columns of the database that say what a record is and for whom, and don't bear on a month's bill
DESCRIBED = frozenset((
    "utility", "name", "uri", "approved", "eiaid", "startdate", "enddate", "sector", "servicetype", "description", "source", "sourceparent",
    "supersedes", "revisions", "is_default", "latest_update", "country", "basicinformationcomments", "demandcomments", "energycomments",
    "voltagecategory", "voltageminimum", "voltagemaximum", "phasewiring", "peakkwcapacitymin", "peakkwcapacitymax",
    "peakkwcapacityhistory", "peakkwhusagemin", "peakkwhusagemax", "peakkwhusagehistory",
))

# columns of the database that can bear on a bill, though nothing is read from them
NOT_USED = frozenset((
    "demandwindow", "fixedchargeeaaddl", "lookbackmonths", "lookbackrange", "coincidentrateunit", "coincidentrateschedule", "energyattrs",
    "demandattrs", "fixedattrs",
))

# names that earlier versions of the database had, and others in use, with today's
OTHER_NAMES = {
    "fixedmonthlycharge": "fixedchargefirstmeter",
    "fixedcharge": "fixedchargefirstmeter",
    "demandunit": "demandrateunit",
    "minmonthlycharge": "mincharge",
    "minimumcharge": "mincharge",
    "usenetmetering": "dgrules",
}

TIER_NAME = re.compile(r"([^/]+)/period([0-9]+)/tier([0-9]+)(.*)", re.DOTALL)
MONTH_NAME = re.compile(r"(.*?)([0-9]+)", re.DOTALL)
CLOSE = 0.75


def list_of_month(name):
    """The list of months that this is one of the twelve columns of."""
    found = MONTH_NAME.fullmatch(name)
    if found and found[2] in {str(month) for month in range(1, 13)}:
        for listed, front in MONTH_LISTS.items():
            if found[1] == front:
                return listed
    return None


def is_number_below(digits, limit):
    """Whether these digits are a number in its range, without zeros in front."""
    return len(digits) < 5 and digits == str(int(digits)) and int(digits) < limit


def is_tier_name(name):
    """Whether this is a tier's column that is read."""
    found = TIER_NAME.fullmatch(name)
    return bool(found) and found[4] in STRUCTURES.get(found[1], ()) and is_number_below(found[2], PERIODS) and is_number_below(found[3], TIERS)


def is_known(name):
    """Whether a column of this name, in small letters, is read."""
    return name in PLAIN or name in MONTH_LISTS or list_of_month(name) is not None or is_tier_name(name)


def unread_columns(header, cells):
    """The filled columns of a record that nothing is read from, in order: each column's name and why."""
    places = first_places(header)
    unread = []
    for place, written in enumerate(header):
        name = small(written)
        if cell_at(cells, place) == "":
            continue
        listed = list_of_month(name)
        if places[name] != place:
            unread.append((written, "doubled: the first column of this name counts"))
        elif listed and cell_at(cells, places.get(listed)) != "":
            unread.append((written, f"not used: the list in {listed} counts"))
        elif not is_known(name):
            unread.append((written, why_unread(name)))
    return unread


def why_unread(name):
    """Why nothing is read from a column: `described`, `not used`, or what stands near its name."""
    if name in DESCRIBED:
        return "described"
    if name in NOT_USED or name.split("/")[0] in NOT_USED or is_unused_tier(name):
        return "not used"
    if name in OTHER_NAMES:
        return f"nearest {OTHER_NAMES[name]}"
    return nearest_tier(name) or nearest_month(name) or nearest_plain(name) or "unknown"


def is_unused_tier(name):
    """Whether this is a tier's part that the database has and the bill of that structure doesn't need."""
    found = TIER_NAME.fullmatch(name)
    return bool(found) and found[1] in STRUCTURES and found[4] in ALL_PARTS and found[4] not in STRUCTURES[found[1]]


def nearest(word, words, least=CLOSE):
    """The nearest of these words, where one is close."""
    return next(iter(difflib.get_close_matches(word, words, 1, least)), None)


def nearest_tier(name):
    """The nearest name of a tier's column, with the numbers as they were meant."""
    found = re.match(r"([a-z]+)[^a-z0-9](.*)", name, re.DOTALL)
    structure = nearest(found[1], STRUCTURES, 0.6 if TIER_NAME.fullmatch(name) else CLOSE) if found else None
    if not structure:
        return None
    back = found[2]
    numbers = re.findall(r"[0-9]+", back)
    part = nearest(re.split(r"[0-9]+", back)[-1].strip(" _/-"), STRUCTURES[structure], 0.5)
    if not part:
        return f"unknown: a tier's parts are {', '.join(STRUCTURES[structure])}"
    if len(numbers) != 2:
        return f"nearest {structure}/periodP/tierK{part}"
    period, tier = (digits.lstrip("0") or "0" for digits in numbers)
    if not is_number_below(period, PERIODS):
        return f"unknown: periods go from 0 to {PERIODS - 1}"
    if not is_number_below(tier, TIERS):
        return f"unknown: tiers go from 0 to {TIERS - 1}"
    return f"nearest {structure}/period{period}/tier{tier}{part}"


def nearest_month(name):
    """The nearest of the columns that stand for one month each."""
    found = MONTH_NAME.fullmatch(name)
    front = nearest(found[1], MONTH_LISTS.values(), 0.85) if found else None
    if not front:
        return None
    month = found[2].lstrip("0")
    if not month or not is_number_below(month, 13):
        return "unknown: months go from 1 to 12"
    return f"nearest {front}{month}"


def nearest_plain(name):
    """The nearest of the names that have no number inside."""
    known = nearest(name, [*PLAIN, *MONTH_LISTS, *OTHER_NAMES, *sorted(DESCRIBED), *sorted(NOT_USED)])
    return f"nearest {OTHER_NAMES.get(known, known)}" if known else None
