"""A battery's levels and modes from its data sheet: usable energy, power and round-trip efficiency."""

import dataclasses
import fractions

from lib import decimals

MOST_LEVELS = 255
MOST_POWERS = 31
# The full power is divided into so many levels at most; a multiple of 4 has a half and a quarter of its own.
DIVISORS = tuple(range(4, 61, 4)) + (2, 1)
PARTS = (("", 1), ("-half", 2), ("-quarter", 4))


class Unfit(Exception):
    """Why there are no such levels."""


@dataclasses.dataclass
class Sheet:
    """A data sheet: usable energy in Wh, what passes through the meter in an interval in Wh at most, and the round-trip efficiency."""

    energy: fractions.Fraction
    most: fractions.Fraction
    efficiency: fractions.Fraction


@dataclasses.dataclass
class Mode:
    """A row of the battery file."""

    name: str
    change: int
    grid_wh: int


@dataclasses.dataclass
class Levels:
    """How many levels there are, and what one is in whole Wh as the battery gives it back."""

    capacity: int
    level_wh: int


def drawn(levels, level_wh, sheet):
    """What charging so many levels draws in Wh: the whole loss stands there, and it is rounded up."""
    return decimals.rounded_up(levels * level_wh / sheet.efficiency)


def most_charged(level_wh, sheet):
    """The greatest number of levels whose charging stays within the power."""
    return decimals.rounded_down(decimals.rounded_down(sheet.most) * sheet.efficiency / level_wh)


def most_discharged(level_wh, sheet):
    """The greatest number of levels whose discharging stays within the power."""
    return decimals.rounded_down(sheet.most / level_wh)


def lost(level_wh, sheet):
    """What levels of this size leave out: of the energy, and of the power of charging, each as a fraction."""
    energy = 1 - decimals.rounded_down(sheet.energy / level_wh) * level_wh / sheet.energy
    power = 1 - drawn(most_charged(level_wh, sheet), level_wh, sheet) / sheet.most
    return energy + power


def fitting_levels(sheet):
    """Levels that divide the full power evenly, at most 255; of these the greatest that leave out least."""
    fitting = []
    for divisor in DIVISORS:
        level_wh = decimals.rounded_down(sheet.most / divisor)
        if level_wh and 1 <= sheet.energy / level_wh < MOST_LEVELS + 1 and most_charged(level_wh, sheet):
            fitting.append((divisor % 4 != 0, lost(level_wh, sheet), divisor, level_wh))
    if not fitting:
        raise Unfit("no level of which 255 hold the energy can be charged in one interval; --levels and --minutes may help")
    level_wh = min(fitting)[3]
    return Levels(decimals.rounded_down(sheet.energy / level_wh), level_wh)


def given_levels(count, sheet):
    """So many levels of equal size."""
    level_wh = decimals.rounded_down(sheet.energy / count)
    if not level_wh:
        raise Unfit(f"{count} levels are more than the battery has Wh")
    if not most_charged(level_wh, sheet):
        raise Unfit(
            f"one of {count} levels is {level_wh} Wh, for which {drawn(1, level_wh, sheet)} Wh are drawn, and the power allows "
            f"{decimals.rounded_down(sheet.most)} Wh in an interval; more levels are smaller"
        )
    return Levels(count, level_wh)


def powers_of(most, every):
    """The levels of each power with the end of its name: full, half and quarter where they are whole, and one level; or each whole number."""
    if every:
        first = max(1, most - MOST_POWERS + 1)
        return [("" if levels == most else f"-{levels}", levels) for levels in range(most, first, -1)] + [("-least" if most > 1 else "", 1)]
    powers = [(end, most // part) for end, part in PARTS if most % part == 0]
    return powers if powers[-1][1] == 1 else powers + [("-least", 1)]


def modes_of(levels, sheet, every=False):
    """What the battery can do in an interval."""
    modes = [Mode("idle", 0, 0)]
    for end, count in powers_of(most_charged(levels.level_wh, sheet), every):
        modes.append(Mode(f"charge{end}", count, drawn(count, levels.level_wh, sheet)))
    for end, count in powers_of(most_discharged(levels.level_wh, sheet), every):
        modes.append(Mode(f"discharge{end}", -count, -count * levels.level_wh))
    return modes


def rows_of(levels, settings, modes):
    """The lines of the battery file."""
    lines = ["kind,name,change,grid_wh,low,high", f"set,capacity,{levels.capacity},,,"]
    lines += [f"set,{name},{value},,," for name, value in settings]
    return lines + [f"mode,{mode.name},{mode.change},{mode.grid_wh},," for mode in modes]
