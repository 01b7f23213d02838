"""Exact numbers: decimals as the program reads them, and whole Wh."""

import decimal
import fractions
import re

FORM = re.compile(r"[+-]?([0-9]+\.?[0-9]*|\.[0-9]+)([eE][+-]?[0-9]+)?")
LONGEST = 200
LARGEST_PLACE = 30
FINEST_PLACE = -300


def read_decimal(text):
    """The exact value of a decimal, as a fraction; a ValueError that says what is wrong where it is none."""
    cell = text.strip(" \t")
    if not cell:
        raise ValueError("the number is missing")
    if len(cell) > LONGEST or not FORM.fullmatch(cell):
        raise ValueError(f"{shown(cell)} isn't a number")
    try:
        value = decimal.Decimal(cell)
    except decimal.InvalidOperation:
        raise ValueError(f"{shown(cell)} has too great an exponent") from None
    if value.is_zero():
        return fractions.Fraction(0)
    if value.adjusted() > LARGEST_PLACE:
        raise ValueError(f"{shown(cell)} is too large")
    if value.as_tuple().exponent < FINEST_PLACE:
        raise ValueError(f"{shown(cell)} has too many decimals")
    return fractions.Fraction(value)


def read_whole(text):
    """The value of a decimal that has to be whole."""
    value = read_decimal(text)
    if value.denominator != 1:
        raise ValueError(f"{shown(text)} isn't whole")
    return value.numerator


def shown(text):
    """A cell for a message: in quotes and not too long."""
    cut = text if len(text) <= 60 else text[:60] + ".."
    return f"'{cut}'"


def rounded(value):
    """The nearest whole number; a half goes to the even one."""
    return round(value)


def rounded_down(value):
    """The greatest whole number that isn't above."""
    return value.numerator // value.denominator


def rounded_up(value):
    """The least whole number that isn't below."""
    return -(-value.numerator // value.denominator)


def text_of(value, places=3):
    """A fraction as a decimal text of at most so many decimals, rounded, without zeros at the end."""
    units = round(value * 10**places)
    sign = "-" if units < 0 else ""
    whole, rest = divmod(abs(units), 10**places)
    decimals = f"{rest:0{places}d}".rstrip("0")
    return f"{sign}{whole}.{decimals}" if decimals else f"{sign}{whole}"
