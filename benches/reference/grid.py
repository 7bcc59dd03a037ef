"""Numbers of files: what a word says in steps of the grid, and how a number of steps is written."""
import re
import sys

from faults import NotANumber, OffGrid

GRID = 2 ** 30          # the grid reaches from -GRID to GRID steps
UNIT = 256              # fine steps in a step of the grid, in which heights are compared
NUMBER = re.compile(rb"([+-]?)(?:([0-9]+)(?:\.([0-9]*))?|\.([0-9]+))(?:[eE]([+-]?[0-9]+))?")

if hasattr(sys, "set_int_max_str_digits"):
    sys.set_int_max_str_digits(0)


def is_on_grid(value):
    """Whether a coordinate is within the ends of the grid."""
    return -GRID <= value <= GRID


def read_number(word, digits):
    """The steps that a word says: one division of whole numbers, halves away from zero."""
    found = NUMBER.fullmatch(word)
    if found is None:
        raise NotANumber
    sign, whole, part, lone, power = found.groups()
    spelled = (whole or b"") + (part or lone or b"")
    exponent = int(power or b"0") - len(part or lone or b"") + digits
    size = scaled(int(spelled), len(spelled), exponent)
    value = -size if sign == b"-" else size
    if not is_on_grid(value):
        raise OffGrid
    return value


def scaled(number, length, exponent):
    """A number of at most that many digits times a power of ten, rounded. Powers far off the grid are cut."""
    if number == 0 or -exponent > length + 2:
        return 0
    if exponent >= 0:
        return number * 10 ** min(exponent, 40)
    return (number + 5 * 10 ** (-exponent - 1)) // 10 ** -exponent


def written(value, digits):
    """The text of a number of steps, without zeros at its end."""
    whole, rest = divmod(abs(value), 10 ** digits)
    text = ("-" if value < 0 else "") + str(whole)
    if rest:
        text += "." + str(rest).rjust(digits, "0").rstrip("0")
    return text.encode()


def rounded(number, divisor):
    """The whole number nearest to the quotient, halves up. The divisor is above 0."""
    return (2 * number + divisor) // (2 * divisor)
