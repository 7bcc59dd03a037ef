"""The words of the command line."""
import re

from faults import Ended, NotANumber, OffGrid
from grid import read_number
from texts import format_of, is_utf8

USAGE = (b"usage: manifold_tool copy IN OUT, inside FILE X Y Z or run SCRIPT, "
         b"each with --digits K")


def told_apart(words):
    """The operands and the values of the digits among the words after the command."""
    stop = words.index(b"--") if b"--" in words else len(words)
    operands, values, rest = [], [], list(words[:stop])
    while rest:
        word = rest.pop(0)
        if word == b"--digits" and rest:
            values.append(rest.pop(0))
        elif word.startswith(b"--digits="):
            values.append(word[len(b"--digits="):])
        elif word == b"-" or not word.startswith(b"-"):
            operands.append(word)
        else:
            raise Ended(1, USAGE)
    return operands + list(words[stop + 1:]), values


def digits_of(values):
    """The digits: 4, or one value from 0 to 6."""
    if len(values) > 1 or any(re.fullmatch(rb"[0-6]", value) is None for value in values):
        raise Ended(1, USAGE)
    return int(values[0]) if values else 4


def operands_of(command, operands, digits):
    """The operands as the command takes them."""
    if command == b"copy" and len(operands) == 2 and all(map(format_of, operands)):
        return operands
    if command == b"inside" and len(operands) == 4 and format_of(operands[0]):
        try:
            return operands[:1] + [read_number(word, digits) for word in operands[1:]]
        except (NotANumber, OffGrid):
            raise Ended(1, USAGE)
    if command == b"run" and len(operands) == 1 and operands[0]:
        return operands
    raise Ended(1, USAGE)


def parsed(words):
    """The command, its operands and the digits."""
    if not all(map(is_utf8, words)) or words[:1] not in ([b"copy"], [b"inside"], [b"run"]):
        raise Ended(1, USAGE)
    operands, values = told_apart(words[1:])
    digits = digits_of(values)
    return words[0], operands_of(words[0], operands, digits), digits
