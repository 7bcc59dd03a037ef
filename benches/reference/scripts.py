"""Reading scripts: the lines of commands, or the first fault."""
import re
from typing import NamedTuple

from faults import NotANumber, OffGrid, ScriptFault
from grid import read_number
from texts import format_of, is_utf8, lines_of, without_comment, without_mark, words_of

NAME = re.compile(rb"[A-Za-z][A-Za-z0-9_]{0,31}")
SMALL = re.compile(rb"[0-9]{1,7}")
AXES = {b"x": 0, b"y": 1, b"z": 2}
RANGES = {"N": (1, 60), "SEED": (0, 999999), "FACTOR": (1, 1000000)}

# Of each command its operands, and what the name that it gives then has. NAME is a new name, MESH and OUTLINE are the
# name of one, NUM is a number in units.
COMMANDS = {
    b"load": ("NAME FILE", "MESH"), b"save": ("MESH FILE", None), b"measure": ("MESH", None),
    b"inspect": ("MESH", None), b"exact": ("", None),
    b"union": ("NAME MESH MESH", "MESH"), b"intersect": ("NAME MESH MESH", "MESH"),
    b"subtract": ("NAME MESH MESH", "MESH"), b"box": ("NAME NUM NUM NUM NUM NUM NUM", "MESH"),
    b"tetra": ("NAME NUM NUM NUM NUM", "MESH"), b"prism": ("NAME NUM NUM NUM NUM NUM", "MESH"),
    b"lattice": ("NAME N SEED", "MESH"), b"shift": ("NAME MESH NUM NUM NUM", "MESH"),
    b"scale": ("NAME MESH FACTOR", "MESH"), b"mirror": ("NAME MESH AXIS", "MESH"),
    b"turn": ("NAME MESH AXIS", "MESH"), b"tidy": ("NAME MESH", "MESH"), b"remesh": ("NAME MESH", "MESH"),
    b"polygon": (None, "OUTLINE"), b"union2": ("NAME OUTLINE OUTLINE", "OUTLINE"),
    b"intersect2": ("NAME OUTLINE OUTLINE", "OUTLINE"), b"subtract2": ("NAME OUTLINE OUTLINE", "OUTLINE"),
    b"extrude": ("NAME OUTLINE NUM NUM", "MESH"),
}


class Step(NamedTuple):
    """One line of a script: its number, the command, and its operands as they were read."""
    line: int
    command: bytes
    operands: list


def operand_kinds(command, count):
    """The kinds of the operands of a command that has so many words after it, or none where that count is wrong."""
    kinds = COMMANDS[command][0]
    if kinds is None:                       # a name and 3 to 64 pairs
        return ["NAME"] + ["NUM"] * (count - 1) if 7 <= count <= 129 and count % 2 == 1 else None
    return kinds.split() if len(kinds.split()) == count else None


def read_script(data, digits):
    """All steps of a script. What each name has is followed from line to line."""
    steps, holds = [], {}
    for number, line in enumerate(lines_of(without_mark(data)), 1):
        words = without_comment(words_of(line))
        if not words:
            continue
        command, rest = words[0], words[1:]
        if command not in COMMANDS:
            raise ScriptFault(number, 20)
        kinds = operand_kinds(command, len(rest))
        if kinds is None:
            raise ScriptFault(number, 21)
        steps.append(Step(number, command, [read_operand(kind, word, number, digits, holds)
                                            for kind, word in zip(kinds, rest)]))
        if COMMANDS[command][1] is not None:
            holds[rest[0]] = COMMANDS[command][1]
    return steps


def read_operand(kind, word, number, digits, holds):
    """One operand of its kind, or its fault."""
    if kind in ("NAME", "MESH", "OUTLINE"):
        return read_name(kind, word, number, holds)
    if kind == "NUM":
        try:
            return read_number(word, digits)
        except (NotANumber, OffGrid):
            raise ScriptFault(number, 24)
    if kind == "FILE":
        if not is_utf8(word) or format_of(word) is None:
            raise ScriptFault(number, 25)
        return word
    return read_small(kind, word, number)


def read_name(kind, word, number, holds):
    """A name, which has to have what the kind says where it is not a new one."""
    if NAME.fullmatch(word) is None:
        raise ScriptFault(number, 22)
    if kind != "NAME" and holds.get(word) != kind:
        raise ScriptFault(number, 23)
    return word


def read_small(kind, word, number):
    """An axis, or a whole number within its range."""
    if kind == "AXIS":
        if word not in AXES:
            raise ScriptFault(number, 24)
        return AXES[word]
    least, most = RANGES[kind]
    if SMALL.fullmatch(word) is None or not least <= int(word) <= most:
        raise ScriptFault(number, 24)
    return int(word)
