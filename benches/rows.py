#!/usr/bin/env python3
"""Makes tables of tests anew from their questions, by the reference of benches/reference, and single rows to add.

Usage: benches/rows.py list                  prints the tables, with the file and the constants of each
       benches/rows.py check [TABLE..]       compares each row with what the reference answers; without a table all of them
       benches/rows.py make TABLE            prints the lines of the table with all answers made anew
       benches/rows.py row TABLE QUESTION..  prints the row of a question: the first part of a row, as those in the file have it; lines that a row has more
                                             of than one, as far as they belong to the question, are given as one word each
A row is added by putting what `row` prints at the end of the table, and by adding to the number of rows where the test has it. `check` ends with 0 where no row
differs."""
import multiprocessing
import os
import re
import sys

HERE = os.path.dirname(os.path.abspath(__file__))
sys.path[:0] = [os.path.join(HERE, it) for it in ("reference", "tables")]

import audit_rows
import face_rows
import kernel_rows
import mesh_rows
import operation_rows

# Of each table the file, the constants in it, how many lines a row has, and the function that answers a row.
TABLES = {**kernel_rows.TABLES, **face_rows.TABLES, **mesh_rows.TABLES, **operation_rows.TABLES,
          **audit_rows.TABLES}


def lines_of(file, constant):
    """The lines of a table's constant, as they stand in the source."""
    with open(os.path.join(os.path.dirname(HERE), "crates", file), encoding="utf-8") as source:
        text = source.read()
    found = re.search(r"const %s: [^\n]*= (?:\"\\\n(.*?)\n?\"|\[\n(.*?)\n\]);$" % constant, text, re.M | re.S)
    if found is None:
        sys.exit("rows: %s has no table %s" % (file, constant))
    return (found.group(1) or found.group(2)).split("\n")


def answered(table, lines, *pair):
    """The lines of one row with the answers of the reference. A row that stands for a pair of other tables comes with that."""
    _, _, size, answer = TABLES[table]
    return [answer(*pair, lines[0])] if size == 1 else answer(lines)


def rows_of(table):
    """All rows of a table, each a list of lines."""
    file, constants, size, _ = TABLES[table]
    lines = [line for constant in constants for line in lines_of(file, constant)]
    return [lines[k:k + size] for k in range(0, len(lines), size)]


def made(table):
    """All rows of a table with their answers anew."""
    pairs = [row[0] for other in audit_rows.PAIRS_OF.get(table, []) for row in rows_of(other)]
    rows = rows_of(table)
    return [answered(table, row, *pair) for row, *pair in zip(rows, *([pairs] if pairs else []))]


def row_of(table, words):
    """The row of a question: of several lines a word each, and before a row that stands for a pair of another table the first line of that."""
    if TABLES[table][2] > 1:
        return answered(table, words)
    return answered(table, words[-1:], *words[:-1])


def differing(table):
    """How many rows a table has, and those that differ, with their numbers from 1."""
    rows = rows_of(table)
    return table, len(rows), [(k, *both) for k, both in enumerate(zip(rows, made(table)), 1) if both[0] != both[1]]


def check(tables):
    """Compares all rows of some tables."""
    faults = 0
    with multiprocessing.Pool() as pool:
        for table, count, wrong in pool.imap(differing, tables):
            print("%s: %d rows, %d differ" % (table, count, len(wrong)))
            for number, row, wanted in wrong[:3]:
                print("  row %d of %s is\n    %s\n  and the reference answers\n    %s"
                      % (number, TABLES[table][0], "\n    ".join(row), "\n    ".join(wanted)))
            faults += len(wrong)
    return 1 if faults else 0


def main(words):
    """Does what the words say."""
    if words[:1] == ["list"]:
        for table, (file, constants, _, _) in TABLES.items():
            print("%s: crates/%s: %s" % (table, file, ", ".join(constants)))
        return 0
    if any(word not in TABLES for word in (words[1:] if words[:1] == ["check"] else words[1:2])):
        sys.exit("rows: there is no such table; `list` prints them")
    if words[:1] == ["check"]:
        return check(words[1:] or list(TABLES))
    if words[:1] == ["make"] and len(words) == 2:
        print("\n".join(line for row in made(words[1]) for line in row))
    elif words[:1] == ["row"] and len(words) > 2:
        print("\n".join(row_of(words[1], words[2:])))
    else:
        sys.exit(__doc__)
    return 0


if __name__ == "__main__":
    sys.exit(main(sys.argv[1:]))
