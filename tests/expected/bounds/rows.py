#!/usr/bin/env python3
"""rows.py: writes tests/tables/check, certificates, bounds, all_bounds, shapes and shape, with what `jop check` and `jop bound` have to answer.

The answers are worked out by `tools/rechecker` and study.py; those of rows by hand are also said there, as they were worked out from docs/costs.md, and have to be the same.
"""
import os
import sys

HERE = os.path.dirname(os.path.abspath(__file__))
sys.dont_write_bytecode = True
sys.path.insert(0, HERE)
from all_rows import by_hand as all_by_hand, of_javac as all_of_javac, of_made as all_of_made  # noqa: E402
from bound_rows import bounds_of_javac, bounds_of_made, by_hand as bounds_by_hand  # noqa: E402
from call_rows import calls  # noqa: E402
from changed_rows import changes, of_javac, of_made  # noqa: E402
from hand_rows import by_hand  # noqa: E402
from shape_rows import Shapes, shape_calls, shapes_by_hand, shapes_of_javac  # noqa: E402
from tables import TABLES, AllBounds, Bounds, Checks  # noqa: E402


def written(name, kind, rows, wanted):
    with open(os.path.join(TABLES, '%s.%s' % (name, kind)), 'w') as file:
        file.write(''.join(row + '\n' for row in rows))
    with open(os.path.join(TABLES, name + '.wanted'), 'w') as file:
        file.write(''.join(line + '\n' for line in wanted))


def filled(table, *makers):
    """a table with the rows of these; it tells how many answers of each kind it has"""
    for make in makers:
        make(table)
    print(table.count)
    return table.rows, table.wanted


def main():
    written('check', 'calls', *calls())
    written('bounds', 'bounded', *filled(Bounds(), bounds_by_hand, bounds_of_javac, bounds_of_made))
    written('all_bounds', 'all_bounded', *filled(AllBounds(), all_by_hand, all_of_javac, all_of_made))
    written('shapes', 'shaped', *filled(Shapes(), shapes_by_hand, shapes_of_javac))
    written('shape', 'calls', *shape_calls())
    written('certificates', 'checked', *filled(Checks(), by_hand, of_made, of_javac, changes))


if __name__ == '__main__':
    main()
