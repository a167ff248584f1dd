#!/usr/bin/env python3
"""Works out the answers of the loads of ds2_layer_cases anew, from the rules of BY order and of groups, and compares them with its stdout.

usage: bench/load_cases.py [--write]

All rows of all tables are sorted at once, in a stable way, and those of a key of `merge` are looked for among all; nothing is shared
with the product. With --write it writes stdout.
"""
import csv
import decimal
import functools
import sys

import layer_cases


def value(text, ty):
    """A cell as None, a number or a text."""
    is_number = ty.startswith(("bigint", "decimal"))
    if text == "\\N" or (is_number and text == ""):
        return None
    return decimal.Decimal(text) if is_number else text


def table(lines):
    """The names of the columns and the rows of a CSV table whose header has types."""
    head, *records = list(csv.reader(lines))
    names = [cell.split(" ")[0] for cell in head]
    types = [cell.split(" ")[1] for cell in head]
    return names, types, [[value(cell, ty) for cell, ty in zip(record, types)] for record in records]


def compared(a, b):
    """Null first; numbers by their value; of two texts the shorter one as if blanks followed."""
    if a is None or b is None:
        return (a is not None) - (b is not None)
    if isinstance(a, str):
        width = max(len(a), len(b))
        a, b = a.ljust(width), b.ljust(width)
    return (a > b) - (a < b)


def order(bys, a, b):
    """How two keys stand in BY order."""
    for (_, descending), x, y in zip(bys, a, b):
        found = compared(x, y)
        if found:
            return -found if descending else found
    return 0


def set_loads(bys, tables):
    """Each row in BY order, those of equal keys in the order of the statement: its key, for each table the number of the row, the tables."""
    rows = [(key, number, i) for number, keys in enumerate(tables) for i, key in enumerate(keys)]
    rows.sort(key=functools.cmp_to_key(lambda a, b: order(bys, a[0], b[0])))
    return [(key, [i if t == number else None for t in range(len(tables))], [t == number for t in range(len(tables))]) for key, number, i in rows]


def merge_loads(bys, tables):
    """For each distinct key in BY order as many loads as the most rows that a table has of it; each reads the next row of each table that has one."""
    distinct = []
    for key in (key for keys in tables for key in keys):
        if all(order(bys, key, other) for other in distinct):
            distinct.append(key)
    distinct.sort(key=functools.cmp_to_key(lambda a, b: order(bys, a, b)))
    loads = []
    for key in distinct:
        found = [[i for i, other in enumerate(keys) if order(bys, key, other) == 0] for keys in tables]
        for i in range(max(len(rows) for rows in found)):
            loads.append((key, [rows[i] if i < len(rows) else None for rows in found], [bool(rows) for rows in found]))
    return loads


def answers(block):
    """The lines below a case."""
    is_merge, bys, grain, tables = False, [], 0, []
    for line in block.split("\n"):
        if tables:
            if line == "table":
                tables.append([])
            else:
                tables[-1].append(line)
        elif line == "table":
            tables.append([])
        elif line == "merge":
            is_merge = True
        elif line.startswith("by "):
            words = line.split(" ")
            bys.append((words[1], len(words) > 2))
        elif line.startswith("grain "):
            grain = int(line[6:])
    tables = [table(t) for t in tables]
    for name, _ in bys:
        if any(name not in names for names, _, _ in tables):
            return ["the statement does not fit its tables"]
        if len({types[names.index(name)].startswith(("bigint", "decimal")) for names, types, _ in tables}) > 1:
            return ["the statement does not fit its tables"]
    if len(tables) > 16 or len(bys) > 16:
        return ["the statement does not fit its tables"]
    if grain > len(bys):
        return ["a grain above the number of BY variables"]
    if grain == 0 and (is_merge or bys):
        return ["no grain, which a merge and BY variables ask for"]
    keys = [[[row[names.index(name)] for name, _ in bys] for row in contents] for names, _, contents in tables]
    loads = merge_loads(bys, keys) if is_merge else set_loads(bys, keys)

    def common(a, b):
        """In how many BY variables two loads are equal, from the first one on; None where one of them is missing."""
        if a is None or b is None:
            return None
        many = 0
        while many < len(bys) and compared(a[0][many], b[0][many]) == 0:
            many += 1
        return many

    lines, opening = [], []
    for at, (_, numbers, tables_there) in enumerate(loads):
        before = common(loads[at - 1] if at else None, loads[at])
        behind = common(loads[at], loads[at + 1] if at + 1 < len(loads) else None)
        if grain == 0 or before is None or before < grain:
            opening.append(at)
        read = " ".join("-" if i is None else str(i + 1) for i in numbers)
        first = "".join("0" if before is not None and k < before else "1" for k in range(len(bys)))
        last = "".join("0" if behind is not None and k < behind else "1" for k in range(len(bys)))
        present = "".join("1" if there else "0" for there in tables_there)
        fresh = "fresh" if before is None or before < len(bys) else "further"
        lines.append(f"{fresh} {read} first {first} last {last} in {present}")
    lines.append("none")
    given = lines[:]
    lines += [f"group at {at}" for at in opening] + [f"end at {len(loads)}"]
    lines += [f"from there {given[at]}" for at in opening] + ["from there none"]
    return lines


def main():
    out = []
    for block in layer_cases.read("stdin", "loads").split("\n\n"):
        block = block.rstrip()
        out.append(block)
        if not block.startswith("##"):
            out += ["    " + line for line in answers(block)]
        out.append("")
    wanted = "\n".join(out) + "\n"
    if "--write" in sys.argv:
        layer_cases.write("stdout", "loads", wanted)
    elif layer_cases.read("stdout", "loads") != wanted:
        sys.exit("the answers of the loads of crates/ds2_layer_cases differ")
    print(f"{sum(1 for b in wanted.split(chr(10) * 2) if b.strip() and not b.startswith('##'))} cases agree")


if __name__ == "__main__":
    main()
