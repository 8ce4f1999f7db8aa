"""Areas of cells, added clause by clause. A cell in two clauses is an objection: it would be counted twice."""
import decimal
import re
from decimal import Decimal

from forms import bad_clause, plural
from wrong import Wrong, quoted

decimal.getcontext().prec = 60  # sums of areas are exact: each has at most 15 digits before and behind the point


def read(name, data, n):
    """The cells of a file: line, marks, area."""
    try:
        lines = data.decode().split("\n")
    except UnicodeDecodeError as error:
        raise Wrong(f"{name}: byte {error.start} is no text; lines such as '110 6.5' are wanted") from None
    cells = []
    for at, line in enumerate(lines, 1):
        body = line.split("#")[0].split()
        if body:
            cells.append((at, *read_cell(f"{name}:{at}", body, n)))
    return cells


def read_cell(where, words, n):
    if n == 0:
        words = [""] + words
    if len(words) != 2:
        raise Wrong(f"{where}: {quoted(' '.join(words))}: a cell is its marks and its area, such as '110 6.5'")
    marks, area = words
    objection = bad_clause(marks, n)
    if not objection and "-" in marks:
        objection = f"'-' in column {marks.index('-') + 1} of '{marks}': a cell has every mark, 1 or 0"
    if objection:
        raise Wrong(f"{where}: {objection}")
    if re.fullmatch(r"-[0-9.]+", area):
        raise Wrong(f"{where}: area {quoted(area)}: an area is 0 or more")
    if not re.fullmatch(r"[0-9]{1,15}(\.[0-9]{1,15})?", area):
        raise Wrong(f"{where}: area {quoted(area)} is not a number such as 6 or 6.5 (at most 15 digits before and behind the point)")
    return marks, Decimal(area)


def holds(clause, marks):
    return all(cell in ("-", mark) for cell, mark in zip(clause, marks))


def added(listing, cells, name):
    """A line for each clause, and the sums of what is milled and what is left."""
    found = {clause: [] for clause in listing.clauses}
    left = []
    for at, marks, area in cells:
        inside = [clause for clause in listing.clauses if holds(clause, marks)]
        if len(inside) > 1:
            raise Wrong(f"{name}:{at}: cell {marks} is in clauses {inside[0]} and {inside[1]}: it would be added twice; "
                        "add over the path list that ./run prints")
        (found[inside[0]] if inside else left).append(area)
    milled = [area for clause in found.values() for area in clause]
    rows = [(clause, areas) for clause, areas in found.items()] + [("mill", milled), ("leave", left)]
    wide = max(len(first) for first, _ in rows)
    long = max(len(str(sum(areas, Decimal(0)))) for _, areas in rows)
    lines = [f"{first:<{wide}}  {sum(areas, Decimal(0))!s:>{long}}  {plural(len(areas), 'cell')}" for first, areas in rows]
    return "\n".join(lines) + "\n"
