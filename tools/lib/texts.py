"""Texts: lists and tables to make sheets from, and what the program prints."""
import re

from forms import MOST_CLAUSES, MOST_MARKS, MOST_NODES, REFUSALS, Listing, Output, Refused, Table, bad_clause, bad_node, cases
from wrong import Wrong, quoted


def read(name, data):
    try:
        text = data.decode()
    except UnicodeDecodeError as error:
        raise Wrong(f"{name}: byte {error.start} is no text, and the first word is not a sheet's version 1") from None
    lines = text.split("\n")
    if lines[-1] == "":
        lines.pop()
    if lines and re.match(r"(vars|refused)\b", lines[0]):
        return read_output(name, lines)
    return read_list(name, lines)


def number(where, word, what):
    if not re.fullmatch(r"[0-9]{1,50}", word):
        raise Wrong(f"{where}: {what} is {quoted(word)}, not a whole number")
    return int(word)


def read_list(name, lines):
    """A heading, then clauses or nodes. Without marks an empty line is a clause."""
    heading, entries = None, []
    for at, line in enumerate(lines, 1):
        body = line.split("#")[0].strip()
        if heading is None:
            if body:
                heading = read_heading(f"{name}:{at}", body)
        elif body or heading in (("dnf", 0), ("cnf", 0)) and not line.lstrip().startswith("#"):
            entries.append((at, body))
    if heading is None:
        raise Wrong(f"{name}: nothing in it; a text begins with 'dnf N', 'cnf N' or 'table N'")
    kind, n = heading
    return read_nodes(name, n, entries) if kind == "table" else read_clauses(name, kind, n, entries)


def read_heading(where, body):
    words = body.split()
    if len(words) != 2 or words[0] not in ("dnf", "cnf", "table"):
        raise Wrong(f"{where}: {quoted(body)}: a text begins with 'dnf N', 'cnf N' or 'table N'")
    n = number(where, words[1], "the number of marks")
    if n > MOST_MARKS:
        raise Wrong(f"{where}: {n} marks; at most {MOST_MARKS}")
    return words[0], n


def read_clauses(name, kind, n, entries):
    for index, (at, clause) in enumerate(entries):
        if index == MOST_CLAUSES:
            raise Wrong(f"{name}:{at}: over {MOST_CLAUSES} clauses")
        objection = bad_clause(clause, n)
        if objection:
            raise Wrong(f"{name}:{at}: {objection}")
    return Listing(kind, n, [clause for _, clause in entries], "text")


def read_nodes(name, n, entries):
    nodes = []
    for index, (at, body) in enumerate(entries):
        words = body.split()
        if len(words) != 3:
            raise Wrong(f"{name}:{at}: {quoted(body)}: a node is 'mark low high'")
        nodes.append(tuple(number(f"{name}:{at}", word, what) for word, what in zip(words, ("the mark", "low", "high"))))
        objection = f"over {MOST_NODES} nodes" if index == MOST_NODES else bad_node(nodes, index, n)
        if objection:
            raise Wrong(f"{name}:{at}: {objection}")
    if not nodes:
        raise Wrong(f"{name}: a table has at least node 0, which is '{n} 0 0'")
    return Table(n, nodes, "text")


def read_refusal(name, lines):
    words = lines[0].split(" ")
    if len(lines) != 1 or len(words) != 3:
        raise Wrong(f"{name}:1: a refusal is one line, 'refused NUMBER PLACE'")
    which, place = (number(f"{name}:1", word, what) for word, what in zip(words[1:], ("the refusal", "the place")))
    if which not in REFUSALS:
        raise Wrong(f"{name}:1: no refusal has number {which}")
    return Refused(which, place)


def read_output(name, lines):
    if lines[0].startswith("refused"):
        return read_refusal(name, lines)
    at = 0

    def counted(word, most):
        nonlocal at
        at += 1
        if at > len(lines):
            raise Wrong(f"{name}:{at}: ends before '{word} ..': not the whole output")
        match = re.fullmatch(word + r" ([0-9]{1,5})", lines[at - 1])
        if not match or int(match[1]) > most:
            raise Wrong(f"{name}:{at}: {quoted(lines[at - 1])}, where '{word} NUMBER' (at most {most}) is wanted")
        return int(match[1])

    def clauses(word):
        nonlocal at
        count, found = counted(word, MOST_CLAUSES), []
        for i in range(count):
            at += 1
            objection = f"ends after {i} of {count} {word} clauses" if at > len(lines) else bad_clause(lines[at - 1], n)
            if objection:
                raise Wrong(f"{name}:{at}: {objection}")
            found.append(lines[at - 1])
        return found

    n, count = counted("vars", MOST_MARKS), counted("nodes", MOST_NODES)
    dnf, cnf = clauses("dnf"), clauses("cnf")
    if at < len(lines):
        raise Wrong(f"{name}:{at + 1}: {quoted(lines[at])} after the end of the output")
    spoken = sum(map(cases, dnf + cnf))
    if spoken != 2**n:
        raise Wrong(f"{name}: its clauses speak of {spoken} cases, there are {2**n}: not the whole output")
    return Output(n, count, dnf, cnf, 4)
