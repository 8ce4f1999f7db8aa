"""Sheets: eight little-endian words, then clauses of 16 bytes or nodes of 12."""
import struct

from forms import MOST_CLAUSES, MOST_MARKS, MOST_NODES, Listing, Table, bad_node
from wrong import Wrong

VERSION, HEADER = 1, 32
KINDS = {1: "dnf", 2: "cnf", 3: "table"}


def looks_like_sheet(data):
    return b"\0" in data[:HEADER]


def write(found):
    """The sheet of a list or a table."""
    if isinstance(found, Table):
        section = b"".join(struct.pack("<3I", *node) for node in found.nodes)
        counts, kind = (0, 0, len(found.nodes), HEADER), 3
    else:
        section = b"".join(struct.pack("<2Q", *words(clause)) for clause in found.clauses)
        counts, kind = (len(found.clauses), HEADER, 0, 0), 1 if found.kind == "dnf" else 2
    return struct.pack("<8I", VERSION, found.n, *counts, HEADER + len(section), kind) + section


def words(clause):
    """A clause's two words: fixed marks, values."""
    fixed = sum(1 << i for i, cell in enumerate(clause) if cell != "-")
    return fixed, sum(1 << i for i, cell in enumerate(clause) if cell == "1")


def read(name, data):
    def refuse(number, place, why):
        raise Wrong(f"{name}: {why} (refused {number} {place})")

    if len(data) < HEADER:
        refuse(9, 0, f"{len(data)} bytes, a sheet has at least {HEADER}")
    version, n, clauses, clauses_at, nodes, nodes_at, total, kind = struct.unpack("<8I", data[:HEADER])
    if version != VERSION:
        refuse(9, 0, f"byte 0: version {version}, not {VERSION}")
    if kind not in KINDS:
        refuse(9, 0, f"byte 28: kind {kind}; 1 is dnf, 2 cnf, 3 table")
    if total != len(data):
        refuse(9, 0, f"byte 24: total length {total}, but there are {len(data)} bytes")
    if kind == 3:
        wanted = ((8, "clause count", clauses, 0), (12, "clause offset", clauses_at, 0), (20, "node offset", nodes_at, HEADER),
                  (24, "total length", total, HEADER + 12 * nodes))
    else:
        wanted = ((12, "clause offset", clauses_at, HEADER), (16, "node count", nodes, 0), (20, "node offset", nodes_at, 0),
                  (24, "total length", total, HEADER + 16 * clauses))
    for at, what, is_now, should in wanted:
        if is_now != should:
            refuse(9, 0, f"byte {at}: {what} {is_now}, not {should}")
    if n > MOST_MARKS:
        refuse(1, 0, f"byte 4: {n} marks, at most {MOST_MARKS}")
    return read_table(refuse, n, nodes, data) if kind == 3 else read_list(refuse, KINDS[kind], n, clauses, data)


def read_list(refuse, kind, n, count, data):
    if count > MOST_CLAUSES:
        refuse(1, 0, f"byte 8: {count} clauses, at most {MOST_CLAUSES}")
    clauses = []
    for i in range(count):
        at = HEADER + 16 * i
        fixed, values = struct.unpack_from("<2Q", data, at)
        if fixed >> n:
            refuse(4, i, f"byte {at}: clause {i} fixes mark {fixed.bit_length() - 1}, there are {n}")
        if values & ~fixed:
            refuse(4, i, f"byte {at + 8}: clause {i} has a value for mark {(values & ~fixed).bit_length() - 1}, which it does not fix")
        clauses.append("".join("-" if not fixed >> m & 1 else str(values >> m & 1) for m in range(n)))
    return Listing(kind, n, clauses, "a sheet")


def read_table(refuse, n, count, data):
    if not 1 <= count <= MOST_NODES:
        refuse(1, 0, f"byte 16: {count} nodes, there must be 1 to {MOST_NODES}")
    nodes = [struct.unpack_from("<3I", data, HEADER + 12 * i) for i in range(count)]
    for i in range(count):
        objection = bad_node(nodes, i, n)
        if objection:
            refuse(5, i, f"byte {HEADER + 12 * i}: {objection}")
    return Table(n, nodes, "a sheet")
