"""What a file may hold: a list of clauses, a table, the program's output, a refusal."""
from wrong import Wrong, quoted

MOST_MARKS, MOST_CLAUSES, MOST_NODES = 60, 1024, 4096

# Number: name, what it means, what to do.
REFUSALS = {
    1: ("LIMIT", "over 60 marks, over 1,024 clauses or cases, node room outside 2 to 4,096, or a table of 0 or over 4,096 nodes",
        "split the job"),
    2: ("SHORT", "a lent buffer is too small", "lend what the header says"),
    3: ("VARIABLE", "a mark or case that speaks of mark {place}, or entry {place}, beyond the marks there are", "correct the mark"),
    4: ("CLAUSE", "clause {place} fixes a mark that is not there, or has a value without a fixed mark", "correct that clause; the first is 0"),
    5: ("TABLE", "node {place} is not in order", "correct that node; the first is 0"),
    6: ("REDUCED", "node {place} is not needed", "build the table anew"),
    7: ("NODES", "the table does not fit the node room; of a list, the first {place} clauses already do not", "give more room or split the list"),
    8: ("CLAUSES", "the list has {place} clauses, more than there is room for", "give more room, or post the other list"),
    9: ("SHEET", "the header, the length or the kind is wrong", "make the sheet anew with tools/sheet make"),
}


def plural(count, word):
    return f"{count} {word}" if count == 1 else f"{count} {word}s"


def cases(clause):
    """In how many cases all that a clause fixes is so."""
    return 2 ** clause.count("-")


def bad_clause(clause, n):
    """What is wrong with a clause's text, or None."""
    for column, cell in enumerate(clause, 1):
        if cell not in "01-":
            return f"'{cell}' in column {column} of {quoted(clause)}: a mark is 1, 0 or -"
    if len(clause) != n:
        return f"{quoted(clause)} has {plural(len(clause), 'mark')}, not {n}"
    return None


def bad_node(nodes, i, n):
    """What is wrong with node i of a table, or None. The first two are the constants."""
    mark, low, high = nodes[i]
    if i < 2:
        return None if (mark, low, high) == (n, i, i) else f"node {i} is ({mark},{low},{high}), not ({n},{i},{i})"
    if mark >= n:
        return f"node {i} asks mark {mark}, there are {n}"
    for name, link in (("low", low), ("high", high)):
        if link >= i:
            return f"node {i} has {name} link {link}: links lead to earlier nodes"
        if nodes[link][0] <= mark:
            return f"node {i} asks mark {mark}, but its {name} link {link} asks mark {nodes[link][0]}: marks must rise"
    return None


class Table:
    def __init__(self, n, nodes, source):
        self.n, self.nodes, self.source = n, nodes, source

    def shown(self):
        last = len(self.nodes) - 1
        lines = [f"table {self.n}"]
        for i, (mark, low, high) in enumerate(self.nodes):
            lines.append(f"{mark} {low} {high}  # node {i}{', the root' * (i == last)}")
        return "\n".join(lines) + "\n"

    def table(self, _):
        return self

    def disjoint_list(self, name):
        raise Wrong(f"{name}: this is a table; areas are added over a list, such as what ./run prints")


class Listing:
    def __init__(self, kind, n, clauses, source):
        self.kind, self.n, self.clauses, self.source = kind, n, clauses, source

    def shown(self):
        return "\n".join([f"{self.kind} {self.n}"] + self.clauses) + "\n"

    def table(self, name):
        raise Wrong(f"{name}: this is a list of clauses; its table comes from what ./run prints about its sheet")

    def disjoint_list(self, name):
        if self.kind != "dnf":
            raise Wrong(f"{name}: this is a cnf list; areas are added over a dnf list, such as what ./run prints")
        return self


class Output:
    """What the program prints: both path lists of a table, and its size. `at` is the line of the first dnf clause."""

    source = "the program's output"

    def __init__(self, n, count, dnf, cnf, at):
        self.n, self.count, self.dnf, self.cnf, self.at = n, count, dnf, cnf, at

    def shown(self):
        yes = sum(map(cases, self.dnf))
        lines = [f"{plural(self.n, 'mark')}, {plural(self.count, 'node')}, yes in {yes} of {plural(2**self.n, 'case')}"]
        lines.append(f"yes where one of these holds (dnf, {plural(len(self.dnf), 'clause')})")
        lines += [f"  {clause}  {plural(cases(clause), 'case')}" for clause in self.dnf]
        lines.append(f"no where one of these fails (cnf, {plural(len(self.cnf), 'clause')})")
        lines += [f"  {clause}  {plural(cases(clause), 'case')}" for clause in self.cnf]
        return "\n".join(lines) + "\n"

    def disjoint_list(self, _):
        return Listing("dnf", self.n, self.dnf, self.source)

    def table(self, name):
        """The table whose path list this is. A path list has one clause for each way to yes, so it tells the table."""
        nodes, numbers = [(self.n, 0, 0), (self.n, 1, 1)], {}

        def node(rest, level):
            if not rest:
                return 0
            marks = {next((m for m in range(level, self.n) if clause[m] != "-"), self.n) for _, clause in rest}
            mark = min(marks)
            if len(marks) > 1 or (mark == self.n and len(rest) > 1):
                raise Wrong(f"{name}:{rest[1][0]}: clause {rest[1][1]} and the one before are no paths of one table")
            if mark == self.n:
                return 1
            low, high = (node([entry for entry in rest if entry[1][mark] == value], mark + 1) for value in "01")
            if low == high:
                raise Wrong(f"{name}:{rest[0][0]}: clause {rest[0][1]} asks mark {mark} in vain: not a path list")
            key = (mark, low, high)
            if key not in numbers:
                numbers[key] = len(nodes)
                nodes.append(key)
            return numbers[key]

        root = node([(self.at + i, clause) for i, clause in enumerate(self.dnf)], 0)
        del nodes[root + 1:]
        if len(nodes) != self.count:
            raise Wrong(f"{name}:2: 'nodes {self.count}', but the paths are those of a table of {len(nodes)}")
        return Table(self.n, nodes, self.source)


class Refused:
    source = "a refusal"

    def __init__(self, number, place):
        self.number, self.place = number, place

    def shown(self):
        name, meaning, todo = REFUSALS[self.number]
        return f"refused {self.number} {self.place}: {name}: {meaning.format(place=self.place)}; {todo}\n"

    def table(self, name):
        raise Wrong(f"{name}: no table: {self.shown().rstrip()}")

    def disjoint_list(self, name):
        raise Wrong(f"{name}: no list: {self.shown().rstrip()}")
