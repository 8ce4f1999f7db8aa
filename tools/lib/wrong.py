"""What is wrong with something that was given, in a line that says where."""

MOST_SHOWN = 64


class Wrong(Exception):
    """Its text is one line: what cannot be printed is shown as an escape."""

    def __str__(self):
        return "".join(c if c.isprintable() else c.encode("unicode_escape").decode() for c in super().__str__())


def quoted(text):
    """What was given, cut where it is long."""
    return f"'{text}'" if len(text) <= MOST_SHOWN else f"'{text[:MOST_SHOWN]}..'"
