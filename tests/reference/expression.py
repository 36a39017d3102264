"""A second reading of regular expressions, as docs/RULES.md has them: by the grammar, and by all places where a match may end.

It shares nothing with the program.
"""
MOST = 255
SPECIAL = frozenset(b"|()[.^$\\*+?")


class NoExpression(Exception):
    """The bytes are no regular expression."""


class Reader:
    """Reads an expression by its grammar. A tree is a tuple of its kind and its parts."""

    def __init__(self, scope):
        self.scope, self.place = scope, 0

    def next(self):
        return self.scope[self.place:self.place + 1]

    def take(self):
        byte = self.next()
        if not byte:
            raise NoExpression
        self.place += 1
        return byte

    def expression(self):
        branches = [self.branch()]
        while self.next() == b"|":
            self.place += 1
            branches.append(self.branch())
        return "one of", branches

    def branch(self):
        pieces = []
        while self.next() not in (b"", b"|", b")"):
            piece = self.atom()
            if self.next() in (b"*", b"+", b"?"):
                piece = self.take().decode(), piece
            pieces.append(piece)
        return "all of", pieces

    def atom(self):
        byte = self.take()
        if byte == b"(":
            inner = self.expression()
            if self.next() != b")":
                raise NoExpression
            self.place += 1
            return inner
        if byte == b"[":
            return self.range()
        if byte in (b".", b"^", b"$"):
            return (byte.decode(),)
        if byte == b"\\":
            return "byte", self.take()[0]
        if byte[0] in SPECIAL:
            raise NoExpression
        return "byte", byte[0]

    def range(self):
        negated = self.next() == b"^"
        self.place += negated
        end = self.scope.find(b"]", self.place + 1)
        if end < 0:
            raise NoExpression
        inside, self.place = self.scope[self.place:end], end + 1
        members = []
        while inside:
            two = inside[1:2] == b"-" and len(inside) > 2
            first, last, inside = (inside[0], inside[2], inside[3:]) if two else (inside[0], inside[0], inside[1:])
            if last < first:
                raise NoExpression
            members.append((first, last))
        return "range", negated, members


def read(scope):
    """The tree of an expression, or nothing."""
    reader = Reader(scope)
    try:
        tree = reader.expression()
    except NoExpression:
        return None
    return tree if reader.place == len(scope) and len(scope) <= MOST else None


def both_cases(byte):
    return {byte, *bytes([byte]).swapcase()} if byte < 128 else {byte}


def takes(tree, byte):
    """Whether a tree of one byte takes this one."""
    if tree[0] == "byte":
        return tree[1] in both_cases(byte)
    if tree[0] == "range":
        return any(first <= b <= last for first, last in tree[2] for b in both_cases(byte)) != tree[1]
    return True


def ends(tree, text, start, known):
    """The places where a match may end that begins at this one."""
    key = id(tree), start
    if key in known:
        return known[key]
    kind, found = tree[0], set()
    if kind == "one of":
        found = set().union(*(ends(branch, text, start, known) for branch in tree[1]))
    elif kind == "all of":
        found = {start}
        for piece in tree[1]:
            found = set().union(*(ends(piece, text, place, known) for place in found))
    elif kind in ("*", "+", "?"):
        once = ends(tree[1], text, start, known)
        found, fresh = set(once), set(once) if kind != "?" else set()
        while fresh:
            fresh = set().union(*(ends(tree[1], text, place, known) for place in fresh)) - found
            found |= fresh
        if kind != "+":
            found.add(start)
    elif kind == "^":
        found = {0} if start == 0 else set()
    elif kind == "$":
        found = {start} if start == len(text) else set()
    elif start < len(text) and takes(tree, text[start]):
        found = {start + 1}
    known[key] = found
    return found


def admits(scope, text):
    """Whether the scope is an expression that matches somewhere in the text."""
    tree = read(scope)
    if tree is None:
        return False
    known = {}
    return any(ends(tree, text, start, known) for start in range(len(text) + 1))
