"""Terms of antt, read as far as it takes to tell which names in them are free."""

import re
from typing import NamedTuple


class Token(NamedTuple):
    """A word of a text; `glued` says that no space stands before it."""

    text: str
    line: int
    column: int
    glued: bool


TOKEN = re.compile(r'--.*|"(?:\\.|[^"\\])*"|«[^»]*»|[(){}.;,@]|[^\s(){}.;,@"«»]+')
CLOSERS = {"(": ")", "{": "}", "[": "]"}
NO_NAMES = set(
    "λ ∀ Type let in do elim as record data where open use = : → ← ↦ × | ( [ { ] ) } . ; , @ _ ? 𝕀 "
    "Unit tt ⊥ ¬ absurd cc omega arith search rw simp grind unfold".split()
)


def tokens_of(text):
    """The tokens of a text, without comments."""
    found = []
    for number, line in enumerate(text.split("\n")):
        for match in TOKEN.finditer(line):
            if match[0].startswith("--"):
                break
            glued = match.start() > 0 and not line[match.start() - 1].isspace()
            found.append(Token(match[0], number, match.start(), glued))
    return found


class Term:
    """Reads tokens. `free` are the paths that nothing binds where they stand, in order; `makes` says of a bare name in a pattern
    whether it is a constructor, which binds nothing.
    """

    def __init__(self, tokens, makes):
        self.tokens, self.makes, self.free = tokens, makes, []
        self.close, opened = {}, []
        for at, token in enumerate(tokens):
            if token.text in CLOSERS:
                opened.append(at)
            elif opened and token.text == CLOSERS[tokens[opened[-1]].text]:
                self.close[opened.pop()] = at

    def text(self, at):
        return self.tokens[at].text if 0 <= at < len(self.tokens) else ""

    def find(self, at, end, *texts):
        """Where the first of these stands outside brackets, or the end."""
        while at < end and self.text(at) not in texts:
            at = self.close.get(at, at) + 1
        return min(at, end)

    def path(self, at):
        """The names that dots join from here on, and where they end."""
        names = [self.text(at)]
        while self.text(at + 1) == "." and self.text(at + 2) and self.tokens[at + 1].glued and self.tokens[at + 2].glued:
            at += 2
            names.append(self.text(at))
        return names, at + 1

    def is_name(self, at):
        return self.text(at) not in NO_NAMES and not re.match(r'["\d?]', self.text(at))

    def binder(self, at):
        """Where the colon stands, if names and their type are what the bracket that opens here holds; or None."""
        colon = at + 1
        while self.is_name(colon) or self.text(colon) == "_":
            colon += 1
        return colon if colon > at + 1 and self.text(colon) == ":" else None

    def end_of_statement(self, at, end):
        """Where the first line begins that isn't indented behind this one."""
        start = self.tokens[at]
        for stop in range(at + 1, end):
            if self.tokens[stop].line > start.line and self.tokens[stop].column <= start.column:
                return stop
        return end

    def statements(self, at, end):
        """From where to where each line goes with what is indented behind it."""
        while at < end:
            stop = self.end_of_statement(at, end)
            yield at, stop
            at = stop

    def pattern(self, at, end, bound):
        """Adds what a pattern binds."""
        while at < end:
            if at in self.close:
                colon = self.binder(at)
                self.pattern(at + 1, colon or self.close[at], bound)
                if colon:
                    self.term(colon + 1, self.close[at], bound)
                at = self.close[at] + 1
            elif self.is_name(at):
                names, after = self.path(at)
                if len(names) > 1 or self.makes(names[0]):
                    self.free.append(names)
                elif self.text(after) != "=" or after == end:
                    bound.add(names[0])
                at = after
            else:
                at += 1

    def term(self, at, end, around):
        """Reads a term around which these names are bound."""
        bound = set(around)
        while at < end:
            at = self.part(at, end, bound)
            if self.text(at - 1) in (",", ";", "|"):
                bound = set(around)

    def part(self, at, end, bound):
        """Reads the next part of a term, adds what it binds for those behind it, and says where it ends."""
        text, arrow = self.text(at), self.arrow(at, end)
        if arrow:
            return self.binding(at, arrow, end, bound)
        if text == "do":
            return self.sequence(at, end)
        if text == "λ":
            dot = self.find(at, end, ".")
            self.pattern(at + 1, dot, bound)
            return dot + 1
        if text == "let":
            return self.let(at, end, bound)
        if text == "[" and self.find(at + 1, self.close[at], "↦") < self.close[at]:
            return self.cases(at, bound)
        if at in self.close:
            return self.bracket(at, bound)
        if text == "." and self.tokens[at].glued:
            return at + 2
        if not self.is_name(at):
            return at + 1
        names, after = self.path(at)
        is_label = self.text(after) == "=" and self.text(at - 1) in ("{", ";")
        if names[0] not in bound and not is_label:
            self.free.append(names)
        return after

    def bracket(self, at, bound):
        close, colon = self.close[at], self.binder(at)
        self.term((colon or at) + 1, close, bound)
        if colon:
            bound.update(token.text for token in self.tokens[at + 1:colon])
        return close + 1

    def cases(self, at, bound):
        """The cases of an `elim`."""
        close = self.close[at]
        while at < close:
            arrow, after = self.find(at + 1, close, "↦"), self.find(at + 1, close, "|")
            inner = set(bound)
            self.pattern(at + 1, arrow, inner)
            self.term(arrow + 1, after, inner)
            at = after
        return close + 1

    def let(self, at, end, bound):
        """What `let` binds holds behind its value: behind its `in`, or in the statements that follow."""
        equals = self.find(at, end, "=")
        stop, depth = equals, 1
        while stop < end and depth:
            stop = self.find(stop + 1, end, "let", "in")
            depth += 1 if self.text(stop) == "let" else -1
        if depth or self.text(stop) != "in":
            stop = self.end_of_statement(at, end)
        names, colon = set(), self.find(at, equals, ":")
        self.pattern(at + 1, colon, names)
        self.term(colon + 1, equals, bound)
        self.term(equals + 1, stop, bound)
        bound.update(names)
        return stop

    def arrow(self, at, end):
        """Where the arrow stands of a statement `x ← e` of a `do` that begins here, or None."""
        token = self.tokens[at]
        if self.text(at - 1) != "do" and (at == 0 or self.tokens[at - 1].line == token.line):
            return None
        arrow = self.find(at, end, "←")
        return arrow if at < arrow < end and self.tokens[arrow].line == token.line else None

    def binding(self, at, arrow, end, bound):
        stop, names = self.end_of_statement(at, end), set()
        self.free.append(["◌>>=◌"])
        self.pattern(at, arrow, names)
        self.term(arrow + 1, stop, bound)
        bound.update(names)
        return stop

    def sequence(self, at, end):
        """Cites `>>` where the block behind this `do` has a statement, not its last, that hands no value on."""
        starts, start = [], at + 1
        while start < end and self.tokens[start].column == self.tokens[at + 1].column:
            starts.append(start)
            start = self.end_of_statement(start, end)
        for start in starts[:-1]:
            if self.text(start) != "let" and not self.arrow(start, end):
                self.free.append(["◌>>◌"])
        return at + 1
