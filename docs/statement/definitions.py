"""The files of `specs/`: what stands in them, and what each definition cites."""

import functools
import pathlib
import re
import sys

from terms import Term, tokens_of

TOP = pathlib.Path(__file__).resolve().parent.parent.parent
WIDTH = 100
NAME = r"[^\s(){}.;,@\"«»]+"
MARKS = r"(?:(?:pattern|unfoldable|abbrev|pub|axiom|record|data)\s+)+"
BEGINS = re.compile(rf"({MARKS}|(?={NAME}\s+(?:\{{[^}}]*\}}\s+)?:\s))({NAME})")
KIT_MAKES = re.compile(r"[A-Z]|(zero|suc|true|false|refl|\[\]|∷)$")


def fail(message):
    sys.exit(f"docs/trusted: {message}")


class Scope:
    """What the names stand for that a file uses, or a block of it."""

    def __init__(self, repository, path):
        self.repository, self.path, self.crate = repository, path, path.split("/")[1]
        self.items, self.imports, self.aliases, self.shared = {}, {}, {}, set()

    def use(self, text, shared=False):
        """Takes a `use` line, without that word."""
        module, braces, names = re.sub(r"\s+", " ", text).partition("{")
        module = module.strip(" ;").rstrip(".")
        if not braces:
            path, _, alias = module.partition(" as ")
            self.aliases[alias or path.rpartition(".")[2]] = path
        for name in filter(None, (each.strip() for each in names.strip("; }").split(","))):
            original, _, alias = name.partition(" as ")
            self.imports[alias or original] = (module, original)
            if shared:
                self.shared.add(alias or original)

    @functools.cached_property
    def operators(self):
        """The operators in scope, by each of their parts."""
        names = [name for name in (*self.imports, *self.items) if "◌" in name]
        return {part: name for name in names for part in name.split("◌") if part}

    def stands_for(self, path):
        """What a path stands for: an item; or a name of the kit, as its module and itself; or nothing."""
        name = self.operators.get(path[0], path[0])
        if name in self.items:
            return self.items[name]
        if name in self.imports:
            return self.repository.named(*self.imports[name])
        if name in self.aliases and len(path) > 1:
            return self.repository.named(self.aliases[name], path[1])
        return None

    def makes(self, name):
        """Whether a bare name in a pattern is a constructor."""
        found = self.stands_for([name])
        if isinstance(found, Item):
            return self.imports.get(name, (None, name))[1] in found.makes
        return found is not None and bool(KIT_MAKES.match(name))


class Item:
    """A definition, a type, a trait or a contract. `makes` are the constructors that it has."""

    def __init__(self, scope, name, kind):
        self.scope, self.name, self.kind = scope, name, kind
        self.path, self.crate = scope.path, scope.crate
        self.comment, self.lines, self.makes = [], [], []

    @functools.cached_property
    def free(self):
        """The paths that it doesn't bind itself."""
        raise NotImplementedError

    @functools.cached_property
    def found(self):
        """What its names stand for, in order, each once."""
        return list(dict.fromkeys(self.scope.stands_for(path) or self.unknown(path) for path in self.free))

    def unknown(self, path):
        fail(f"{self.path}: `{self.name}` names {'.'.join(path)}, which it doesn't bind, and the file neither defines nor uses")

    def cites(self):
        return [found for found in self.found if isinstance(found, Item) and found is not self]

    def of_kit(self):
        return [found for found in self.found if not isinstance(found, Item)]

    def text(self):
        return "\n".join(self.comment + self.lines)

    def size(self):
        """Its lines with its comment: a longer one counts as several, an empty one as none."""
        return sum(-(-len(line) // WIDTH) for line in self.comment + self.lines)


class Definition(Item):
    """A definition of `specs/`. Its chunks are its signature and its clauses, or its whole block; `outer` is the line of the
    `module _` around it.
    """

    def __init__(self, scope, name, kind, outer):
        super().__init__(scope, name, kind)
        self.lines, self.chunks, self.outer = list(outer), [], "\n".join(outer)

    @functools.cached_property
    def free(self):
        term, bound = Term(tokens_of(self.outer), self.scope.makes), set()
        for at in sorted(term.close):
            if term.binder(at):
                term.bracket(at, bound)
        return term.free + [path for text in self.chunks for path in self.chunk(tokens_of(text), bound)]

    def chunk(self, tokens, bound):
        """What is free in a chunk of it."""
        term, end = Term(tokens, self.scope.makes), len(tokens)
        if self.kind != "definition":
            self.block(term, end, set(bound))
            return term.free
        colon, equals = term.find(0, end, ":"), term.find(0, end, "=")
        if colon < equals:
            term.term(colon + 1, end, bound)
            return term.free
        where, inner = term.find(equals, end, "where"), set(bound)
        term.pattern(0, equals, inner)
        helpers = list(term.statements(where + 1, end))
        inner = inner - {self.name} | {tokens[at].text for at, _ in helpers}
        term.term(equals + 1, where, inner)
        return term.free + [path for at, stop in helpers for path in self.chunk(tokens[at:stop], inner)]

    def block(self, term, end, bound):
        """A record's or a data type's parameters, then its fields or constructors."""
        where = term.find(0, end, "where")
        colon = term.find(0, where, ":")
        for at in range(colon):
            if at in term.close and term.binder(at):
                term.bracket(at, bound)
        term.term(colon + 1, where, bound)
        for at, stop in term.statements(where + 1, end):
            colon = term.find(at, stop, ":")
            term.term(colon + 1, stop, bound)
            if self.kind == "record":
                bound.update(token.text for token in term.tokens[at:colon])


def chunks(lines, margin):
    """The lines at this margin, each with those behind it that go on with it; what is empty stands alone."""
    found, empty = [], []
    for line in lines:
        inside = len(line) - len(line.lstrip(" ")) > margin or line.lstrip()[:1] in ("}", ")")
        if not line.strip():
            empty.append("")
            continue
        if inside and found:
            found[-1] += empty + [line]
        else:
            found += [[each] for each in empty] + [[line]]
        empty = []
    return found


class Specs(Scope):
    """A file of `specs/`; `head` is the comment that it begins with."""

    def __init__(self, repository, path):
        super().__init__(repository, path)
        self.head, self.last = [], None
        self.take_all((TOP / path).read_text().split("\n"), 0, [])

    def take_all(self, lines, margin, outer):
        """Takes the lines of the file, or those of a `module _` in it."""
        comment, fixity = [], []
        for chunk in chunks(lines, margin):
            line = chunk[0][margin:]
            if line.startswith("--"):
                comment += chunk
                continue
            if not line or re.match(r"(pub )?(use|mod) ", line):
                if not self.items and comment and not comment[0].startswith("-- ----"):
                    self.head = self.head or comment
                if "use " in line:
                    self.use(" ".join(chunk).partition("use ")[2], line.startswith("pub"))
                comment = []
            elif line.startswith("module "):
                self.take_all(chunk[1:], margin + 2, chunk[:1])
                comment = []
            elif line.startswith("infix"):
                comment, fixity = [], comment + chunk
            else:
                self.take(chunk, fixity + comment, outer)
                comment, fixity = [], []

    def take(self, chunk, comment, outer):
        """Takes a chunk of a definition: it begins one, or goes on with the last."""
        text = "\n".join(chunk).lstrip()
        begins = BEGINS.match(text)
        if begins:
            kind = next((kind for kind in ("record", "data") if kind in begins[1].split()), "definition")
            self.last = Definition(self, begins[2], kind, outer)
            self.last.comment = comment
            self.items[self.last.name] = self.last
            text = text[begins.end():]
        else:
            self.last.lines += comment
        self.last.lines += chunk
        self.last.chunks.append(text)
        if self.last.kind == "data":
            term = Term(tokens_of(text), None)
            for at, stop in term.statements(term.find(0, len(term.tokens), "where") + 1, len(term.tokens)):
                self.last.makes += [token.text for token in term.tokens[at:term.find(at, stop, ":")]]
            self.items.update(dict.fromkeys(self.last.makes, self.last))
