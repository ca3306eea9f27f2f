"""The files of `src/`: the types and traits that definitions name, and the contract of a function. Bodies aren't read."""

import functools
import re

from definitions import TOP, Item, Scope
from terms import Term, tokens_of

CLAUSE = re.compile(r"(?:\b(requires|ensures)\s+(\w+\s+)?|\bghost (\w+)\s*[:=]\s*)\{")
TYPE = re.compile(r"(?:\w+::)*[A-Z]\w*")
VISIBLE = r"(?:pub(?:\(\w+\))? )?"


def end_of(text, at):
    """Where the brace closes that is the first from here on."""
    depth = 0
    for match in re.compile(r"[{}]").finditer(text, at):
        depth += 1 if match[0] == "{" else -1
        if not depth:
            return match.end()
    return len(text)


def clauses_of(text):
    """The terms of a text, each with the name before it, and what is left of the text."""
    found, left, at = [], [], 0
    while match := CLAUSE.search(text, at):
        stop = end_of(text, match.end() - 1)
        found.append(((match[2] or match[3] or match[1]).strip(), text[match.end():stop - 1]))
        left.append(text[at:match.start()])
        at = stop
    return found, " ".join(left) + text[at:]


def kept(text, labels):
    """A contract's text without the clauses that have other labels, and without the comments over these."""
    at, found = 0, []
    while match := CLAUSE.search(text, at):
        stop, start = end_of(text, match.end() - 1), text.rindex("\n", 0, match.start())
        while re.fullmatch(r" *(//.*)?", above := text[text.rindex("\n", 0, start) + 1:start]):
            start -= len(above) + 1
        found.append(text[at:stop if match[2] and match[2].strip() in labels else max(at, start)])
        at = stop
    return "".join(found) + text[at:]


def bare(text):
    """A text without its comments and attributes."""
    return re.sub(r"^ *(//|#\[).*", "", text, flags=re.M)


class Declared(Item):
    """A struct, an enum, a trait or a contract: its terms, and the names of the types that stand beside them."""

    def __init__(self, scope, name, kind, terms, types):
        super().__init__(scope, name, kind)
        self.terms, self.types, self.bound = terms, types, set()

    @functools.cached_property
    def free(self):
        found = []
        for text in self.terms:
            term = Term(tokens_of(text), self.scope.makes)
            term.term(0, len(term.tokens), self.bound)
            found += term.free
        return found

    def named_types(self):
        """The types and traits of the repository that it names beside its terms."""
        return list(filter(None, (self.scope.repository.type_of(self.path, name) for name in self.types)))

    @functools.cached_property
    def found(self):
        return list(dict.fromkeys([*filter(None, map(self.scope.stands_for, self.free)), *self.named_types()]))


class Rust:
    """A file of `src/`."""

    def __init__(self, repository, path):
        self.repository, self.path, self.uses, self.items = repository, path, {}, {}
        self.text = (TOP / path).read_text()
        for match in re.finditer(rf"^{VISIBLE}use ([^;]*);", self.text, re.M):
            self.take(re.sub(r"\s+", "", match[1].replace(" as ", "@")))

    def take(self, path):
        """Takes what a `use` item names."""
        front, braces, inner = path.partition("{")
        for name in re.findall(r"[\w:@]+(?:\{[^}]*\})?", inner[:-1]):
            self.take(front + name)
        if not braces:
            path, _, alias = path.partition("@")
            self.uses[alias or path.rpartition("::")[2]] = path.split("::")

    def item(self, name):
        """The type or trait of this name that the file declares, or None."""
        match = re.search(rf"^{VISIBLE}(struct|enum|trait) {name}\b", self.text, re.M)
        if match and name not in self.items:
            self.items[name] = self.declared(name, match[1], match.start())
        return self.items.get(name)

    def scope(self, *blocks):
        """What names stand for in these blocks of the file."""
        scope, uses = Scope(self.repository, self.path), re.findall(r"^ghost use ([^;]*);", self.text, re.M)
        for block in blocks:
            uses += re.findall(r"^\s+ghost use ([^;]*);", block, re.M)
        for each in uses:
            scope.use(each)
        return scope

    def declared(self, name, kind, start):
        opener = re.compile(r"[{;(]").search(self.text, self.text.index(f"{kind} {name}", start)).start()
        text = self.text[start:end_of(self.text, opener) if self.text[opener] == "{" else self.text.index(";\n", start) + 1]
        model = self.model(name)
        clauses, left = clauses_of(bare(text))
        if model:
            clauses = [(label, term) for label, term in clauses_of(bare(model))[0] if label in ("Value", "view")]
            seen = "|".join(re.findall(r"\.(\w+)", dict(clauses)["view"]))
            left = "\n".join(re.findall(rf"^ +{VISIBLE}(?:{seen}): .*", left, re.M))
        variants = re.findall(r"^ {4}([A-Z]\w*)", left, re.M) if kind == "enum" else []
        left = re.sub(r"^ {4}[A-Z]\w*", "", left, flags=re.M) if kind == "enum" else left
        types = [each for each in TYPE.findall(left) if each != name]
        item = Declared(self.scope(text, model), name, kind, [term for _, term in clauses], types)
        item.comment, item.makes = self.comment(start), variants
        text = re.sub(r"^ *(ghost use |#\[).*\n", "", text, flags=re.M)
        item.lines = re.sub(r"\{\n\n", "{\n", text).split("\n") + (["", *self.seen(model)] if model else [])
        return item

    def comment(self, start):
        """The comment over what begins here."""
        above = []
        for line in reversed(self.text[:start].splitlines()):
            if not re.match(r"///|#\[", line):
                break
            above.insert(0, line)
        return [line for line in above if line.startswith("///")]

    def model(self, name):
        """The block that says what a contract sees of this type, where that isn't its fields."""
        match = re.search(rf"^impl(<[^>]*>)? Model for {name}\b", self.text, re.M)
        block = self.text[match.start():end_of(self.text, self.text.index("{", match.start()))] if match else ""
        return block if "ghost view" in block else ""

    def seen(self, model):
        """Of that block, what a contract sees, and from which fields that comes."""
        yield model.partition("\n")[0]
        for member in ("Value", "view"):
            start = re.search(rf"^ +ghost {member} = ", model, re.M).start()
            yield from model[start:end_of(model, start) + 1].split("\n")
        yield "}"

    def contract(self, name, labels=None):
        """The contract of a function; or its clauses of these labels, with the types of what they name."""
        start = re.search(rf"^pub fn {name}\b", self.text, re.M).start()
        text = self.text[start:self.text.index("\n{\n", start)]
        clauses, left = clauses_of(bare(text))
        terms = [term for label, term in clauses if not labels or label in labels]
        generics, _, signature = left.partition("(")
        inputs, _, output = signature.rpartition("->")
        bounds = dict(re.findall(r"(\w+): ([^,>]+)", generics))
        types = {**dict(re.findall(r"(\w+): ([^\n]*),", inputs)), "result": output}
        named = re.findall(r"\w+", " ".join(terms))
        beside = " ".join(told[each] for told in (bounds, types) for each in told if each in named)
        beside = [each for each in TYPE.findall(beside) if each not in bounds]
        item = Declared(self.scope(), name, "contract", terms[::-1], beside)
        item.bound, item.comment = {*types, *bounds}, self.comment(start)
        item.lines = (kept(text, labels) if labels else text).split("\n")
        return item
