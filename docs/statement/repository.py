"""What each name of the repository stands for, what an item reaches, and in which order that is read."""

import collections
import functools

from declared import Rust
from definitions import TOP, Specs, fail


class Repository:
    """The crates, and those of their files that are reached."""

    def __init__(self):
        self.specs = functools.cache(lambda path: Specs(self, path))
        self.rust = functools.cache(lambda path: Rust(self, path))
        lines = [line.partition("#")[0].split() for line in (TOP / "crates.txt").read_text().splitlines()]
        self.below = {words[0].rstrip(":"): words[1:] for words in lines if words}

    def file(self, crate, folder, path, ending):
        path = "/".join(["crates", crate, folder, *path]) + ending
        return path if (TOP / path).is_file() else fail(f"there is no file {path}")

    def named(self, module, name):
        """What a name of a module stands for."""
        crate, kind, *path = module.split(".")[1:]
        if crate not in self.below:
            return module.partition(".")[2], name
        if kind == "specs" and path[0] == "declared":
            path = [each for each in path[1:] if not each.startswith("The")]
            found = self.rust(self.file(crate, "src", path[:-1], ".rt")).item(path[-1])
        elif kind == "specs":
            source = self.specs(self.file(crate, "specs", path, ".antt"))
            found = self.named(*source.imports[name]) if name in source.shared else source.items.get(name)
        else:
            found = None
        return found or fail(f"{name} of {module} is neither a definition nor a type")

    def type_of(self, path, name):
        """What a type's or a trait's name stands for in a file of `src/`; None where it is the kit's."""
        file, names = self.rust(path), name.split("::")
        if len(names) == 1 and file.item(name):
            return file.item(name)
        crate, *names = file.uses.get(names[0], [""]) + names[1:]
        return self.handed_out(path.split("/")[1] if crate == "crate" else crate, names)

    def handed_out(self, crate, names):
        """What a path of a crate stands for; None where the crate is the kit's."""
        if crate not in self.below:
            return None
        if len(names) > 1:
            return self.rust(self.file(crate, "src", names[:-1], ".rt")).item(names[-1]) or fail(f"{crate} has no {'::'.join(names)}")
        root = self.rust(self.file(crate, "src", ["lib"], ".rt"))
        if root.item(names[0]):
            return root.item(names[0])
        path = root.uses.get(names[0]) or fail(f"{crate} hands out no {names[0]}")
        is_inside = (TOP / f"crates/{crate}/src/{path[0]}.rt").is_file()
        return self.handed_out(crate, path) if is_inside else self.handed_out(path[0], path[1:])


def reached(root):
    """All that is reached from an item, the nearest first."""
    todo = {root: None}
    found = list(todo)
    for item in found:
        new = [each for each in item.cites() if each not in todo]
        todo.update(dict.fromkeys(new))
        found += new
    return found


def downward(nodes, below):
    """The nodes, each before those below it, where they go in no circle; what is below one alone comes right behind it."""
    known, done, seen = set(nodes), [], set()

    def visit(node):
        seen.add(node)
        for each in reversed(below[node]):
            if each in known and each not in seen:
                visit(each)
        done.append(node)

    cited = {each for node in nodes for each in below[node] if each != node}
    for node in [each for each in reversed(nodes) if each not in cited] + nodes:
        if node not in seen:
            visit(node)
    return done[::-1]


def in_order(items, crates):
    """The items file by file: crates from the top to the base, then files, then items, before those that they cite."""
    cites, files, paths = {item: item.cites() for item in items}, collections.defaultdict(list), collections.defaultdict(list)
    for item in items:
        files[item.path].append(item)
    for path in files:
        paths[files[path][0].crate].append(path)
    below = {path: list(dict.fromkeys(each.path for item in files[path] for each in cites[item])) for path in files}

    @functools.cache
    def height(crate):
        return 1 + max((height(each) for each in crates[crate] if each in crates), default=0)

    for crate in sorted(paths, key=height, reverse=True):
        for path in downward(paths[crate], below):
            yield path, downward(files[path], cites)
