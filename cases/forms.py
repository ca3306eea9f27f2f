"""The form of a file of cases: README.md of this folder says what each line means."""

from dataclasses import dataclass, field
from hashlib import sha512

MOST_PIECE = 65_536
ROOM = 1_048_576
OBJECTS = ("input", "output", "report", "shelf", "entropy")


class BadForm(Exception):
    """A line that can't be read."""


@dataclass
class PlugSettings:
    """A keyring that is handed in, with the content of its file, if the file is there."""

    name: str
    namespace: str
    key_name: str
    file: bytes = None
    failing: tuple = ()


@dataclass
class Case:
    """The settings of a case, and the line `ends` that it has in its source."""

    name: str
    words: list = field(default_factory=list)
    input: bytes = b""
    piece: int = MOST_PIECE
    files: dict = field(default_factory=dict)
    rooms: dict = field(default_factory=dict)
    names: list = field(default_factory=list)
    moments: tuple = ()
    entropy: bytes = b""
    failing: dict = field(default_factory=lambda: {name: () for name in OBJECTS})
    room: dict = field(default_factory=lambda: {"output": ROOM, "report": ROOM})
    plugs: list = field(default_factory=list)
    ends: str = None

    def meet(self, name):
        """Keeps the names of files in the order in which they are met first."""
        if name not in self.names:
            self.names.append(name)


def made(seed, count):
    """Bytes of a linear congruential generator: the top eight bits of each number."""
    bytes_ = bytearray()
    for _ in range(count):
        seed = (seed * 6364136223846793005 + 1442695040888963407) % 2**64
        bytes_.append(seed >> 56)
    return bytes(bytes_)


def flipped(offset, bytes_):
    return bytes_[:offset] + bytes([bytes_[offset] ^ 1]) + bytes_[offset + 1 :]


class Values:
    """The named values met so far."""

    def __init__(self):
        self.named = {}
        self.last = None

    def name(self, name, bytes_):
        if name in self.named and name != self.last:
            raise BadForm(f"{name} is named already")
        self.named[name] = self.named.get(name, b"") + bytes_
        self.last = name

    def value(self, text):
        """The bytes of a value."""
        verb, _, rest = text.partition(" ")
        if verb in ("first", "from", "flip"):
            count, _, inner = rest.partition(" ")
            return self.part(verb, int(count), self.value(inner))
        return self.plain(verb, rest)

    def part(self, verb, count, bytes_):
        if count > len(bytes_) or (verb == "flip" and count == len(bytes_)):
            raise BadForm(f"{verb} {count} of {len(bytes_)} bytes")
        if verb == "flip":
            return flipped(count, bytes_)
        return bytes_[:count] if verb == "first" else bytes_[count:]

    def plain(self, verb, rest):
        if verb == "hex":
            return bytes.fromhex(rest)
        if verb in ("text", "line"):
            return rest.encode() + (b"\n" if verb == "line" else b"")
        if verb == "of":
            return self.named[rest]
        first, _, second = rest.partition(" ")
        if verb == "byte":
            return bytes.fromhex(first) * int(second)
        if verb == "made":
            return made(int(first), int(second))
        raise BadForm(f"no verb {verb}")


def numbers(text):
    return tuple(int(word) for word in text.split(" "))


class Reader:
    """Reads the lines of files, one after another."""

    def __init__(self):
        self.values = Values()
        self.case = None

    def cases(self, path):
        """The cases of a file, in order."""
        found = []
        with open(path, encoding="utf-8", newline="\n") as lines:
            for count, line in enumerate(lines, 1):
                try:
                    self.line(line.removesuffix("\n"), found)
                except (BadForm, KeyError, IndexError, ValueError, AttributeError) as error:
                    raise BadForm(f"{path}:{count}: {error!r}") from error
        self.case = None
        return found

    def line(self, line, found):
        if not line or line.startswith("#"):
            return
        setting, _, rest = line.partition(" ")
        if setting == "case":
            self.case = Case(rest)
            found.append(self.case)
        elif setting == "value":
            name, _, value = rest.partition(" ")
            self.case = None
            self.values.name(name, self.values.value(value))
        else:
            self.setting(self.case, setting, rest)

    def setting(self, case, setting, rest):
        if setting == "words":
            case.words += [word.encode() for word in rest.split(" ")]
        elif setting == "word":
            case.words.append(self.values.value(rest))
        elif setting in ("input", "entropy"):
            setattr(case, setting, getattr(case, setting) + self.values.value(rest))
        elif setting == "file":
            name, _, value = rest.partition(" ")
            case.meet(name)
            case.files[name] = case.files.get(name, b"") + self.values.value(value)
        elif setting == "piece":
            case.piece = int(rest)
        elif setting == "ends":
            case.ends = self.expected(rest)
        elif setting == "clock":
            case.moments = numbers(rest)
        elif setting == "room-file":
            name, _, count = rest.partition(" ")
            case.meet(name)
            case.rooms[name] = int(count)
        else:
            self.object_setting(case, setting, rest)

    def object_setting(self, case, setting, rest):
        if setting == "plug":
            case.plugs.append(PlugSettings(*rest.split(" ")))
        elif setting == "plug-file":
            plug = case.plugs[-1]
            plug.file = (plug.file or b"") + self.values.value(rest)
        elif setting == "plug-fail":
            case.plugs[-1].failing = numbers(rest)
        else:
            name, _, count = rest.partition(" ")
            {"fail": case.failing, "room": case.room}[setting][name] = (
                numbers(count) if setting == "fail" else int(count)
            )

    def expected(self, text):
        """An expected line, whose bytes stand as they are printed."""
        head, found, tail = text.partition(" output (")
        if not found:
            return text
        value, _, tail = tail.rpartition(") files ")
        return f"{head} output {shown(self.values.value(value))} files {tail}"


def shown(bytes_):
    """Bytes as they are printed."""
    if len(bytes_) <= 64:
        return bytes_.hex() or "-"
    return f"{len(bytes_)}:{sha512(bytes_).hexdigest()}"


def shown_report(bytes_):
    if not bytes_:
        return "-"
    try:
        text = bytes_.decode("utf-8")
    except UnicodeDecodeError:
        return f"bytes {shown(bytes_)}"
    if text.endswith("\n") and text.count("\n") == 1:
        return f"line {text[:-1]}"
    return f"bytes {shown(bytes_)}"
