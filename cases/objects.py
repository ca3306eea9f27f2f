"""The objects of a run in memory, each of which fails at the calls that are planned, counted from 1."""


class Failed(OSError):
    """A call of an object that failed."""


class Planned:
    """The calls of an object, of which some are to fail."""

    def __init__(self, failing=()):
        self.failing = failing
        self.calls = 0

    def begin(self, is_refused=False):
        self.calls += 1
        if is_refused or self.calls in self.failing:
            raise Failed


class Source(Planned):
    """An input that gives at most so many bytes for each read."""

    def __init__(self, bytes_, most, failing=()):
        super().__init__(failing)
        self.bytes = bytes_
        self.most = most
        self.taken = 0

    def read(self, room):
        self.begin()
        piece = self.bytes[self.taken : self.taken + min(self.most, room)]
        self.taken += len(piece)
        return piece


class Sink(Planned):
    """An output with room for so many bytes. A put that fails writes nothing."""

    def __init__(self, room, failing=()):
        super().__init__(failing)
        self.room = room
        self.written = b""

    def put(self, bytes_):
        self.begin(is_refused=len(self.written) + len(bytes_) > self.room)
        self.written += bytes_


class Gathered:
    """Holds what is put until no more has room, or it is handed on: then all of it goes on by one put. What is long goes on
    by itself."""

    ROOM, LONG = 69_632, 65_536

    def __init__(self, put):
        self.put_on = put
        self.held = b""

    def put(self, bytes_):
        if len(bytes_) >= self.LONG or len(self.held) + len(bytes_) > self.ROOM:
            self.hand_on()
        if len(bytes_) >= self.LONG:
            self.put_on(bytes_)
        else:
            self.held += bytes_

    def hand_on(self):
        held, self.held = self.held, b""
        if held:
            self.put_on(held)

    def before(self, read):
        """The same read, with nothing held when it begins."""

        def handing_on():
            self.hand_on()
            return read()

        return handing_on


class Shelf(Planned):
    """Files by their names. A name has room for what it held at first, and for as much as is said."""

    def __init__(self, files, failing=(), rooms=None):
        super().__init__(failing)
        self.files = dict(files)
        self.rooms = {name: len(bytes_) for name, bytes_ in files.items()}
        for name, size in (rooms or {}).items():
            self.rooms[name] = max(size, self.rooms.get(name, 0))

    def read_at(self, name, at, room):
        self.begin(is_refused=name not in self.files)
        return self.files[name][at : at + room]

    def create(self, name):
        self.begin(is_refused=name not in self.rooms)
        self.files[name] = b""

    def append(self, name, bytes_):
        there = name in self.files
        self.begin(is_refused=not there or len(self.files[name]) + len(bytes_) > self.rooms[name])
        self.files[name] += bytes_

    def read_whole(self, name, most, piece=65_536):
        """The file's bytes up to its end; of one that has more than `most` bytes at least one more."""
        bytes_ = b""
        while len(bytes_) <= most:
            next_ = self.read_at(name, len(bytes_), piece)
            if not next_:
                return bytes_
            bytes_ += next_
        return bytes_


class Entropy(Planned):
    """Bytes that are drawn in their order."""

    def __init__(self, bytes_, failing=()):
        super().__init__(failing)
        self.bytes = bytes_
        self.drawn = 0

    def fill(self, count):
        self.begin(is_refused=len(self.bytes) - self.drawn < count)
        self.drawn += count
        return self.bytes[self.drawn - count : self.drawn]


class Clock:
    """Moments in their order; at the end the last of them stays, and 0 where there are none."""

    def __init__(self, moments):
        self.moments = list(moments)
        self.last = self.moments[-1] if self.moments else 0

    def now(self):
        return self.moments.pop(0) if self.moments else self.last
