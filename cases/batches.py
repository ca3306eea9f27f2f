"""Batches: jobs that are run in turns, over one tree of keyrings and one cache of materials.

Written from the text of docs/FORMAT.md.
"""

from dataclasses import dataclass, field

from cryptography.hazmat.primitives.ciphers.aead import AESGCM

import keyrings
from contexts import joined, refuse_request
from endings import OUTSIDE, REFUSED, Ended
from keyrings import KeyringFault
from messages import (
    MOST_FRAMES,
    Bytes,
    Fault,
    Going,
    Limits,
    block,
    check_lock,
    derived_key,
    locked_header,
    next_frame,
    read_header,
    sealed_frame,
)
from objects import Failed

MOST_NUMBER = 2**63


@dataclass
class Line:
    """The line of a job in the report."""

    number: int
    kind: str
    end: str
    served: str

    def is_done(self):
        return self.end == "done"

    def __str__(self):
        return f"job {self.number} {self.kind} {self.end} {self.served}"


@dataclass
class Materials:
    """What a message is written or opened with; `entries` is empty for one that is opened."""

    data_key: bytes
    context: dict
    only: dict
    entries: list


@dataclass
class CacheEntry:
    """Materials that are kept, their number, when they were made, and the declared lengths of their uses."""

    name: tuple
    number: int
    made: int
    materials: Materials
    uses: list = field(default_factory=list)


class Manager:
    """Gives materials of a tree, through a cache where there are limits. Each answer says how it came about, too."""

    def __init__(self, tree, limits):
        self.tree = tree
        self.limits = limits
        self.entries = []
        self.next = 1

    def for_encryption(self, context, required, length, now, random):
        name = ("encrypt", frozenset(context.items()), frozenset(required))
        is_direct = length is None or (self.limits is not None and length > self.limits.bytes)
        return self.served(name, length, is_direct, now, lambda: self.made(context, required, random))

    def for_decryption(self, header, given, now):
        entries = tuple((entry.provider, entry.info, entry.cipher) for entry in header.entries)
        stored = frozenset(header.stored.items())
        name = ("decrypt", header.suite.id, stored, frozenset(given.items()), entries)
        return self.served(name, None, False, now, lambda: self.found(header, given))

    def served(self, name, length, is_direct, now, ask):
        if self.limits is None or is_direct or self.next > MOST_NUMBER:
            return ask(), "direct"
        same = next((entry for entry in self.entries if entry.name == name), None)
        if same is not None and self.serves(same, length, now):
            self.entries.remove(same)
            self.entries.insert(0, same)
            if length is not None:
                same.uses.append(length)
            return same.materials, f"hit {same.number}"
        return self.kept(name, length, now, ask(), same)

    def serves(self, entry, length, now):
        if not entry.made <= now < entry.made + self.limits.age:
            return False
        if length is None:
            return True
        is_few = len(entry.uses) + 1 <= self.limits.messages
        return is_few and sum(entry.uses) + length <= self.limits.bytes

    def kept(self, name, length, now, materials, same):
        """New materials, at the front of the cache."""
        if same is not None:
            self.entries.remove(same)
        elif len(self.entries) == self.limits.capacity:
            self.entries.pop()
        uses = [] if length is None else [length]
        entry = CacheEntry(name, self.next, now, materials, uses)
        self.entries.insert(0, entry)
        self.next += 1
        return materials, f"new {entry.number}"

    def made(self, context, required, random):
        refuse_request(context, required, self.tree)
        data_key, rest = random[:32], random[32:]
        ivs = [rest[at : at + 12] for at in range(0, len(rest), 12)]
        entries = keyrings.wrap_all(self.tree, ivs, data_key, context)
        return Materials(data_key, context, {key: context[key] for key in required}, entries)

    def found(self, header, given):
        only, whole = joined(header.stored, given, set())
        data_key = keyrings.open_first(self.tree, header.entries, whole)
        if data_key is None:
            raise Fault("M15 NoKeyOpens")
        return Materials(data_key, whole, only, [])


class Sealing:
    """An encryption between its turns: the bytes of a frame that are held."""

    def __init__(self, job, materials, message_id):
        self.job = job
        self.message_id = message_id
        self.cipher = AESGCM(derived_key(materials.data_key, message_id))
        self.taken = 0
        self.number = 1
        self.held = b""
        stored = {key: materials.context[key] for key in materials.context if key not in materials.only}
        self.header = locked_header(
            message_id, stored, materials.only, materials.entries, job.frame, materials.data_key
        )

    def feed(self, piece, _now):
        """Takes the piece, and gives each full frame once a byte behind it is there."""
        length, frame = self.job.length, self.job.frame
        while piece:
            if length is not None and self.taken == length:
                raise Ended(REFUSED, f"Q10 OverDeclared {length}")
            if len(self.held) == frame:
                if self.number == MOST_FRAMES:
                    raise Ended(REFUSED, "Q9 TooManyFrames")
                yield sealed_frame(self.cipher, self.message_id, self.number, self.held)
                self.number += 1
                self.held = b""
            room = frame - len(self.held)
            if length is not None:
                room = min(room, length - self.taken)
            front, piece = piece[:room], piece[room:]
            self.held += front
            self.taken += len(front)

    def end(self):
        yield sealed_frame(self.cipher, self.message_id, self.number, self.held, is_final=True)


class Opening:
    """A decryption between its turns: what came of the unit that isn't whole."""

    def __init__(self, job, manager):
        self.job = job
        self.manager = manager
        self.left = Bytes()
        self.served = None
        self.header = None
        self.cipher = None
        self.wanted = 1
        self.is_whole = False

    def feed(self, piece, now):
        """Takes the piece, and gives the content of each unit once it is whole."""
        self.left.bytes += piece
        while True:
            start = self.left.at
            try:
                content = self.next_part(now)
            except Going:
                self.left.at = start
                return
            yield content

    def next_part(self, now):
        if self.header is None:
            self.unlock(read_header(self.left, Limits()), now)
            return b""
        if self.is_whole:
            if self.left.has(1):
                raise Fault("M22 TrailingBytes")
            raise Going
        content, self.is_whole = self.unit()
        self.wanted += 1
        return content

    def unit(self):
        if self.header.is_framed():
            return next_frame(self.left, self.header, self.cipher, self.wanted)
        return block(self.left, self.header, self.cipher, None), True

    def unlock(self, header, now):
        materials, self.served = self.manager.for_decryption(header, self.job.context, now)
        check_lock(header, materials.only, materials.data_key)
        self.header = header
        self.cipher = AESGCM(derived_key(materials.data_key, header.message_id, header.suite))

    def end(self):
        if not self.is_whole:
            raise Fault("M10 Truncated")
        return iter(())


class Underway:
    """A job, from its first turn to its end."""

    def __init__(self, number, job, batch):
        self.number = number
        self.job = job
        self.batch = batch
        self.session = None
        self.served = None
        self.at = 0
        self.ended = None

    def take_turn(self):
        now = self.batch.clock.now()
        try:
            self.turn(now)
        except Ended as ended:
            self.ended = ended.line
        except Fault as fault:
            self.ended = str(fault)
        except KeyringFault:
            self.ended = "X5 KeyringFault"

    def turn(self, now):
        if self.session is None:
            self.open(now)
            return
        piece = self.shelf(self.batch.shelf.read_at, self.job.source, self.at, self.batch.piece)
        self.at += len(piece)
        outs = self.session.feed(piece, now) if piece else self.session.end()
        for out in outs:
            self.append(out)
        if not piece:
            self.ended = "done"

    def open(self, now):
        if self.job.kind == "decrypt":
            self.session = Opening(self.job, self.batch.manager)
            self.shelf(self.batch.shelf.create, self.job.target)
            return
        random = self.draw()
        materials, self.served = self.batch.manager.for_encryption(
            self.job.context, self.job.required, self.job.length, now, random[32:]
        )
        self.session = Sealing(self.job, materials, random[:32])
        self.shelf(self.batch.shelf.create, self.job.target)
        self.append(self.session.header)

    def draw(self):
        count = len(keyrings.active(self.batch.manager.tree))
        try:
            return self.batch.entropy.fill(64 + 12 * count)
        except Failed:
            raise Ended(OUTSIDE, "X4 EntropyFault") from None

    def append(self, out):
        if out:
            self.shelf(self.batch.shelf.append, self.job.target, out)

    def shelf(self, call, *given):
        try:
            return call(*given)
        except Failed:
            raise Ended(OUTSIDE, "X3 ShelfFault") from None

    def line(self):
        served = self.session.served if isinstance(self.session, Opening) else self.served
        return Line(self.number, self.job.kind, self.ended, served or "none")


@dataclass
class Batch:
    """What all jobs of a batch share."""

    manager: Manager
    shelf: object
    entropy: object
    clock: object
    piece: int


def run(file, tree, shelf, entropy, clock):
    """The lines of the jobs, in job order."""
    batch = Batch(Manager(tree, file.cache), shelf, entropy, clock, file.piece)
    all_jobs = [Underway(number, job, batch) for number, job in enumerate(file.jobs, 1)]
    window, waiting = all_jobs[: file.width], all_jobs[file.width :]
    while window:
        for job in window:
            job.take_turn()
        window = [job for job in window if job.ended is None]
        room = file.width - len(window)
        window, waiting = window + waiting[:room], waiting[room:]
    return [job.line() for job in all_jobs]
