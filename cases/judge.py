#!/usr/bin/env python3
"""What a run has to come to: a judge of cases that is no part of the program.

    judge.py FILE..          says each case whose `ends` line isn't what the judge finds, and ends with 1 if there is one
    judge.py --fill FILE..   writes an `ends` line into each case of the files that has none

Written from the text of docs/FORMAT.md, over the package `cryptography`. The files are read one after another, and see each
other's named values.
"""

import sys

from cryptography.hazmat.primitives.ciphers.aead import AESGCM

import audits
import batches
import extraction
import generator
import jobs
import keyrings
import migration
from armour import Armour, Unarmour
from contexts import context_line, context_of, joined, refuse_request, required_of
from endings import DONE, FAULT, FILE, OUTSIDE, REFUSED, UNDONE, Ended
from forms import MOST_PIECE, Reader, shown, shown_report
from keyrings import KeyringFault
from messages import (
    COMMITTING,
    MOST_FRAMES,
    Bytes,
    Fault,
    Going,
    Limits,
    check_lock,
    context_length,
    derived_key,
    locked_header,
    read_header,
    sealed_frame,
    units,
)
from objects import Clock, Entropy, Failed, Gathered, Shelf, Sink, Source
from words import read_words

MOST_FILE = 1_048_576
MOST_HEADER = 16_777_216


class Run:
    """A run over the objects of a case."""

    def __init__(self, case):
        failing = case.failing
        self.words = case.words
        self.input = Source(case.input, case.piece, failing["input"])
        self.output = Sink(case.room["output"], failing["output"])
        self.report = Sink(case.room["report"], failing["report"])
        self.before = dict(case.files)
        self.shelf = Shelf(case.files, failing["shelf"], case.rooms)
        self.clock = Clock(case.moments)
        self.entropy = Entropy(case.entropy, failing["entropy"])
        self.plugs = [plug_of(settings) for settings in case.plugs]
        self.names = case.names
        self.tree = None
        self.whole = None

    def ended(self):
        """The line of how the run ends."""
        try:
            status = self.status_of(read_words(self.words))
        except Ended as ended:
            status = ended.status
            self.put_refusal(f"esdk: {ended.line}\n".encode())
        return (
            f"status {status} taken {self.input.taken} drawn {self.entropy.drawn} "
            f"tree {'yes' if self.tree else 'no'} output {shown(self.output.written)} "
            f"files {self.changed()} report {shown_report(self.report.written)}"
        )

    def changed(self):
        """The files that were made or changed, in the order in which the case names them."""
        held = self.shelf.files
        return " ".join(
            f"{name}={shown(held[name])}"
            for name in self.names
            if name in held and held[name] != self.before.get(name)
        ) or "-"

    def put_refusal(self, line):
        try:
            self.report.put(line)
        except Failed:
            pass

    def status_of(self, asked):
        without_pairs = {
            "list": self.list,
            "migrate": self.migrate,
            "gen": self.gen,
            "batch": self.batch,
            "audit": self.audit,
        }
        if asked.command in without_pairs:
            return without_pairs[asked.command](asked)
        context = context_of(asked.pairs)
        required = required_of(asked.pairs)
        self.tree = self.read_keyring(asked.names["--keyring"], self.plugs)
        with_pairs = {
            "encrypt": self.encrypt,
            "decrypt": self.decrypt,
            "reseal": self.reseal,
            "extract": self.extract,
        }
        try:
            return with_pairs[asked.command](asked, context, required)
        except Fault as fault:
            raise Ended(FAULT, str(fault)) from None
        except Going:
            raise Ended(FAULT, "M10 Truncated") from None

    def put_context(self):
        try:
            self.report.put(f"{context_line(self.whole)}\n".encode())
        except Failed:
            return OUTSIDE
        return DONE

    def put(self, bytes_):
        try:
            self.output.put(bytes_)
        except Failed:
            raise Ended(OUTSIDE, "X2 SinkFault") from None

    def read(self):
        try:
            return self.input.read(MOST_PIECE)
        except Failed:
            raise Ended(OUTSIDE, "X1 SourceFault") from None

    def read_at(self, name, at):
        try:
            return self.shelf.read_at(name, at, MOST_PIECE)
        except Failed:
            raise Ended(OUTSIDE, "X3 ShelfFault") from None

    def read_file(self, name):
        try:
            bytes_ = self.shelf.read_whole(name, MOST_FILE)
        except Failed:
            raise Ended(OUTSIDE, "X3 ShelfFault") from None
        if len(bytes_) > MOST_FILE:
            raise Ended(FILE, "K10 FileTooLong")
        return bytes_

    def read_keyring(self, name, plugs):
        return self.value_of(name, keyrings.read_tree, plugs)

    def value_of(self, name, read, *given):
        """What this function reads in the file."""
        bytes_ = self.read_file(name)
        try:
            return read(bytes_, *given)
        except keyrings.Refusal as refusal:
            raise Ended(FILE, str(refusal)) from None

    def draw(self, tree):
        """A message id, a data key, and an IV for each key of the tree that wraps."""
        count = len(keyrings.active(tree))
        try:
            random = self.entropy.fill(64 + 12 * count)
        except Failed:
            raise Ended(OUTSIDE, "X4 EntropyFault") from None
        return random[:32], random[32:64], [random[at : at + 12] for at in range(64, len(random), 12)]

    # gen, migrate

    def gen(self, asked):
        self.put(generator.line_of(asked.numbers["--seed"], asked.numbers["--size"]).encode())
        return DONE

    def migrate(self, asked):
        self.put(self.value_of(asked.names["--keyring"], migration.migrate, asked.numbers.get("--retire")))
        return DONE

    # batch

    def batch(self, asked):
        file = self.value_of(asked.names["--jobs"], jobs.read_jobs, asked.names["--jobs"])
        self.tree = self.read_keyring(file.keyring, self.plugs)
        lines = batches.run(file, self.tree, self.shelf, self.entropy, self.clock)
        self.put("".join(f"{line}\n" for line in lines).encode())
        return DONE if all(line.is_done() for line in lines) else UNDONE

    # audit

    def audit(self, asked):
        file = self.value_of(asked.names["--jobs"], audits.read_audit)
        self.tree = self.read_keyring(file.keyring, self.plugs)
        lines = [self.audited(message) for message in file.messages]
        self.put(audits.audit_text(lines, len(self.tree.leaves())).encode())
        return DONE if all(line.openers for line in lines) else UNDONE

    def audited(self, message):
        """Reads until the header with its authentication is whole, and no further."""
        try:
            header = read_header(self.file_from(message.source, 0), Limits())
            return audits.Line(audits.openers(self.tree, header, message.given))
        except Fault as fault:
            return audits.Line([], str(fault))
        except Going:
            return audits.Line([], "M10 Truncated")
        except KeyringFault:
            raise Ended(OUTSIDE, "X5 KeyringFault") from None

    def file_from(self, name, at):
        """The bytes of a file of the shelf from this offset on, which are read as they are asked for."""
        left = Bytes(more=lambda: self.read_at(name, at + len(left.bytes)))
        return left

    # list

    def list(self, asked):
        """Reads until the header with its authentication is whole, and no further."""
        try:
            header = read_header(Bytes(more=self.reader(asked)), asked.limits())
        except Fault as fault:
            raise Ended(FAULT, str(fault)) from None
        except Going:
            raise Ended(FAULT, "M10 Truncated") from None
        self.put(listing(header).encode())
        return DONE

    def reader(self, asked):
        """What gives the next bytes of the message."""
        return Unarmour(self.read).read if asked.is_armoured() else self.read

    # encrypt

    def encrypt(self, asked, context, required):
        drawn = self.draw(self.tree)
        refuse_request(context, required, self.tree)
        armour = Armour(self.put)
        gathered = Gathered(armour.put if asked.is_armoured() else self.put)
        try:
            self.seal(asked.numbers, self.tree, drawn, (context, required), gathered.before(self.read), gathered.put)
        finally:
            gathered.hand_on()
        armour.finish()
        return DONE

    def seal(self, numbers, tree, drawn, whole_and_required, read, put):
        """Writes the message, under the keys of the tree, of the text that is read."""
        message_id, data_key, ivs = drawn
        context, required = whole_and_required
        try:
            entries = keyrings.wrap_all(tree, ivs, data_key, context)
        except KeyringFault:
            raise Ended(OUTSIDE, "X5 KeyringFault") from None
        refuse_entries(entries, numbers.get("--max-keys"), context, required)
        only = {key: context[key] for key in required}
        stored = {key: context[key] for key in context if key not in required}
        frame = numbers.get("--frame", 4096)
        put(locked_header(message_id, stored, only, entries, frame, data_key))
        put_frames(AESGCM(derived_key(data_key, message_id)), message_id, frame, read, put)

    # decrypt

    def decrypt(self, asked, given, required):
        """Writes the content of each unit once it is whole, before more is read."""
        gathered = Gathered(self.put)
        left = Bytes(more=gathered.before(self.reader(asked)))
        header, data_key = self.unlocked_front(left, asked.limits(), given, required)
        try:
            for unit in units(left, header, data_key, asked.limits().max_unit):
                if unit:
                    gathered.put(unit)
        finally:
            gathered.hand_on()
        return self.put_context()

    # reseal

    def reseal(self, asked, given, required):
        """Opens under the first tree, and seals each content under the second once its unit is whole."""
        second = self.read_keyring(asked.names["--to-keyring"], [])
        drawn = self.draw(second)
        left = Bytes(more=self.read)
        header, data_key = self.unlocked_front(left, asked.limits(), given, required)
        only = self.whole.keys() - header.stored.keys()
        refuse_request(self.whole, only, second)
        contents = (unit for unit in units(left, header, data_key, asked.limits().max_unit) if unit)
        self.seal(asked.numbers, second, drawn, (self.whole, only), lambda: next(contents, b""), self.put)
        return self.put_context()

    # extract

    def extract(self, asked, given, required):
        """Reads the header, then each unit of the range by itself."""
        name, at, count = asked.names["--from"], asked.numbers["--at"], asked.numbers["--count"]
        header, data_key = self.unlocked_front(self.file_from(name, 0), Limits(), given, required)
        extraction.check(self.shelf.files[name], header, data_key, at, count)
        for part in extraction.parts(lambda offset: self.file_from(name, offset), header, data_key, at, count):
            if part:
                self.put(part)
        return DONE

    # what opens a message

    def unlocked_front(self, left, limits, given, required):
        """The header at the front, and its data key."""
        header = read_header(left, limits)
        return header, self.unlocked(header, given, required)

    def unlocked(self, header, given, required):
        """The data key of the header."""
        only, whole = joined(header.stored, given, required)
        try:
            data_key = keyrings.open_first(self.tree, header.entries, whole)
        except KeyringFault:
            raise Ended(OUTSIDE, "X5 KeyringFault") from None
        if data_key is None:
            raise Fault("M15 NoKeyOpens")
        check_lock(header, only, data_key)
        self.whole = whole
        return data_key


def put_frames(cipher, message_id, frame, read, put):
    """Writes a full frame once a byte behind it was read, and the last one where the text ends."""
    left, number = Bytes(more=read), 1
    while left.has(frame + 1):
        if number == MOST_FRAMES:
            raise Ended(REFUSED, "Q9 TooManyFrames")
        put(sealed_frame(cipher, message_id, number, left.take(frame)))
        number += 1
    rest = left.take(len(left.bytes) - left.at)
    put(sealed_frame(cipher, message_id, number, rest, is_final=True))


def plug_of(settings):
    files = {} if settings.file is None else {"esdk.key": settings.file}
    shelf = Shelf(files, settings.failing)
    return keyrings.Plug(
        settings.name, settings.namespace.encode(), settings.key_name.encode(), shelf
    )


def refuse_entries(entries, max_keys, context, required):
    if max_keys is not None and len(entries) > max_keys:
        raise Ended(REFUSED, f"Q7 TooManyDataKeys {len(entries)}")
    stored = {key: context[key] for key in context if key not in required}
    end = 37 + context_length(stored) + 2 + sum(len(entry.text()) for entry in entries)
    if end > MOST_HEADER:
        raise Ended(REFUSED, f"Q8 HeaderTooLong {end}")


def listing(header):
    lines = [
        f"version: {header.suite.version}",
        f"suite: {header.suite.id.hex()}",
        f"message-id: {header.message_id.hex()}",
        f"context: {context_line(header.stored)}",
        f"data-keys: {len(header.entries)}",
    ]
    for count, entry in enumerate(header.entries, 1):
        parts = f"provider={entry.provider.hex()} info={entry.info.hex()}"
        lines.append(f"data-key {count}: {parts} ciphertext={entry.cipher.hex()}")
    lines += [
        f"content: {'framed' if header.is_framed() else 'single'}",
        f"frame-length: {header.frame}",
        f"commitment: {header.commitment.hex()}" if header.suite == COMMITTING else f"iv: {header.iv.hex()}",
        f"tag: {header.tag.hex()}",
    ]
    return "".join(f"{line}\n" for line in lines)


def ends_of(case):
    return Run(case).ended()


def check(paths):
    """How many cases of the files have another `ends` line than the judge finds."""
    reader = Reader()
    count = bad = 0
    for path in paths:
        for case in reader.cases(path):
            count += 1
            found = ends_of(case)
            if case.ends != found:
                bad += 1
                print(f"{path}: {case.name}\n  stands: {case.ends}\n  judged: {found}")
    print(f"{count} cases, {bad} differ")
    return bad


def fill(paths):
    """Writes an `ends` line behind the settings of each case that has none."""
    reader = Reader()
    for path in paths:
        missing = {case.name: ends_of(case) for case in reader.cases(path) if case.ends is None}
        with open(path, encoding="utf-8", newline="\n") as lines:
            text = lines.read()
        for name, ends in missing.items():
            front, rest = text.split(f"case {name}\n", 1)
            settings, *behind = rest.split("\n\n", 1)
            settings = settings.rstrip("\n")
            text = f"{front}case {name}\n{settings}\nends {ends}\n" + "".join(f"\n{b}" for b in behind)
        with open(path, "w", encoding="utf-8", newline="\n") as lines:
            lines.write(text)


if __name__ == "__main__":
    if sys.argv[1:2] == ["--fill"]:
        fill(sys.argv[2:])
    else:
        sys.exit(1 if check(sys.argv[1:]) else 0)
