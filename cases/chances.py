"""Random parts of cases: keyring files, pairs, messages and words, of which most come far.

The messages are whole or nearly so, the keyring files hold some of their keys, and a call fails in one run of a few.
"""

import base64
import json
import random

from messages import (
    COMMITTING,
    UNCOMMITTED,
    commitment_of,
    context_text,
    framed_units,
    header_body,
    header_tag,
    legacy_body,
    single_block,
    sized,
    wrapped,
)

NAMES = [("ns", "k"), ("ns", "b"), ("ns", "c"), ("nt", "k"), ("é", "世"), ("", "x")]
LINE_NAMES = NAMES[:5]
KEYS = {names: bytes([place]) * 32 for place, names in enumerate(NAMES, 1)}
TEXTS = ["a", "b", "tenant", "é", "x y", '"', "a:", "zz", "\x01", "aws-crypto-x", "aws-crypto-public-key"]
PLUGS = ("p", "q")
OBJECTS = ("input", "output", "report", "shelf", "entropy")


def encoded(pairs):
    return {key.encode(): value.encode() for key, value in pairs.items()}


class Chances:
    """Random parts of a case."""

    def __init__(self, seed):
        self.random = random.Random(seed)
        self.version = 1

    def one_in(self, count):
        return self.random.randrange(count) == 0

    def of(self, *choices):
        return self.random.choice(choices)

    def bytes(self, most):
        return self.random.randbytes(self.random.randrange(most))

    # Keyring files.

    def raw_node(self, names):
        key = self.of(KEYS[names], *[KEYS[names]] * 40, b"\x77" * 32, bytes(31))
        members = {"namespace": names[0], "name": names[1], "key": base64.b64encode(key).decode()}
        if self.version == 2 and self.one_in(3) or self.one_in(100):
            members["retired"] = self.of(*[True, True, True, False] * 10, None, 1, "true")
        return {"raw": members}

    def node(self, level, has_generator):
        """A node: mostly of a form, and with a generator only where one belongs."""
        if level > 3 or self.one_in(2):
            return {"plug": self.of(*PLUGS)} if self.one_in(4) else self.raw_node(self.of(*NAMES))
        if self.one_in(40):
            return self.of(None, 1, {}, {"raw": {}}, {"multi": {}})
        members = {}
        if has_generator != self.one_in(10):
            members["generator"] = self.node(level + 1, True)
        if not members or not self.one_in(5):
            count = self.of(0, 1, 1, 2, 3)
            members["children"] = [self.node(level + 1, False) for _ in range(count)]
        return {"multi": members}

    def flat_tree(self):
        names = self.random.sample(NAMES, self.of(2, 3, 6))
        return {"multi": {"children": [self.raw_node(one) for one in names]}}

    def keyring_file(self, command):
        if self.one_in(4):
            names = self.of(*LINE_NAMES)
            return f"{names[0]} {names[1]} {KEYS[names].hex()}\n".encode()
        self.version = self.of(1, 2)
        ring = self.node(1, True) if command != "decrypt" or self.one_in(2) else self.flat_tree()
        version = self.of(3, 2.0, *[self.version] * 40)
        file = json.dumps({"version": version, "ring": ring}, ensure_ascii=self.one_in(2)).encode()
        return self.altered(file) if self.one_in(50) else file

    # Pairs.

    def pairs(self):
        pairs = {}
        while self.one_in(2):
            pairs[self.of(*TEXTS)] = self.of("", "1", "2", *TEXTS)
        return pairs

    def some(self, keys, count):
        return {key for key in sorted(keys) if self.one_in(count)}

    def pair_words(self, pairs, required):
        words = [f"{key}{':' if key in required else ''}={value}" for key, value in pairs.items()]
        words += [f"{key}:" for key in sorted(required) if key not in pairs or self.one_in(10)]
        if self.one_in(30):
            words.append(self.of("=", "x", ":", "a=1"))
        self.random.shuffle(words)
        return words

    def given(self, whole, required):
        """The pairs that a reader gives: mostly those that it has to."""
        given = {key: value for key, value in whole.items() if key in required or self.one_in(3)}
        if self.one_in(10):
            given.update(self.pairs())
        if given and self.one_in(10):
            del given[self.of(*sorted(given))]
        return given

    # Messages.

    def context_field(self, stored):
        if not stored and self.one_in(5):
            return b"\x00\x00"
        if self.one_in(5):
            members = list(stored.items())
            self.random.shuffle(members)
            text = b"".join(sized(key) + sized(value) for key, value in members)
            return len(members).to_bytes(2, "big") + text if members else b""
        return context_text(stored)

    def message(self, suite, frame, whole, required):
        """A message over this context: mostly one that each of its keys opens."""
        stored = encoded({key: value for key, value in whole.items() if key not in required})
        only = encoded({key: whole[key] for key in required})
        message_id, data_key = self.of(b"\x22", b"\x21") * suite.id_length, self.of(b"\x22", b"\x23") * 32
        entries = [self.entry(encoded(whole), data_key) for _ in range(self.of(1, 1, 2, 3))]
        field = self.context_field(stored)
        if suite == COMMITTING:
            head = header_body(message_id, field, entries, frame, commitment_of(data_key, message_id))
            tag = header_tag(head, only, data_key, message_id)
        else:
            head, iv = legacy_body(message_id, field, entries, frame), self.of(bytes(12), self.random.randbytes(12))
            tag = iv + header_tag(head, only, data_key, message_id, suite, iv)
        return head + tag + self.body(suite, data_key, message_id, frame)

    def entry(self, whole, data_key):
        names = self.of(*NAMES)
        if self.one_in(20):
            data_key = b"\x24" * 32
        iv = self.random.randbytes(12)
        return wrapped(names[0].encode(), names[1].encode(), KEYS[names], iv, data_key, whole)

    def body(self, suite, data_key, message_id, frame):
        text = self.bytes(40)
        if frame == 0:
            return single_block(data_key, message_id, self.random.randbytes(12), text, suite)
        return b"".join(framed_units(data_key, message_id, frame, text, suite))

    def altered(self, bytes_):
        for _ in range(self.of(1, 1, 2, 3)):
            at = self.random.randrange(len(bytes_) + 1)
            front, behind = bytes_[:at], bytes_[at:]
            bytes_ = self.of(
                front,
                front + self.bytes(5) + behind,
                front + behind[self.random.randrange(5) :],
                front + self.random.randbytes(1) + behind[1:],
                front + bytes([behind[0] ^ self.of(1, 2, 4, 128)]) + behind[1:] if behind else front,
                bytes_ + self.bytes(4),
            )
        return bytes_

    # Cases.

    def flag(self, suite):
        """The flag where a message needs it, mostly."""
        return ["--allow-uncommitted"] if (suite == UNCOMMITTED) != self.one_in(20) else []

    def words(self, command, suite, frame, whole, required):
        if command == "list":
            return ["list", *self.flag(suite)]
        words = [command, "--keyring", self.of("none", *["key"] * 20)]
        if command == "migrate":
            return words + self.retire_words()
        if command == "encrypt" and frame and not self.one_in(3):
            words += ["--frame", str(self.of(frame, frame, frame, 5, 0))]
        if self.one_in(5):
            words += ["--max-keys", self.of("1", "2", "3", "10")]
        if command == "encrypt":
            return words + self.pair_words(whole, required)
        if self.one_in(5):
            words += ["--max-unit", self.of("1", "3", "4", "16", "4096", "5000")]
        words += self.flag(suite)
        given = self.given(whole, required)
        demanded = self.some(given, 3) | ({self.of(*TEXTS)} if self.one_in(20) else set())
        return words + self.pair_words(given, demanded)

    def retire_words(self):
        if self.one_in(3):
            return []
        return ["--retire", self.of("1", "1", "2", "2", "3", "03", "4", "5", "7", "0", "x", "1048577")]

    def settings(self):
        """The lines of a case but the first and the last."""
        command = self.of("encrypt", "encrypt", "decrypt", "decrypt", "decrypt", "migrate", "list")
        frame, whole = self.of(0, 1, 2, 3, 4, 7, 16, 4096), self.pairs()
        required, suite = self.some(whole, 3), self.of(COMMITTING, COMMITTING, UNCOMMITTED)
        yield from (f"word hex {word.encode().hex()}" for word in self.words(command, suite, frame, whole, required))
        source = self.bytes(40) if command == "encrypt" else self.message(suite, frame, whole, required)
        if command != "encrypt" and self.one_in(2):
            source = self.altered(source)
        yield f"input hex {source.hex()}"
        if self.one_in(2):
            yield f"piece {self.of(1, 2, 5, 16, 50, 100, 169)}"
        yield f"file key hex {self.keyring_file(command).hex()}"
        yield f"entropy made {self.random.randrange(1000)} {self.of(200, 200, 200, 76, 75, 88, 100)}"
        for plug in PLUGS:
            yield from self.plug(plug)
        yield from self.failures()

    def plug(self, plug):
        if self.one_in(4):
            return
        names = self.of(*LINE_NAMES)
        yield f"plug {plug} {names[0]} {names[1]}"
        if not self.one_in(10):
            file = self.of(*[KEYS[names]] * 8, bytes(31), bytes(33))
            yield f"plug-file hex {file.hex()}"
        if self.one_in(5):
            yield f"plug-fail {self.of(1, 2, 3)}"

    def failures(self):
        for name in OBJECTS:
            if self.one_in(10 if name in ("input", "output") else 20):
                yield f"fail {name} {self.of(1, 2, 3, 4)}"
        if self.one_in(20):
            yield f"room output {self.random.randrange(300)}"
