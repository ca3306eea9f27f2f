"""The words of a command line, and what they ask for.

Written from the text of docs/FORMAT.md.
"""

from dataclasses import dataclass

from endings import WORDS, Ended
from messages import Limits

# The options of each command with a value, in the order of the table: the range of a number, or None for a name.
OPTIONS = {
    "list": {},
    "encrypt": {"--keyring": None, "--frame": (1, 2**32 - 1), "--max-keys": (1, 2**16 - 1)},
    "decrypt": {"--keyring": None, "--max-keys": (1, 2**16 - 1), "--max-unit": (1, 2**36 - 32)},
    "batch": {"--jobs": None},
    "gen": {"--seed": (0, 2**64 - 1), "--size": (0, 2**26)},
    "migrate": {"--keyring": None, "--retire": (1, 2**20)},
    "reseal": {
        "--keyring": None,
        "--to-keyring": None,
        "--frame": (1, 2**32 - 1),
        "--max-unit": (1, 2**36 - 32),
    },
    "extract": {"--keyring": None, "--from": None, "--at": (0, 2**62), "--count": (0, 2**62)},
    "audit": {"--jobs": None},
}
REQUIRED = {"--keyring", "--to-keyring", "--from", "--jobs", "--seed", "--size", "--at", "--count"}
UNCOMMITTED = "--allow-uncommitted"
ARMOUR = "--armour"
FLAGS = {
    "list": {UNCOMMITTED, ARMOUR},
    "encrypt": {ARMOUR},
    "decrypt": {UNCOMMITTED, ARMOUR},
    "reseal": {UNCOMMITTED},
}
WITH_PAIRS = ("encrypt", "decrypt", "reseal", "extract")


@dataclass
class Asked:
    """What the words ask for."""

    command: str
    names: dict
    numbers: dict
    flags: set
    pairs: list

    def keyring(self):
        return self.names["--keyring"]

    def is_armoured(self):
        return ARMOUR in self.flags

    def limits(self):
        return Limits(self.numbers.get("--max-keys"), self.numbers.get("--max-unit"), UNCOMMITTED in self.flags)


def read_words(words):
    """The command, then its options and pairs in any order, then the numbers and the pairs."""
    words = [word.decode() for word in words]
    if not words or words[0] not in OPTIONS:
        raise not_read()
    command = words[0]
    given = Given(command)
    for word in words[1:]:
        given.take(word)
    given.close()
    options = {name: range_ for name, range_ in OPTIONS[command].items() if name in given.values}
    names = {name: given.values[name] for name, range_ in options.items() if not range_}
    numbers = {name: read_number(name, given.values[name], *range_) for name, range_ in options.items() if range_}
    return Asked(command, names, numbers, given.flags & set(given.values), read_pairs(given.pairs))


def not_read():
    return Ended(WORDS, "words NotRead")


class Given:
    """What stands behind a command, word by word."""

    def __init__(self, command):
        self.options = set(OPTIONS[command])
        self.flags = FLAGS.get(command, set())
        self.has_pairs = command in WITH_PAIRS
        self.values = {}
        self.pairs = []
        self.waiting = None
        self.only_pairs = False

    def take(self, word):
        if self.only_pairs or word == "-" or not word.startswith("-"):
            self.take_plain(word)
        elif self.waiting:
            raise not_read()
        elif word == "--":
            self.only_pairs = True
        else:
            self.take_option(*word.partition("="))

    def take_plain(self, word):
        """A word that is no option: the value that is waited for, or a pair."""
        if self.waiting:
            self.values[self.waiting], self.waiting = word, None
        elif self.has_pairs:
            self.pairs.append(word)
        else:
            raise not_read()

    def take_option(self, name, has_value, value):
        is_flag = name in self.flags
        if name in self.values or not (is_flag or name in self.options) or (is_flag and has_value):
            raise not_read()
        if has_value or is_flag:
            self.values[name] = value
        else:
            self.waiting = name

    def close(self):
        if self.waiting or not (self.options & REQUIRED) <= set(self.values):
            raise not_read()


def read_number(name, text, least, most):
    is_number = 1 <= len(text) <= 20 and all(digit in "0123456789" for digit in text)
    if not is_number or not least <= int(text) <= most:
        raise Ended(WORDS, f"words BadNumber {name}")
    return int(text)


def read_pairs(words):
    """Key, value and whether the key is required, of each word."""
    pairs = []
    for place, word in enumerate(words, 1):
        key, has_value, value = word.partition("=")
        is_required = key.endswith(":")
        key = key[:-1] if is_required else key
        if not key or not (has_value or is_required):
            raise Ended(WORDS, f"words BadPair {place}")
        pairs.append((key.encode(), value.encode() if has_value else None, is_required))
    return pairs
