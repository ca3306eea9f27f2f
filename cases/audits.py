"""Audits: which leaves of a tree of keyrings open which messages.

Written from the text of docs/FORMAT.md. A refusal is raised, with its line as text.
"""

from dataclasses import dataclass

from contexts import joined
from jobs import BadShape, number, pairs, text, wish
from keyrings import Refusal, has_members, json_value
from messages import Fault, check_lock

MOST_MESSAGES = 1000


@dataclass
class Message:
    """A message that is asked about, and the pairs that are given with it."""

    source: str
    given: dict


@dataclass
class AuditFile:
    """What an audit is about."""

    keyring: str
    messages: list


@dataclass
class Line:
    """What is said of a message: the leaves that open it by their numbers, or the fault that stands before them."""

    openers: list
    fault: str = None

    def __str__(self):
        return self.fault or f"opened-by {numbers_text(self.openers)}"


def numbers_text(numbers):
    return " ".join(map(str, numbers)) or "none"


def read_audit(bytes_):
    value = json_value(bytes_)
    try:
        wish(has_members(value, ["version", "keyring", "messages"]))
        number(value["version"], 1, 1)
        wish(isinstance(value["messages"], list) and 1 <= len(value["messages"]) <= MOST_MESSAGES)
        keyring = text(value["keyring"])
    except BadShape:
        raise Refusal("K2 BadShape 0") from None
    return AuditFile(keyring, [numbered_message(each, place) for place, each in enumerate(value["messages"], 1)])


def numbered_message(value, place):
    try:
        wish(has_members(value, ["from"], ["given"]))
        return Message(text(value["from"]), pairs(value.get("given", {})))
    except BadShape:
        raise Refusal(f"K2 BadShape {place}") from None


def openers(tree, header, given):
    """The numbers, from 1, of the leaves that open the header, each asked by itself."""
    only, whole = joined(header.stored, given, set())
    answers = [leaf.open(header.entries, whole) for leaf in tree.leaves()]
    return [place for place, data_key in enumerate(answers, 1) if data_key and unlocks(header, only, data_key)]


def unlocks(header, only, data_key):
    try:
        check_lock(header, only, data_key)
    except Fault:
        return False
    return True


def audit_text(lines, leaves):
    """The lines of the messages, then those of so many leaves: the messages of which each is the only opener."""
    said = [f"message {place} {line}\n" for place, line in enumerate(lines, 1)]
    for leaf in range(1, leaves + 1):
        needed = [place for place, line in enumerate(lines, 1) if line.openers == [leaf]]
        said.append(f"leaf {leaf} needed-for {numbers_text(needed)}\n")
    return "".join(said)
