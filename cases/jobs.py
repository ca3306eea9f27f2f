"""Job files.

Written from the text of docs/FORMAT.md. A refusal is raised, with its line as text.
"""

from dataclasses import dataclass

from keyrings import Refusal, has_members, json_text, json_value
from messages import MOST_CONTEXT, context_length

MOST_JOBS = 1000
MOST_LENGTH = 2**63 - 1

OF_ENCRYPT = ("length", "frame", "context", "required")
OF_DECRYPT = ("given", "required")


@dataclass
class CacheLimits:
    """What a cache of materials is limited by."""

    capacity: int
    age: int
    messages: int
    bytes: int


@dataclass
class Job:
    """A job: `context` is that of an encryption, or the pairs that are given to a decryption."""

    kind: str
    source: str
    target: str
    length: int
    frame: int
    context: dict
    required: set


@dataclass
class JobFile:
    """The jobs of a file, and how they are run."""

    keyring: str
    width: int
    piece: int
    cache: CacheLimits
    jobs: list


class BadShape(Exception):
    """A member that is missing, isn't allowed, or has a value out of its range."""


def read_jobs(bytes_, own_name):
    value = json_value(bytes_)
    try:
        members = file_members(value)
    except BadShape:
        raise Refusal("K2 BadShape 0") from None
    found = [numbered_job(job, place) for place, job in enumerate(value["jobs"], 1)]
    file = JobFile(*members, found)
    refuse_clash(file, own_name)
    return file


def file_members(value):
    """The members of the file itself, but the jobs."""
    wish(has_members(value, ["version", "keyring", "jobs"], ["width", "piece", "cache"]))
    number(value["version"], 1, 1)
    wish(isinstance(value["jobs"], list) and 1 <= len(value["jobs"]) <= MOST_JOBS)
    keyring = text(value["keyring"])
    width = number(value.get("width", 4), 1, 64)
    piece = number(value.get("piece", 65_536), 1, 65_536)
    return keyring, width, piece, cache(value["cache"]) if "cache" in value else None


def cache(value):
    wish(has_members(value, ["capacity", "age", "messages", "bytes"]))
    return CacheLimits(
        number(value["capacity"], 1, 65_536),
        number(value["age"], 1, 2**64 - 1),
        number(value["messages"], 1, 2**32),
        number(value["bytes"], 0, 2**63 - 1),
    )


def numbered_job(value, place):
    try:
        return job(value)
    except BadShape:
        raise Refusal(f"K2 BadShape {place}") from None


def job(value):
    wish(isinstance(value, dict) and value.get("do") in ("encrypt", "decrypt"))
    is_encrypt = value["do"] == "encrypt"
    wish(has_members(value, ["do", "from", "to"], OF_ENCRYPT if is_encrypt else OF_DECRYPT))
    context = pairs(value.get("context" if is_encrypt else "given", {}))
    return Job(
        value["do"],
        text(value["from"]),
        text(value["to"]),
        number(value["length"], 0, MOST_LENGTH) if "length" in value else None,
        number(value.get("frame", 4096), 1, 2**32 - 1),
        context,
        keys(value.get("required", []), context),
    )


def pairs(value):
    """An object of texts, which fits into a context."""
    wish(isinstance(value, dict))
    context = {key.encode(): text(of).encode() for key, of in value.items()}
    wish(context_length(context) <= MOST_CONTEXT)
    return context


def keys(value, context):
    """A list of distinct texts, each a key of the context."""
    wish(isinstance(value, list))
    found = [text(key).encode() for key in value]
    wish(len(set(found)) == len(found) and set(found) <= set(context))
    return set(found)


def text(value):
    wish(isinstance(value, str))
    return value


def number(value, least, most):
    wish(type(value) is int and least <= value <= most)
    return value


def wish(holds):
    if not holds:
        raise BadShape


def refuse_clash(file, own_name):
    taken = {job.source for job in file.jobs} | {file.keyring, own_name}
    for job in file.jobs:
        if job.target in taken:
            raise Refusal(f"K9 NamesClash {json_text(job.target)}")
        taken.add(job.target)
