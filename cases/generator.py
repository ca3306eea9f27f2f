"""The line of `gen`: a message that is made of a seed, and opened again.

Written from the text of docs/FORMAT.md.
"""

from hashlib import sha512

from forms import made
from keyrings import Raw
from messages import Bytes, Limits, check_lock, framed_units, locked_header, read_header, units

FRAME = 4096
CONTEXT = {b"purpose": b"gen"}
PARTS = (32, 32, 32, 12)


def parts_of(seed, size):
    """The wrapping key, the message id, the data key, the IV of its wrap, and the text."""
    bytes_ = made(seed, sum(PARTS) + size)
    for count in PARTS:
        yield bytes_[:count]
        bytes_ = bytes_[count:]
    yield bytes_


def line_of(seed, size):
    key, message_id, data_key, iv, text = parts_of(seed, size)
    ring = Raw(b"gen", b"gen", key)
    entries = [ring.wrap(iv, data_key, CONTEXT)]
    header = locked_header(message_id, CONTEXT, {}, entries, FRAME, data_key)
    frames = framed_units(data_key, message_id, FRAME, text)
    message = header + b"".join(frames)
    opened = opened_length(message, ring)
    digest = sha512(message).hexdigest()
    return f"size={size} frames={len(frames)} message={len(message)} opened={opened} sha512={digest}\n"


def opened_length(message, ring):
    """How many bytes of text come out where the message is opened."""
    left = Bytes(message)
    header = read_header(left, Limits())
    data_key = ring.open(header.entries, CONTEXT)
    check_lock(header, {}, data_key)
    return sum(len(unit) for unit in units(left, header, data_key, None))
