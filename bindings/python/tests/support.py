"""What the tests have in common. What is expected comes from vectors/ of the checkout: its texts, and its reader and
writer of the format over the package `cryptography`, which shares nothing with the library.
"""

import base64
import io
import json
import pathlib
import sys

import esdk

VECTORS = pathlib.Path(__file__).resolve().parents[3] / "vectors"
sys.dont_write_bytecode = True
sys.path.insert(0, str(VECTORS))

from opening import Refused, context_text, open_message, seal_block, wrapped  # noqa: E402

KEY = bytes(range(32))
RING = esdk.Keyring(b"esdk-vectors first " + KEY.hex().encode())
WRAPPING = ("esdk-vectors", "first", KEY)
# What each altered message of vectors/ is refused for: which field was altered says it, by docs/FORMAT.md.
FAULTS = {
    "altered-message-id": (1016, "M16 Commitment"),
    "altered-pair": (1015, "M15 NoKeyOpens"),
    "altered-commitment": (1016, "M16 Commitment"),
    "altered-header-tag": (1017, "M17 HeaderTag"),
    "altered-content": (1020, "M20 UnitTag 1"),
    "altered-tag": (1020, "M20 UnitTag 2"),
    "altered-block": (1020, "M20 UnitTag 1"),
    "cut": (1010, "M10 Truncated"),
}


def named(address):
    return (VECTORS / address.removeprefix("file://")).read_bytes()


def vectors():
    """The tests of the manifest: the message's name and bytes, its keyring, and its text or None."""
    keys = json.loads(named("keys.json"))["keys"]
    for test in json.loads(named("manifest.json"))["tests"].values():
        one = test["master-keys"][0]
        ring = esdk.Keyring.raw_aes(
            key_namespace=one["provider-id"],
            key_name=keys[one["key"]]["key-id"],
            wrapping_key=base64.b64decode(keys[one["key"]]["material"]),
        )
        text = test["result"].get("output")
        yield test["ciphertext"].rpartition("/")[2], named(test["ciphertext"]), ring, text and named(text["plaintext"])


class Pieces:
    """A source that gives so many bytes at a time."""

    def __init__(self, held, size):
        self.rest = io.BytesIO(held)
        self.size = size

    def read(self, size):
        return self.rest.read(min(size, self.size))


def by_rooms(stream, size):
    """All of a stream, by rooms of a size, and what was raised behind it."""
    room, parts = bytearray(size), []
    try:
        while count := stream.readinto(room):
            parts.append(bytes(room[:count]))
    except esdk.EsdkError as error:
        return b"".join(parts), error
    return b"".join(parts), None


def sealed(text, **words):
    return esdk.encrypt(source=text, keyring=RING, **words)[0]


def opened(message, **words):
    return esdk.decrypt(source=message, keyring=RING, **words)[0]
