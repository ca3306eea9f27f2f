"""Opens messages of format 2.0 under the suite 0x0478, and seals a text as a single block.

Written from the AWS Encryption SDK Specification over the package `cryptography`, and shares
nothing with the program `esdk`. A wrapping key is (namespace, name, key); a context is a dict
from texts to texts.
"""

import os
from io import BytesIO

from cryptography.exceptions import InvalidTag
from cryptography.hazmat.primitives import hashes
from cryptography.hazmat.primitives.ciphers.aead import AESGCM
from cryptography.hazmat.primitives.kdf.hkdf import HKDF

SUITE = bytes.fromhex("0478")
FINAL = b"\xff\xff\xff\xff"
BLOCK, FRAMED = 1, 2


class Refused(Exception):
    """The message isn't whole and right, or no key opens it."""


def number(bytes_):
    return int.from_bytes(bytes_, "big")


def sized(part):
    return len(part).to_bytes(2, "big") + part


def context_text(context):
    pairs = sorted((key.encode(), value.encode()) for key, value in context.items())
    if not pairs:
        return b""
    return len(pairs).to_bytes(2, "big") + b"".join(sized(key) + sized(value) for key, value in pairs)


def derived(data_key, message_id, info):
    return HKDF(algorithm=hashes.SHA512(), length=32, salt=message_id, info=info).derive(data_key)


def unit_aad(message_id, kind, sequence, length):
    label = b"AWSKMSEncryptionClient " + kind
    return message_id + label + sequence.to_bytes(4, "big") + length.to_bytes(8, "big")


def wrapped(wrapping, data_key, context):
    """The encrypted data key of a raw AES keyring."""
    namespace, name, key = wrapping
    iv = os.urandom(12)
    info = name.encode() + (128).to_bytes(4, "big") + (12).to_bytes(4, "big") + iv
    return sized(namespace.encode()) + sized(info) + sized(AESGCM(key).encrypt(iv, data_key, context_text(context)))


def seal_block(text, wrapping, context):
    """A message whose content is a single block."""
    message_id, data_key, iv = os.urandom(32), os.urandom(32), os.urandom(12)
    key = derived(data_key, message_id, SUITE + b"DERIVEKEY")
    header = b"\x02" + SUITE + message_id + sized(context_text(context)) + (1).to_bytes(2, "big")
    header += wrapped(wrapping, data_key, context) + bytes([BLOCK]) + bytes(4)
    header += derived(data_key, message_id, b"COMMITKEY")
    tag = AESGCM(key).encrypt(bytes(12), b"", header)
    sealed = AESGCM(key).encrypt(iv, text, unit_aad(message_id, b"Single Block", 1, len(text)))
    return header + tag + iv + len(text).to_bytes(8, "big") + sealed


class Reader:
    """The bytes of a message, taken from the front."""

    def __init__(self, message):
        self.rest = BytesIO(message)

    def take(self, count):
        part = self.rest.read(count)
        if len(part) != count:
            raise Refused("it ends too early")
        return part

    def number(self, count):
        return number(self.take(count))

    def sized(self):
        return self.take(self.number(2))


def read_context(text):
    if not text:
        return {}
    reader = Reader(text)
    return {reader.sized().decode(): reader.sized().decode() for _ in range(reader.number(2))}


def unwrap(entries, wrappings, context):
    for namespace, name, key in wrappings:
        for provider, info, sealed in entries:
            front = name.encode() + (128).to_bytes(4, "big") + (12).to_bytes(4, "big")
            if provider == namespace.encode() and info[:-12] == front:
                try:
                    return AESGCM(key).decrypt(info[-12:], sealed, context_text(context))
                except InvalidTag:
                    pass
    raise Refused("no key opens it")


def read_units(reader, content, frame, key, message_id):
    """The text of the body."""

    def opened(kind, sequence, iv, length):
        return AESGCM(key).decrypt(iv, reader.take(length + 16), unit_aad(message_id, kind, sequence, length))

    if content == BLOCK:
        iv = reader.take(12)
        return opened(b"Single Block", 1, iv, reader.number(8))
    text, sequence = b"", 1
    while True:
        mark = reader.take(4)
        final = mark == FINAL
        if (reader.number(4) if final else number(mark)) != sequence:
            raise Refused("a frame is out of its order")
        iv = reader.take(12)
        length = reader.number(4) if final else frame
        text += opened(b"Final Frame" if final else b"Frame", sequence, iv, length)
        sequence += 1
        if final:
            return text


def open_message(message, wrappings):
    """The text of a message and its encryption context."""
    reader = Reader(message)
    if reader.take(3) != b"\x02" + SUITE:
        raise Refused("another format, or another suite")
    message_id = reader.take(32)
    context = read_context(reader.sized())
    entries = [(reader.sized(), reader.sized(), reader.sized()) for _ in range(reader.number(2))]
    content, frame, commitment = reader.number(1), reader.number(4), reader.take(32)
    header = message[: reader.rest.tell()]
    data_key = unwrap(entries, wrappings, context)
    if derived(data_key, message_id, b"COMMITKEY") != commitment:
        raise Refused("it commits to another data key")
    key = derived(data_key, message_id, SUITE + b"DERIVEKEY")
    try:
        AESGCM(key).decrypt(bytes(12), reader.take(16), header)
        text = read_units(reader, content, frame, key, message_id)
    except InvalidTag:
        raise Refused("a tag is wrong") from None
    if reader.rest.read(1):
        raise Refused("bytes follow it")
    return text, context
