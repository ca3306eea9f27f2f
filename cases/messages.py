"""Messages: written, and judged field by field.

Written from the text of docs/FORMAT.md, so that it can judge what the program does. AES-256-GCM
and HKDF are those of the package `cryptography`, which stands over OpenSSL.

A context is a dict from keys to values, both bytes. A fault is raised, with its line as text.
"""

from dataclasses import dataclass

from cryptography.exceptions import InvalidTag
from cryptography.hazmat.primitives import hashes
from cryptography.hazmat.primitives.ciphers.aead import AESGCM
from cryptography.hazmat.primitives.kdf.hkdf import HKDF

FINAL_MARK = b"\xff\xff\xff\xff"
MOST_CONTEXT = 65_535
MOST_END_OF_KEYS = 16_777_216
MOST_BLOCK = 2**36 - 32
MOST_FRAMES = 2**32 - 1
IV = 12
TAG = 16
TYPE = 0x80

FRAME = b"AWSKMSEncryptionClient Frame"
FINAL_FRAME = b"AWSKMSEncryptionClient Final Frame"
SINGLE_BLOCK = b"AWSKMSEncryptionClient Single Block"


@dataclass(frozen=True)
class Suite:
    """An algorithm suite, and what the format of its messages says: the version, and how long a message id is."""

    version: int
    id: bytes
    id_length: int


COMMITTING = Suite(2, bytes.fromhex("0478"), 32)
UNCOMMITTED = Suite(1, bytes.fromhex("0178"), 16)
SUITES = {suite.version: suite for suite in (COMMITTING, UNCOMMITTED)}


@dataclass
class Limits:
    """What a reader sets: how many encrypted data keys there may be, how long a unit may be, and whether format 1.0 is read."""

    max_keys: int = None
    max_unit: int = None
    uncommitted: bool = False


class Fault(Exception):
    """The first fault of a message: its number, its name and its values, as the report has them."""


class Going(Exception):
    """No fault stands, and the message isn't whole."""


def number(bytes_):
    return int.from_bytes(bytes_, "big")


def sized(part):
    """The part behind its length in two bytes."""
    return len(part).to_bytes(2, "big") + part


def context_text(pairs):
    """The text of a context."""
    if not pairs:
        return b""
    text = len(pairs).to_bytes(2, "big")
    for key in sorted(pairs):
        text += sized(key) + sized(pairs[key])
    return text


def context_length(pairs):
    return len(context_text(pairs))


class Bytes:
    """Bytes that are taken from the front. While too few are there, `more` gives the next ones, or none at the end."""

    def __init__(self, bytes_=b"", more=lambda: b""):
        self.bytes = bytearray(bytes_)
        self.more = more
        self.at = 0

    def has(self, count):
        """Whether so many bytes follow. No more are asked for than it takes to say so."""
        while len(self.bytes) - self.at < count:
            piece = self.more()
            if not piece:
                return False
            self.bytes += piece
        return True

    def take(self, count):
        if not self.has(count):
            raise Going
        self.at += count
        return bytes(self.bytes[self.at - count : self.at])

    def number(self, count):
        return number(self.take(count))

    def taken(self):
        """All that was taken from the front so far."""
        return bytes(self.bytes[: self.at])


def spelled_pairs(text):
    """The pairs that a text of a count of at least 1 and exactly so many pairs spells; else None."""
    left = Bytes(text)
    pairs = []
    try:
        count = left.number(2)
        for _ in range(count):
            key = left.take(left.number(2))
            pairs.append((key, left.take(left.number(2))))
    except Going:
        return None
    return pairs if count > 0 and left.at == len(text) else None


def is_utf8(part):
    try:
        part.decode("utf-8")
    except UnicodeDecodeError:
        return False
    return True


def read_context(text):
    if text in (b"", b"\x00\x00"):
        return {}
    pairs = spelled_pairs(text)
    if pairs is None:
        raise Fault("M3 BadContext Length")
    if not all(is_utf8(key) and is_utf8(value) for key, value in pairs):
        raise Fault("M3 BadContext Utf8")
    if len(dict(pairs)) < len(pairs):
        raise Fault("M3 BadContext Duplicate")
    return dict(pairs)


@dataclass
class Entry:
    """An encrypted data key."""

    provider: bytes
    info: bytes
    cipher: bytes

    def text(self):
        return sized(self.provider) + sized(self.info) + sized(self.cipher)


@dataclass
class Header:
    """A header as it was read: `body` is all of it without its authentication, which is `iv` and `tag`."""

    suite: Suite
    message_id: bytes
    stored: dict
    entries: list
    frame: int
    commitment: bytes
    body: bytes
    iv: bytes
    tag: bytes

    def is_framed(self):
        return self.frame > 0

    def length(self):
        """How many bytes stand before the body."""
        return len(self.body) + (TAG if self.suite == COMMITTING else IV + TAG)


def read_part(left):
    size = left.number(2)
    if left.at + size > MOST_END_OF_KEYS:
        raise Fault(f"M8 HeaderTooLong {left.at + size}")
    return left.take(size)


def read_entries(left, max_keys):
    count = left.number(2)
    if count == 0:
        raise Fault("M4 NoDataKeys")
    if max_keys is not None and count > max_keys:
        raise Fault(f"M5 TooManyDataKeys {count}")
    entries = []
    for _ in range(count):
        provider = read_part(left)
        info = read_part(left)
        entries.append(Entry(provider, info, read_part(left)))
    return entries


def read_suite(left, uncommitted):
    version = left.number(1)
    if version not in SUITES:
        raise Fault(f"M1 BadVersion {version}")
    suite = SUITES[version]
    if suite == UNCOMMITTED:
        kind = left.number(1)
        if kind != TYPE:
            raise Fault(f"M24 BadType {kind}")
    suite_id = left.take(2)
    if suite_id != suite.id:
        raise Fault(f"M2 UnsupportedSuite {suite_id.hex()}")
    if suite == UNCOMMITTED and not uncommitted:
        raise Fault(f"M23 Uncommitted {suite_id.hex()}")
    return suite


def read_content(left, suite, max_unit):
    """The frame length, 0 for a single block."""
    kind = left.number(1)
    if kind not in (1, 2):
        raise Fault(f"M6 BadContentType {kind}")
    if suite == UNCOMMITTED:
        read_reserved(left)
    frame = left.number(4)
    if (kind == 1) != (frame == 0):
        raise Fault(f"M7 BadFrameLength {frame}")
    if kind == 2 and max_unit is not None and frame > max_unit:
        raise Fault(f"M9 UnitTooLong {frame}")
    return frame


def read_reserved(left):
    """What stands between the content type and the frame length in format 1.0."""
    reserved = left.number(4)
    if reserved != 0:
        raise Fault(f"M25 BadReserved {reserved}")
    length = left.number(1)
    if length != IV:
        raise Fault(f"M26 BadIvLength {length}")


def read_header(left, limits):
    """The header at the front of these bytes, with its authentication."""
    suite = read_suite(left, limits.uncommitted)
    message_id = left.take(suite.id_length)
    stored = read_context(left.take(left.number(2)))
    entries = read_entries(left, limits.max_keys)
    frame = read_content(left, suite, limits.max_unit)
    commitment = left.take(32) if suite == COMMITTING else b""
    body = left.taken()
    iv = bytes(IV) if suite == COMMITTING else left.take(IV)
    return Header(suite, message_id, stored, entries, frame, commitment, body, iv, left.take(TAG))


def expanded(data_key, message_id, info):
    return HKDF(algorithm=hashes.SHA512(), length=32, salt=message_id, info=info).derive(data_key)


def derived_key(data_key, message_id, suite=COMMITTING):
    if suite == COMMITTING:
        return expanded(data_key, message_id, suite.id + b"DERIVEKEY")
    info = suite.id + message_id
    return HKDF(algorithm=hashes.SHA256(), length=32, salt=b"", info=info).derive(data_key)


def commitment_of(data_key, message_id):
    return expanded(data_key, message_id, b"COMMITKEY")


def header_tag(body, only, data_key, message_id, suite=COMMITTING, iv=bytes(IV)):
    """The tag of a header, with these pairs that are authenticated only."""
    cipher = AESGCM(derived_key(data_key, message_id, suite))
    return cipher.encrypt(iv, b"", body + context_text(only))


def check_lock(header, only, data_key):
    suite, message_id = header.suite, header.message_id
    if suite == COMMITTING and header.commitment != commitment_of(data_key, message_id):
        raise Fault("M16 Commitment")
    if header.tag != header_tag(header.body, only, data_key, message_id, suite, header.iv):
        raise Fault("M17 HeaderTag")


def unit_data(message_id, text, unit_number, length):
    """The associated data of a unit."""
    return message_id + text + unit_number.to_bytes(4, "big") + length.to_bytes(8, "big")


def opened(cipher, iv, sealed, data, unit_number):
    try:
        return cipher.decrypt(iv, sealed, data)
    except InvalidTag:
        raise Fault(f"M20 UnitTag {unit_number}") from None


def units(left, header, data_key, max_unit):
    """Gives the contents of the body's units, one after another, each before a byte behind it is asked for."""
    cipher = AESGCM(derived_key(data_key, header.message_id, header.suite))
    if header.is_framed():
        yield from frames(left, header, cipher)
    else:
        yield block(left, header, cipher, max_unit)
    if left.has(1):
        raise Fault("M22 TrailingBytes")


def frames(left, header, cipher):
    wanted, is_final = 1, False
    while not is_final:
        content, is_final = next_frame(left, header, cipher, wanted)
        yield content
        wanted += 1


def next_frame(left, header, cipher, wanted):
    """The content of the next frame, and whether it is the final one."""
    mark = left.take(4)
    if mark == FINAL_MARK:
        return final_frame(left, header, cipher, wanted), True
    check_number(wanted, number(mark))
    iv = left.take(12)
    data = unit_data(header.message_id, FRAME, wanted, header.frame)
    return opened(cipher, iv, left.take(header.frame + TAG), data, wanted), False


def check_number(wanted, got):
    if got != wanted:
        raise Fault(f"M18 WrongSequence {wanted} {got}")


def final_frame(left, header, cipher, wanted):
    check_number(wanted, left.number(4))
    iv = left.take(12)
    length = left.number(4)
    if length > header.frame:
        raise Fault(f"M19 FinalTooLong {length}")
    data = unit_data(header.message_id, FINAL_FRAME, wanted, length)
    return opened(cipher, iv, left.take(length + TAG), data, wanted)


def block(left, header, cipher, max_unit):
    iv = left.take(12)
    length = left.number(8)
    if length > MOST_BLOCK:
        raise Fault(f"M21 BlockTooLong {length}")
    if max_unit is not None and length > max_unit:
        raise Fault(f"M9 UnitTooLong {length}")
    data = unit_data(header.message_id, SINGLE_BLOCK, 1, length)
    return opened(cipher, iv, left.take(length + TAG), data, 1)


# Writing.


def raw_info(name, iv):
    return name + (128).to_bytes(4, "big") + (12).to_bytes(4, "big") + iv


def wrapped(namespace, name, key, iv, data_key, whole):
    """The entry of a raw AES key, over the whole context."""
    cipher = AESGCM(key).encrypt(iv, data_key, context_text(whole))
    return Entry(namespace, raw_info(name, iv), cipher)


def header_body(message_id, context_field, entries, frame, commitment, kind=None):
    """A header of format 2.0 without its tag; the kind of content is the frame length's, if none is said."""
    kind = kind or (2 if frame else 1)
    body = b"\x02" + COMMITTING.id + message_id + sized(context_field) + entries_text(entries)
    return body + bytes([kind]) + frame.to_bytes(4, "big") + commitment


def legacy_body(message_id, context_field, entries, frame, kind=None):
    """A header of format 1.0 without its authentication."""
    kind = kind or (2 if frame else 1)
    body = b"\x01\x80" + UNCOMMITTED.id + message_id + sized(context_field) + entries_text(entries)
    return body + bytes([kind]) + bytes(4) + bytes([IV]) + frame.to_bytes(4, "big")


def entries_text(entries):
    return len(entries).to_bytes(2, "big") + b"".join(entry.text() for entry in entries)


def frame_iv(frame_number):
    return frame_number.to_bytes(12, "big")


def sealed_frame(cipher, message_id, frame_number, text, is_final=False):
    mark = FINAL_MARK if is_final else b""
    size = len(text).to_bytes(4, "big") if is_final else b""
    iv = frame_iv(frame_number)
    kind = FINAL_FRAME if is_final else FRAME
    data = unit_data(message_id, kind, frame_number, len(text))
    return mark + frame_number.to_bytes(4, "big") + iv + size + cipher.encrypt(iv, text, data)


def framed_units(data_key, message_id, frame, text, suite=COMMITTING):
    """The frames of a text, a list."""
    cipher = AESGCM(derived_key(data_key, message_id, suite))
    count = max(1, -(-len(text) // frame))
    pieces = [text[i * frame : (i + 1) * frame] for i in range(count)]
    return [
        sealed_frame(cipher, message_id, i + 1, piece, is_final=i + 1 == count)
        for i, piece in enumerate(pieces)
    ]


def single_block(data_key, message_id, iv, text, suite=COMMITTING):
    cipher = AESGCM(derived_key(data_key, message_id, suite))
    data = unit_data(message_id, SINGLE_BLOCK, 1, len(text))
    return iv + len(text).to_bytes(8, "big") + cipher.encrypt(iv, text, data)


def locked_header(message_id, stored, only, entries, frame, data_key):
    """A header of format 2.0 with its tag."""
    commitment = commitment_of(data_key, message_id)
    body = header_body(message_id, context_text(stored), entries, frame, commitment)
    return body + header_tag(body, only, data_key, message_id)


def legacy_header(message_id, stored, only, entries, frame, data_key, iv=bytes(IV)):
    """A header of format 1.0 with its authentication."""
    body = legacy_body(message_id, context_text(stored), entries, frame)
    return body + iv + header_tag(body, only, data_key, message_id, UNCOMMITTED, iv)
