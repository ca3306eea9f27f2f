"""The message format as its standard and this library's documents say it, over python's `cryptography`: what the program `codec_cases` has to answer.

Nothing here is taken from the library's code or its output. Names and faults are those of docs/FORMAT.md.
"""
import json

from cryptography.exceptions import InvalidTag
from cryptography.hazmat.primitives import hashes
from cryptography.hazmat.primitives.ciphers.aead import AESGCM
from cryptography.hazmat.primitives.kdf.hkdf import HKDF

LATEST_END = 1 << 24
LONGEST_BLOCK = (1 << 36) - 32
FINAL_MARK = 0xFFFFFFFF
LONGEST_TEXT = 65_535

# By the version of the format.
SUITES = {1: 0x0178, 2: 0x0478}
ID_LENGTHS = {1: 16, 2: 32}


class Refused(Exception):
    """A fault or a refusal: its line, and the offset where the field that has it ends."""

    def __init__(self, line, at=None):
        super().__init__(line)
        self.line, self.at = line, at


class Wanting(Exception):
    """More bytes are wanted."""


class Reader:
    """Fields from the front of bytes."""

    def __init__(self, data, at=0):
        self.data, self.at = data, at

    def bytes(self, count):
        if len(self.data) - self.at < count:
            raise Wanting
        self.at += count
        return self.data[self.at - count : self.at]

    def number(self, width):
        return int.from_bytes(self.bytes(width), "big")

    def sized(self):
        """Two bytes of length, and as many bytes; where they aren't whole, nothing of them is taken away but the length."""
        return self.bytes(self.number(2))

    def refuse_if(self, test, line):
        if test:
            raise Refused(line, self.at)


# ---- lines

NAMES = {
    "M1": "BadVersion", "M2": "UnsupportedSuite", "M3": "BadContext", "M4": "NoDataKeys", "M5": "TooManyDataKeys", "M6": "BadContentType",
    "M7": "BadFrameLength", "M8": "HeaderTooLong", "M9": "UnitTooLong", "M10": "Truncated", "M11": "ReservedKey", "M12": "ContextMismatch",
    "M13": "MissingRequired", "M14": "ContextTooLong", "M15": "NoKeyOpens", "M16": "Commitment", "M17": "HeaderTag", "M18": "WrongSequence",
    "M19": "FinalTooLong", "M20": "UnitTag", "M21": "BlockTooLong", "M22": "TrailingBytes", "M23": "Uncommitted", "M24": "BadType", "M25": "BadReserved",
    "M26": "BadIvLength",
    "Q1": "ReservedPrefix", "Q2": "ContextTooLong", "Q3": "DuplicateKey", "Q4": "RequiredAbsent", "Q5": "NoGenerator", "Q6": "GeneratorHasKey",
    "Q7": "TooManyDataKeys", "Q8": "HeaderTooLong", "Q9": "TooManyFrames", "Q10": "OverDeclared",
    "K1": "NotJson", "K2": "BadShape", "K3": "BadKey", "K4": "ReservedNamespace", "K5": "ClashingKeys", "K6": "TooDeep", "K7": "TooManyLeaves",
    "K8": "NoSuchPlug", "K9": "NamesClash", "K10": "FileTooLong",
    "X1": "SourceFault", "X2": "SinkFault", "X3": "ShelfFault", "X4": "EntropyFault", "X5": "KeyringFault", "X6": "InputTooLong",
}


def refusal(number, *values):
    """The line: number, name, each value after a space; a text as a JSON string, the suite of M2 and M23 in four hexadecimal digits."""
    words = [number, NAMES[number]]
    for value in values:
        if isinstance(value, bytes):
            words.append(json.dumps(value.decode(), ensure_ascii=False))
        else:
            words.append(f"{value:04x}" if number in ("M2", "M23") else str(value))
    return " ".join(words)


# ---- contexts: lists of pairs of bytes, sorted by key

def sized(data):
    return len(data).to_bytes(2, "big") + data


def context_length(pairs):
    return 2 + sum(4 + len(key) + len(value) for key, value in pairs) if pairs else 0


def context_text(pairs):
    if not pairs:
        return b""
    return len(pairs).to_bytes(2, "big") + b"".join(sized(key) + sized(value) for key, value in sorted(pairs))


def split_context(data):
    """The pairs as they stand; None where the counts and lengths don't fit."""
    if not data:
        return []
    reader = Reader(data)
    try:
        pairs = [(reader.sized(), reader.sized()) for _ in range(reader.number(2))]
    except Wanting:
        return None
    return pairs if reader.at == len(data) else None


def is_text(data):
    try:
        data.decode("utf-8")
    except UnicodeDecodeError:
        return False
    return True


def read_context(data):
    pairs = split_context(data)
    if pairs is None:
        raise Refused(refusal("M3") + " Length")
    if not all(is_text(key) and is_text(value) for key, value in pairs):
        raise Refused(refusal("M3") + " Utf8")
    if len({key for key, _ in pairs}) < len(pairs):
        raise Refused(refusal("M3") + " Duplicate")
    return sorted(pairs)


def insert_pair(pairs, key, value):
    if any(key == other for other, _ in pairs):
        raise Refused(refusal("Q3", key))
    more = sorted(pairs + [(key, value)])
    if context_length(more) > LONGEST_TEXT:
        raise Refused(refusal("Q2", context_length(more)))
    return more


def join(stored, given):
    """The whole context, and the given pairs whose keys aren't stored."""
    values = dict(given)
    for key, value in stored:
        if key in values and values[key] != value:
            raise Refused(refusal("M12", key))
    only = [(key, value) for key, value in given if key not in dict(stored)]
    whole = sorted(stored + only)
    if context_length(whole) > LONGEST_TEXT:
        raise Refused(refusal("M14", context_length(whole)))
    return whole, only


# ---- headers

def entry_text(entry):
    return b"".join(sized(part) for part in entry)


def raw_info(name, iv):
    return name + bytes.fromhex("000000800000000c") + iv


def part(reader):
    length = reader.number(2)
    reader.refuse_if(reader.at + length > LATEST_END, refusal("M8", reader.at + length))
    return reader.bytes(length)


def read_suite(reader, uncommitted):
    """Version and suite id."""
    version = reader.number(1)
    reader.refuse_if(version not in (1, 2), refusal("M1", version))
    if version == 1:
        kind = reader.number(1)
        reader.refuse_if(kind != 0x80, refusal("M24", kind))
    suite = reader.number(2)
    reader.refuse_if(suite != SUITES[version], refusal("M2", suite))
    reader.refuse_if(version == 1 and not uncommitted, refusal("M23", suite))
    return version, suite


def read_reserved(reader):
    """The four zero bytes and the length of an initialization vector, which format 1.0 has before the frame length."""
    reserved = reader.number(4)
    reader.refuse_if(reserved != 0, refusal("M25", reserved))
    length = reader.number(1)
    reader.refuse_if(length != 12, refusal("M26", length))


def read_header(data, uncommitted, max_keys, max_unit):
    """The fields by their names, `raw` the body and `end` the offset behind the authentication."""
    reader = Reader(data)
    version, suite = read_suite(reader, uncommitted)
    head = {"version": version, "suite": suite, "id": reader.bytes(ID_LENGTHS[version])}
    text = reader.sized()
    try:
        head["stored"] = read_context(text)
    except Refused as fault:
        raise Refused(fault.line, reader.at) from None
    count = reader.number(2)
    reader.refuse_if(count == 0, refusal("M4"))
    reader.refuse_if(max_keys is not None and count > max_keys, refusal("M5", count))
    head["entries"] = [(part(reader), part(reader), part(reader)) for _ in range(count)]
    kind = reader.number(1)
    reader.refuse_if(kind not in (1, 2), refusal("M6", kind))
    if version == 1:
        read_reserved(reader)
    frame = reader.number(4)
    reader.refuse_if((frame == 0) != (kind == 1), refusal("M7", frame))
    reader.refuse_if(kind == 2 and max_unit is not None and frame > max_unit, refusal("M9", frame))
    head["content"] = frame if kind == 2 else "single"
    head["commitment"] = reader.bytes(32) if version == 2 else b""
    head["raw"] = data[: reader.at]
    head["iv"] = reader.bytes(12) if version == 1 else bytes(12)
    head["tag"] = reader.bytes(16)
    head["end"] = reader.at
    return head


def write_header(message_id, stored, entries, frame, commitment, max_keys):
    if max_keys is not None and len(entries) > max_keys:
        raise Refused(refusal("Q7", len(entries)))
    front = front_text(bytes.fromhex("020478") + message_id, stored, entries)
    return front + b"\x02" + frame.to_bytes(4, "big") + commitment


def write_legacy_header(message_id, stored, entries, content):
    """A header body of format 1.0."""
    front = front_text(bytes.fromhex("01800178") + message_id, stored, entries)
    kind, frame = (1, 0) if content == "single" else (2, content)
    return front + bytes([kind]) + bytes(4) + b"\x0c" + frame.to_bytes(4, "big")


def front_text(opening, stored, entries):
    """What stands before the content type."""
    text = opening + sized(context_text(stored)) + len(entries).to_bytes(2, "big") + b"".join(entry_text(entry) for entry in entries)
    if len(text) > LATEST_END:
        raise Refused(refusal("Q8", len(text)))
    return text


# ---- keys

def derive(key, hash_, salt, info):
    return HKDF(algorithm=hash_, length=32, salt=salt, info=info).derive(key)


def derived_key(version, key, message_id):
    if version == 1:
        return derive(key, hashes.SHA256(), b"", b"\x01\x78" + message_id)
    return derive(key, hashes.SHA512(), message_id, b"\x04\x78DERIVEKEY")


def commitment(key, message_id):
    return derive(key, hashes.SHA512(), message_id, b"COMMITKEY")


def header_tag(head, only, key):
    return AESGCM(derived_key(head["version"], key, head["id"])).encrypt(head["iv"], b"", head["raw"] + context_text(only))


def lock_fault(head, only, key):
    if head["version"] == 2 and head["commitment"] != commitment(key, head["id"]):
        return refusal("M16")
    if head["tag"] != header_tag(head, only, key):
        return refusal("M17")
    return None


def opened(key, iv, data, aad):
    """The text, or None where the tag is wrong."""
    try:
        return AESGCM(key).decrypt(iv, data, aad)
    except InvalidTag:
        return None


def unwrapped(entries, namespace, name, key, whole):
    """The data key of the first entry that is one of this raw key and opens, or None."""
    for provider, info, cipher in entries:
        if provider == namespace and len(cipher) == 48 and info == raw_info(name, info[-12:]):
            found = opened(key, info[-12:], cipher, context_text(whole))
            if found is not None:
                return found
    return None


# ---- bodies

KIND_TEXTS = {
    "regular": b"AWSKMSEncryptionClient Frame",
    "final": b"AWSKMSEncryptionClient Final Frame",
    "single": b"AWSKMSEncryptionClient Single Block",
}


def unit_aad(message_id, kind, number, length):
    return message_id + KIND_TEXTS[kind] + number.to_bytes(4, "big") + length.to_bytes(8, "big")


def unit_head(reader, content, want, max_unit):
    """Kind, number, initialization vector, length of the content. `Wanting` carries how many bytes the next decision needs."""
    begin = reader.at

    def need(count):
        if len(reader.data) - begin < count:
            raise Wanting(count)

    if content == "single":
        need(20)
        iv, length = reader.bytes(12), reader.number(8)
        reader.refuse_if(length > LONGEST_BLOCK, refusal("M21", length))
        reader.refuse_if(max_unit is not None and length > max_unit, refusal("M9", length))
        return "single", 1, iv, length
    need(4)
    got = reader.number(4)
    is_final = got == FINAL_MARK
    if is_final:
        need(8)
        got = reader.number(4)
    reader.refuse_if(got != want, refusal("M18", want, got))
    need(24 if is_final else 16)
    iv = reader.bytes(12)
    if not is_final:
        return "regular", want, iv, content
    length = reader.number(4)
    reader.refuse_if(length > content, refusal("M19", length))
    return "final", want, iv, length


def units_of(reader, content, max_unit, key, message_id):
    """The contents of the units, each with the offset where its unit ends. Raises the first fault, with its offset, or that more is wanted."""
    want = 0
    while True:
        want += 1
        kind, number, iv, length = unit_head(reader, content, want, max_unit)
        text = opened(key, iv, reader.bytes(length + 16), unit_aad(message_id, kind, number, length))
        reader.refuse_if(text is None, refusal("M20", want))
        yield reader.at, text
        if kind != "regular":
            break
    if reader.at < len(reader.data):
        raise Refused(refusal("M22"), reader.at + 1)


def frame_iv(number):
    return number.to_bytes(12, "big")


def frame_text(key, message_id, kind, number, text):
    """A frame as it is written."""
    four = number.to_bytes(4, "big")
    head = four if kind == "regular" else b"\xff\xff\xff\xff" + four
    length = b"" if kind == "regular" else len(text).to_bytes(4, "big")
    cipher = AESGCM(key).encrypt(frame_iv(number), text, unit_aad(message_id, kind, number, len(text)))
    return head + frame_iv(number) + length + cipher


def head_texts(number, length):
    """What stands before the content of a regular frame of this number, and of a final one of so many bytes."""
    four = number.to_bytes(4, "big")
    return four + frame_iv(number), b"\xff\xff\xff\xff" + four + frame_iv(number) + length.to_bytes(4, "big")


def block_text(key, message_id, iv, text):
    return iv + len(text).to_bytes(8, "big") + AESGCM(key).encrypt(iv, text, unit_aad(message_id, "single", 1, len(text)))


# ---- messages

def open_message(data, uncommitted, max_keys, max_unit, wrapping, given, unlocked):
    """The contents of the units, each with the offset where its unit ends. Raises the first fault, with the offset where it comes, or that more is wanted. `unlocked` is called with the
    whole context, once the header is unlocked."""
    head = read_header(data, uncommitted, max_keys, max_unit)
    try:
        if b"aws-crypto-public-key" in dict(head["stored"]):
            raise Refused(refusal("M11"))
        whole, only = join(head["stored"], given)
    except Refused as fault:
        raise Refused(fault.line, head["end"]) from None
    key = unwrapped(head["entries"], b"ns", b"k", wrapping, whole)
    fault = refusal("M15") if key is None else lock_fault(head, only, key)
    if fault:
        raise Refused(fault, head["end"])
    unlocked(whole)
    derived = derived_key(head["version"], key, head["id"])
    yield from units_of(Reader(data, head["end"]), head["content"], max_unit, derived, head["id"])


def seal_message(wrapping, random, message_id, context, keys, frame, text, max_keys):
    """The header with its tag, and the frames of the text, the last of which is the final one."""
    data_key, iv = random[:32], random[32:]
    stored, only = ([pair for pair in context if (pair[0] in keys) == of_reader] for of_reader in (False, True))
    entry = (b"ns", raw_info(b"k", iv), AESGCM(wrapping).encrypt(iv, data_key, context_text(context)))
    raw = write_header(message_id, stored, [entry], frame, commitment(data_key, message_id), max_keys)
    key = derived_key(2, data_key, message_id)
    tag = AESGCM(key).encrypt(bytes(12), b"", raw + context_text(only))
    count = max(1, -(-len(text) // frame))
    parts = [text[number * frame : (number + 1) * frame] for number in range(count)]
    kinds = ["regular"] * (count - 1) + ["final"]
    frames = [frame_text(key, message_id, kind, number, part) for number, (kind, part) in enumerate(zip(kinds, parts), 1)]
    return raw + tag, frames
