#!/usr/bin/env python3
"""Stands in for the program `esdk` in tests of the scripts around it, where it isn't built.

It has `encrypt`, `decrypt`, `extract`, `list`, `batch` and `audit`, the flag `--armour`, keyring files of one key
line or of JSON, whose first key that isn't retired makes the data key, and the lines and statuses that these tests meet. What it writes and reads are messages of the format, by
vectors/opening.py over the package `cryptography`; it proves nothing, and holds files whole.
"""

import base64
import binascii
import json
import os
import pathlib
import sys

HERE = pathlib.Path(__file__).resolve().parent
sys.path.insert(0, str(HERE.parent / "vectors"))
sys.dont_write_bytecode = True

from cryptography.exceptions import InvalidTag  # noqa: E402
from cryptography.hazmat.primitives.ciphers.aead import AESGCM  # noqa: E402
from opening import (  # noqa: E402
    FINAL,
    FRAMED,
    SUITE,
    Reader,
    Refused,
    context_text,
    derived,
    read_context,
    sized,
    unit_aad,
    unwrap,
    wrapped,
)


FLAG = "--armour"


class Fault(Exception):
    """A line on standard error, and the status."""

    def __init__(self, status, line):
        super().__init__(line)
        self.status = status
        self.line = line


def put(text):
    """Writes all of it, also where the output is unbuffered and takes a part at a time."""
    rest = memoryview(text)
    try:
        while rest:
            rest = rest[sys.stdout.buffer.write(rest) :]
        sys.stdout.buffer.flush()
    except OSError:
        sys.stdout = None
        raise Fault(4, "X2 SinkFault") from None


def raw_keys(node):
    """The raw keys below a node of a JSON keyring file, and whether each is retired."""
    if "raw" in node:
        raw = node["raw"]
        return [((raw["namespace"], raw["name"], base64.b64decode(raw["key"])), raw.get("retired", False))]
    several = node["multi"]
    nodes = [several["generator"]] * ("generator" in several) + several["children"]
    return [key for below in nodes for key in raw_keys(below)]


def keyring(name):
    """The keys of a keyring file, those that write before those that are retired, and how many write."""
    try:
        text = pathlib.Path(name).read_bytes()
    except OSError:
        raise Fault(4, "X3 ShelfFault") from None
    if not text.startswith(b"{"):
        return [key_line(text)], 1
    keys = raw_keys(json.loads(text)["ring"])
    writing = [key for key, retired in keys if not retired]
    return writing + [key for key, retired in keys if retired], len(writing)


def key_line(text):
    parts = text.removesuffix(b"\n").split(b" ")
    if len(parts) != 3:
        raise Fault(3, "K2 BadShape 1")
    try:
        namespace, name, key = (part.decode() for part in parts)
        if len(key) != 64:
            raise ValueError
        return namespace, name, bytes.fromhex(key)
    except ValueError:
        raise Fault(3, "K3 BadKey 1") from None


def seal(text, wrappings, frame, stored, context):
    """A message in frames. The required pairs are those of the context that aren't stored."""
    message_id, data_key = os.urandom(32), os.urandom(32)
    key = derived(data_key, message_id, SUITE + b"DERIVEKEY")
    header = b"\x02" + SUITE + message_id + sized(context_text(stored)) + len(wrappings).to_bytes(2, "big")
    header += b"".join(wrapped(wrapping, data_key, context) for wrapping in wrappings) + bytes([FRAMED]) + frame.to_bytes(4, "big")
    header += derived(data_key, message_id, b"COMMITKEY")
    required = context_text({name: context[name] for name in context if name not in stored})
    parts = [header, AESGCM(key).encrypt(bytes(12), b"", header + required)]
    count = max(1, -(-len(text) // frame))
    for sequence in range(1, count + 1):
        content = text[(sequence - 1) * frame : sequence * frame]
        number = sequence.to_bytes(4, "big")
        iv = bytes(8) + number
        final = sequence == count
        kind = b"Final Frame" if final else b"Frame"
        mark = FINAL + number + iv + len(content).to_bytes(4, "big") if final else number + iv
        parts.append(mark + AESGCM(key).encrypt(iv, content, unit_aad(message_id, kind, sequence, len(content))))
    return b"".join(parts)


def read_header(reader):
    if reader.take(1) != b"\x02":
        raise Fault(1, f"M1 BadVersion {reader.rest.getvalue()[0]}")
    if reader.take(2) != SUITE:
        raise Fault(1, "M2 UnsupportedSuite")
    message_id = reader.take(32)
    stored = read_context(reader.sized())
    entries = [(reader.sized(), reader.sized(), reader.sized()) for _ in range(reader.number(2))]
    _, frame, commitment = reader.number(1), reader.number(4), reader.take(32)
    return message_id, stored, entries, frame, commitment


def unlocked(message, wrappings, given):
    """What follows the header, its frames' key and number of bytes, the message's number and its whole context."""
    reader = Reader(message)
    message_id, stored, entries, frame, commitment = read_header(reader)
    header = message[: reader.rest.tell()]
    for name, value in given.items():
        if stored.get(name, value) != value:
            raise Fault(1, f"M12 ContextMismatch {json.dumps(name)}")
    context = {**stored, **given}
    try:
        data_key = unwrap(entries, wrappings, context)
    except Refused:
        raise Fault(1, "M15 NoKeyOpens") from None
    if derived(data_key, message_id, b"COMMITKEY") != commitment:
        raise Fault(1, "M16 Commitment")
    key = derived(data_key, message_id, SUITE + b"DERIVEKEY")
    required = context_text({name: given[name] for name in given if name not in stored})
    try:
        AESGCM(key).decrypt(bytes(12), reader.take(16), header + required)
    except InvalidTag:
        raise Fault(1, "M17 HeaderTag") from None
    return reader, key, frame, message_id, context


def opened(message, wrappings, given, write, sequence=1):
    """Writes the text of a message frame by frame, from one on, and answers its whole context."""
    reader, key, frame, message_id, context = unlocked(message, wrappings, given)
    reader.rest.seek((sequence - 1) * (frame + 32), os.SEEK_CUR)
    final = False
    while not final:
        mark = reader.take(4)
        final = mark == FINAL
        if (reader.number(4) if final else int.from_bytes(mark, "big")) != sequence:
            raise Fault(1, f"M18 WrongSequence {sequence}")
        iv = reader.take(12)
        length = reader.number(4) if final else frame
        kind = b"Final Frame" if final else b"Frame"
        try:
            sealed = reader.take(length + 16)
            write(AESGCM(key).decrypt(iv, sealed, unit_aad(message_id, kind, sequence, length)))
        except InvalidTag:
            raise Fault(1, f"M20 UnitTag {sequence}") from None
        sequence += 1
    if reader.rest.read(1):
        raise Fault(1, "M22 TrailingBytes")
    return context


def open_whole(message, wrappings, given, write):
    try:
        return opened(message, wrappings, given, write)
    except Refused:
        raise Fault(1, "M10 Truncated") from None


def unarmoured(text):
    """The bytes of a text of base64, and the number of its first group that is none, if there is one."""
    letters = text.replace(b"\n", b"").replace(b"\r", b"")
    found = b""
    for at in range(0, len(letters), 4):
        group = letters[at : at + 4]
        try:
            part = base64.b64decode(group, validate=True)
        except binascii.Error:
            part = b""
        if base64.b64encode(part) != group or letters[at - 1 : at] == b"=":
            return found, at // 4 + 1
        found += part
    return found, None


def read_input(given, read):
    """What comes of the input's message; a bad group of its text is named where the message ends before it."""
    text = sys.stdin.buffer.read()
    message, bad = unarmoured(text) if FLAG in given else (text, None)
    try:
        return read(message)
    except Fault as fault:
        if bad and fault.line == "M10 Truncated":
            raise Fault(1, f"M27 BadArmour {bad}") from None
        raise


def options(words, known):
    """The options and the pairs of a command's words."""
    given, pairs, words = {}, [], list(words)
    while words:
        word = words.pop(0)
        if word == "--":
            pairs += words
            break
        name, found, value = word.partition("=")
        if not name.startswith("-"):
            pairs.append(word)
        elif name == FLAG and FLAG in known and not found and FLAG not in given:
            given[FLAG] = ""
        elif name not in known or name == FLAG or name in given or not (found or words):
            raise Fault(2, "words NotRead")
        else:
            given[name] = value if found else words.pop(0)
    return given, pairs


def split_pairs(words):
    """The pairs, and which of their keys are required."""
    pairs, required = {}, set()
    for at, word in enumerate(words, 1):
        name, found, value = word.partition("=")
        if not found or not name.removesuffix(":"):
            raise Fault(2, f"words BadPair {at}")
        if name.endswith(":"):
            name = name[:-1]
            required.add(name)
        if name in pairs:
            raise Fault(6, f"Q3 DuplicateKey {json.dumps(name)}")
        pairs[name] = value
    return pairs, required


def without(pairs, required):
    return {name: value for name, value in pairs.items() if name not in required}


def encrypt(words):
    given, pairs = options(words, ["--keyring", "--frame", FLAG])
    if "--keyring" not in given:
        raise Fault(2, "words NotRead")
    if not given.get("--frame", "1").isdigit():
        raise Fault(2, "words BadNumber --frame")
    context, required = split_pairs(pairs)
    keys, writing = keyring(given["--keyring"])
    text = sys.stdin.buffer.read()
    frame = int(given.get("--frame", "4096"))
    message = seal(text, keys[:writing], frame, without(context, required), context)
    put(base64.encodebytes(message) if FLAG in given else message)


def decrypt(words):
    given, pairs = options(words, ["--keyring", FLAG])
    if "--keyring" not in given:
        raise Fault(2, "words NotRead")
    context, _ = split_pairs(pairs)
    keys, _ = keyring(given["--keyring"])
    context = read_input(given, lambda message: open_whole(message, keys, context, put))
    sys.stderr.write(json.dumps(context, ensure_ascii=False, sort_keys=True, separators=(",", ":")) + "\n")


class Enough(Exception):
    """The range was written."""


def extract(words):
    given, pairs = options(words, ["--keyring", "--from", "--at", "--count"])
    context, _ = split_pairs(pairs)
    keys, _ = keyring(given["--keyring"])
    at, left = int(given["--at"]), int(given["--count"])
    try:
        message = pathlib.Path(given["--from"]).read_bytes()
    except OSError:
        raise Fault(4, "X3 ShelfFault") from None
    try:
        frame = unlocked(message, keys, context)[2]
        skipped = at % frame

        def write(text):
            nonlocal skipped, left
            put(text[skipped : skipped + left])
            left -= len(text[skipped : skipped + left])
            skipped = 0
            if left == 0:
                raise Enough

        opened(message, keys, context, write, at // frame + 1)
    except Enough:
        pass
    except Refused:
        raise Fault(1, "M10 Truncated") from None


def header_of(message):
    try:
        return read_header(Reader(message))
    except Refused:
        raise Fault(1, "M10 Truncated") from None


def listing(words):
    header = read_input(options(words, [FLAG])[0], header_of)
    print("version: 2\nsuite: 0478\ncontext: " + json.dumps(header[1], separators=(",", ":"), ensure_ascii=False))


def job_file(name):
    """The keyring file's name and the jobs, judged as the program does where these tests need it."""
    try:
        text = pathlib.Path(name).read_bytes()
    except OSError:
        raise Fault(4, "X3 ShelfFault") from None
    if len(text) > 1048576:
        raise Fault(3, "K10 FileTooLong")
    try:
        file = json.loads(text.decode())
    except ValueError:
        raise Fault(3, "K1 NotJson") from None
    jobs = file["jobs"]
    if file["version"] != 1 or not 1 <= len(jobs) <= 1000:
        raise Fault(3, "K2 BadShape 0")
    taken = {job["from"] for job in jobs} | {file["keyring"], name}
    for job in jobs:
        if job["to"] in taken:
            raise Fault(3, f"K9 NamesClash {json.dumps(job['to'])}")
        taken.add(job["to"])
    return file["keyring"], jobs


def run_job(job, keys, writing):
    try:
        read = pathlib.Path(job["from"]).read_bytes()
        if job["do"] == "encrypt":
            context = job.get("context", {})
            made = [seal(read, keys[:writing], 4096, without(context, job.get("required", [])), context)]
        else:
            made = []
            open_whole(read, keys, job.get("given", {}), made.append)
        pathlib.Path(job["to"]).write_bytes(b"".join(made))
    except OSError:
        raise Fault(4, "X3 ShelfFault") from None


def batch(words):
    given, _ = options(words, ["--jobs"])
    name, jobs = job_file(given["--jobs"])
    keys, writing = keyring(name)
    status = 0
    for at, job in enumerate(jobs, 1):
        try:
            run_job(job, keys, writing)
            print("job", at, job["do"], "done direct")
        except Fault as fault:
            print("job", at, job["do"], fault.line, "none")
            status = 7
    sys.exit(status)


def unlocks(message, keys, given):
    """Whether the key opens the message's header. Of a body that is damaged it says nothing."""
    try:
        opened(message, keys, given, lambda text: None)
    except Fault as fault:
        return fault.line.split()[0] not in ("M15", "M16", "M17")
    except Refused:
        pass
    return True


def audited(message, keys):
    """What an audit says of a message."""
    try:
        read = pathlib.Path(message["from"]).read_bytes()
    except OSError:
        raise Fault(4, "X3 ShelfFault") from None
    try:
        reader = Reader(read)
        read_header(reader)
        reader.take(16)
    except Refused:
        return "M10 Truncated"
    except Fault as fault:
        return fault.line
    return "opened-by 1" if unlocks(read, keys, message.get("given", {})) else "opened-by none"


def audit(words):
    given, _ = options(words, ["--jobs"])
    file = json.loads(pathlib.Path(given["--jobs"]).read_bytes().decode())
    messages = file["messages"]
    if file["version"] != 1 or not 1 <= len(messages) <= 1000:
        raise Fault(3, "K2 BadShape 0")
    keys, _ = keyring(file["keyring"])
    lines = [audited(message, keys) for message in messages]
    for at, line in enumerate(lines, 1):
        print("message", at, line)
    needed = [str(at) for at, line in enumerate(lines, 1) if line == "opened-by 1"]
    print("leaf 1 needed-for", " ".join(needed) or "none")
    sys.exit(0 if len(needed) == len(lines) else 7)


def main():
    commands = {"encrypt": encrypt, "decrypt": decrypt, "extract": extract, "list": listing, "batch": batch, "audit": audit}
    words = sys.argv[1:]
    try:
        if not words or words[0] not in commands or any("\udc80" <= letter <= "\udcff" for letter in "".join(words)):
            raise Fault(2, "words NotRead")
        commands[words[0]](words[1:])
    except Fault as fault:
        if sys.stdout:
            sys.stdout.flush()
        print("esdk:", fault.line, file=sys.stderr)
        sys.exit(fault.status)


if __name__ == "__main__":
    main()
