#!/usr/bin/env python3
"""Makes test vectors for other implementations of the format, or checks those that are here.

  vectors/make.py           makes them anew, by the program `esdk`, and checks them
  vectors/make.py --check   checks those that are here
  vectors/make.py --armour  writes the armoured files of the messages that are here
  ESDK=PROGRAM              takes that program instead of ../esdk

It needs Python's package `cryptography`. README.md beside this says what the files are.
"""

import base64
import json
import os
import pathlib
import subprocess
import sys
import tempfile
import uuid

from opening import Refused, open_message, seal_block

HERE = pathlib.Path(__file__).resolve().parent
ESDK = os.environ.get("ESDK", str(HERE.parent / "esdk"))
PROVIDER = "esdk-vectors"
KEYS = {name: bytes((at + step) % 256 for at in range(32)) for name, step in (("first", 0), ("second", 128))}
ADDRESS = "https://esdk.invalid/vectors/"

# Each message: what it shows; its text's length; its frame length, or None for a single block; its keys; its context.
MESSAGES = {
    "empty": ("an empty text", 0, 4096, ["first"], {}),
    "one-byte": ("a text of one byte", 1, 4096, ["first"], {}),
    "full-frame": ("a text that fills its only frame", 4096, 4096, ["first"], {}),
    "frame-and-a-byte": ("a byte more than a frame", 4097, 4096, ["first"], {}),
    "many-frames": ("many short frames, the last one full", 1000, 10, ["first"], {}),
    "frames-of-one-byte": ("frames of one byte", 9, 1, ["first"], {}),
    "long-frame": ("a frame that is longer than its text", 10000, 1048576, ["first"], {}),
    "one-pair": ("a stored pair", 5000, 4096, ["first"], {"purpose": "test"}),
    "many-pairs": (
        "pairs that need sorting, an empty value, texts beyond ASCII",
        5000,
        4096,
        ["first"],
        {"b": "2", "a": "1", "empty": "", "\u00e9": "\u4e16\u754c", "a b": "=:\"\\ \U0001f511"},
    ),
    "two-keys": ("two encrypted data keys", 5000, 4096, ["first", "second"], {"purpose": "test"}),
    "single-block": ("a single block, which another program wrote", 5000, None, ["first"], {}),
    "single-block-with-pairs": ("the same with a pair", 5000, None, ["second"], {"purpose": "test"}),
    "empty-single-block": ("an empty single block, which another program wrote", 0, None, ["first"], {}),
}

# What has to be refused: what it shows; the message; which of its bytes is altered, from the front or, below 0, from the end.
REFUSED = {
    "altered-message-id": ("a byte of the message id altered", "one-pair", 3),
    "altered-pair": ("a byte of the stored pair altered", "one-pair", 50),
    "altered-commitment": ("the commitment's first byte altered", "full-frame", -(16 + 4096 + 24 + 16 + 32)),
    "altered-header-tag": ("the header's tag altered", "full-frame", -(16 + 4096 + 24 + 1)),
    "altered-content": ("a byte of the content altered", "full-frame", -17),
    "altered-tag": ("the last frame's tag altered", "two-keys", -1),
    "altered-block": ("a byte of a single block altered", "single-block", -17),
    "cut": ("the last byte missing", "two-keys", None),
}


def text_of(length):
    return bytes((at * at + 7 * at) // 5 % 256 for at in range(length))


def wrapping(name):
    return PROVIDER, name, KEYS[name]


def keyring(names):
    """A keyring file: the first key makes the data key, and all wrap it."""
    raw = [
        {"raw": {"namespace": PROVIDER, "name": name, "key": base64.b64encode(KEYS[name]).decode()}} for name in names
    ]
    ring = raw[0] if len(raw) == 1 else {"multi": {"generator": raw[0], "children": raw[1:]}}
    return json.dumps({"version": 1, "ring": ring})


def esdk(words, names, input_):
    """Runs the program over a keyring file of these keys."""
    with tempfile.TemporaryDirectory() as folder:
        file = pathlib.Path(folder) / "keyring.json"
        file.write_text(keyring(names))
        command = [ESDK, words[0], "--keyring", str(file), *words[1:]]
        return subprocess.run(command, input=input_, capture_output=True, check=False)


def sealed(length, frame, names, context):
    if frame is None:
        return seal_block(text_of(length), wrapping(names[0]), context)
    pairs = [f"{key}={value}" for key, value in context.items()]
    ran = esdk(["encrypt", "--frame", str(frame), *pairs], names, text_of(length))
    if ran.returncode:
        sys.exit(f"make.py: esdk encrypt: status {ran.returncode}: {ran.stderr.decode()}")
    return ran.stdout


def altered(message, at):
    if at is None:
        return message[:-1]
    changed = bytearray(message)
    changed[at] ^= 1
    return bytes(changed)


def test(name, what, names, result):
    keys = [{"type": "raw", "key": key, "provider-id": PROVIDER, "encryption-algorithm": "aes"} for key in names]
    body = {"description": what, "ciphertext": f"file://ciphertexts/{name}", "master-keys": keys, "result": result}
    return str(uuid.uuid5(uuid.NAMESPACE_URL, ADDRESS + name + "/" + "+".join(names))), body


def tests():
    """The test cases of the manifest: each message under each of its keys, and what has to be refused."""
    for name, (what, length, _, names, _) in MESSAGES.items():
        result = {"output": {"plaintext": f"file://plaintexts/{length}"}}
        for key in names:
            yield test(name, what, [key], result)
        if len(names) > 1:
            yield test(name, what, names, result)
    for name, (what, of, _) in REFUSED.items():
        yield test(name, what, MESSAGES[of][3], {"error": {"error-description": what}})


def manifests():
    keys = {
        name: {
            "encrypt": True,
            "decrypt": True,
            "algorithm": "aes",
            "type": "symmetric",
            "bits": 256,
            "encoding": "base64",
            "material": base64.b64encode(key).decode(),
            "key-id": name,
        }
        for name, key in KEYS.items()
    }
    yield "keys.json", {"manifest": {"type": "keys", "version": 3}, "keys": keys}
    client = {"name": "esdk", "version": "1"}
    decrypt = {"manifest": {"type": "awses-decrypt", "version": 2}, "client": client, "keys": "file://keys.json"}
    yield "manifest.json", {**decrypt, "tests": dict(tests())}


def armour():
    """Each message as lines of base64, by Python's own function for them."""
    (HERE / "armoured").mkdir(exist_ok=True)
    for name in MESSAGES.keys() | REFUSED.keys():
        message = (HERE / "ciphertexts" / name).read_bytes()
        (HERE / "armoured" / name).write_bytes(base64.encodebytes(message))


def make():
    for folder in ("ciphertexts", "plaintexts"):
        (HERE / folder).mkdir(exist_ok=True)
    for name, (_, length, frame, names, context) in MESSAGES.items():
        (HERE / "plaintexts" / str(length)).write_bytes(text_of(length))
        (HERE / "ciphertexts" / name).write_bytes(sealed(length, frame, names, context))
    for name, (_, of, at) in REFUSED.items():
        message = (HERE / "ciphertexts" / of).read_bytes()
        (HERE / "ciphertexts" / name).write_bytes(altered(message, at))
    for name, value in manifests():
        (HERE / name).write_text(json.dumps(value, indent=1, ensure_ascii=False) + "\n")
    armour()


def want(holds, what):
    if not holds:
        sys.exit(f"make.py: {what}")


def check_message(name, length, frame, names, context):
    """Both programs open it under each of its keys, to its text and context; its form is the one that is said."""
    message = (HERE / "ciphertexts" / name).read_bytes()
    want((HERE / "plaintexts" / str(length)).read_bytes() == text_of(length), f"plaintexts/{length}")
    listing = subprocess.run([ESDK, "list"], input=message, capture_output=True, check=True).stdout.decode()
    form = ["content: single", "frame-length: 0"] if frame is None else ["content: framed", f"frame-length: {frame}"]
    for line in ["version: 2", "suite: 0478", f"data-keys: {len(names)}", *form]:
        want(f"{line}\n" in listing, f"{name}: {line}")
    for key in names:
        want(open_message(message, [wrapping(key)]) == (text_of(length), context), name)
        ran = esdk(["decrypt"], [key], message)
        want((ran.returncode, ran.stdout) == (0, text_of(length)), name)
        want(json.loads(ran.stderr) == context, name)


def check_refused(name, names):
    """Both programs refuse it."""
    message = (HERE / "ciphertexts" / name).read_bytes()
    try:
        open_message(message, [wrapping(key) for key in names])
    except Refused:
        pass
    else:
        want(False, f"{name} is opened")
    want(esdk(["decrypt"], names, message).returncode == 1, name)


def check_armoured(name, names):
    """The text is that of the message, and the program ends with it as it ends with the message."""
    message, text = ((HERE / folder / name).read_bytes() for folder in ("ciphertexts", "armoured"))
    want(base64.encodebytes(message) == text, f"armoured/{name}")
    ends = [esdk(words, names, of) for words, of in ((["decrypt"], message), (["decrypt", "--armour"], text))]
    of_message, of_text = ((ran.returncode, ran.stdout, ran.stderr) for ran in ends)
    want(of_message == of_text, f"decrypt of armoured/{name}")


def check():
    for name, (_, length, frame, names, context) in MESSAGES.items():
        check_message(name, length, frame, names, context)
        check_armoured(name, names)
    for name, (_, of, _) in REFUSED.items():
        check_refused(name, MESSAGES[of][3])
        check_armoured(name, MESSAGES[of][3])
    for name, value in manifests():
        want(json.loads((HERE / name).read_text()) == value, name)
    for folder in ("ciphertexts", "armoured"):
        there = {path.name for path in (HERE / folder).iterdir()}
        want(there == MESSAGES.keys() | REFUSED.keys(), f"the files of {folder}")
    print(f"{len(MESSAGES)} messages are opened, and {len(REFUSED)} are refused, by esdk and by opening.py;")
    print("esdk ends with the armoured ones in the same way")


if __name__ == "__main__":
    if sys.argv[1:] not in ([], ["--check"], ["--armour"]):
        sys.exit(__doc__)
    if not sys.argv[1:]:
        make()
    if sys.argv[1:] == ["--armour"]:
        armour()
    else:
        check()
