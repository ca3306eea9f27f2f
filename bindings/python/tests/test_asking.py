"""What is asked of a message without opening it, over a library."""

import base64
import json
import unittest

import esdk

from support import KEY, RING, named, sealed

# By docs/FORMAT.md, "The listing", of ciphertexts/two-keys.
LISTING = """\
version: 2
suite: 0478
message-id: ab21ae9181382711186563d2a944a8d9ec4d9ca649c9911590b521ff54da934f
context: {"purpose":"test"}
data-keys: 2
data-key 1: provider=6573646b2d766563746f7273 info=6669727374000000800000000c6258ce87b4e2cd4de9046544 \
ciphertext=1cd7501ff9d2b31ea825099aebee180baf6f4d4bb0eb79b3776b878ff4e20e0691bffeaca8e42eb350bbc178db426b02
data-key 2: provider=6573646b2d766563746f7273 info=7365636f6e64000000800000000c88f0baa1bbf9093eb1ac52b3 \
ciphertext=14d7d72e683bc1e16b0db77a1eb98b7ee42805db6e8a8b243c2359620c8342a37e605b3f8939f9e0ea9511da31ce2557
content: framed
frame-length: 4096
commitment: f854fa6c3c6e0b5299fa86c8a210514b4413f29fc0ae863c61b0e6e392e5c14f
tag: b0b2ac20492c3fe5b9c992bfe816091b
"""
OLD = b"\x01\x80\x01\x78"


def raw(name, key, **more):
    return {"raw": {"namespace": "esdk-vectors", "name": name, "key": base64.b64encode(key).decode(), **more}}


class Asking(unittest.TestCase):
    def line(self, function, *words, **named_words):
        with self.assertRaises(esdk.MessageError) as caught:
            function(*words, **named_words)
        return caught.exception.code, caught.exception.line

    def test_a_listing(self):
        message = named("ciphertexts/two-keys")
        for each in (message, bytearray(message), memoryview(message), message[:292]):
            self.assertEqual(esdk.list_header(each), LISTING)
        for end in (0, 1, 100, 291):
            self.assertEqual(self.line(esdk.list_header, message[:end]), (1010, "M10 Truncated"))
        self.assertEqual(self.line(esdk.list_header, b"x"), (1001, "M1 BadVersion"))
        self.assertEqual(self.line(esdk.list_header, OLD), (1023, "M23 Uncommitted"))
        self.assertEqual(self.line(esdk.list_header, OLD, uncommitted=True), (1010, "M10 Truncated"))
        self.assertRaises(TypeError, esdk.list_header, "a text")

    def test_a_long_listing(self):
        value = "x" * 60000
        self.assertIn(f'\ncontext: {{"a":"{value}"}}\n', esdk.list_header(sealed(b"", encryption_context={"a": value})))

    def test_the_leaves_that_open_a_message(self):
        children = [raw("second", bytes(range(128, 160))), raw("first", KEY, retired=True)]
        tree = {"multi": {"generator": raw("third", bytes(32)), "children": children}}
        ring = esdk.Keyring(json.dumps({"version": 2, "ring": tree}).encode())
        wanted = {"two-keys": [2, 3], "one-byte": [3], "altered-header-tag": [], "altered-content": [3]}
        for name, leaves in wanted.items():
            self.assertEqual(ring.openers(named(f"ciphertexts/{name}")), leaves)
        message = sealed(
            b"", encryption_context={"tenant": "acme", "set": "a"}, required_encryption_context_keys=["tenant"]
        )
        acme = {"tenant": "acme"}
        for given, leaves in ((None, []), (acme, [3]), ({**acme, "set": "a"}, [3]), ({"tenant": "b"}, [])):
            self.assertEqual(ring.openers(message, encryption_context=given), leaves)
        self.assertEqual(self.line(ring.openers, message, {"set": "b"}), (1012, "M12 ContextMismatch"))
        self.assertEqual(self.line(ring.openers, message[:50]), (1010, "M10 Truncated"))
        self.assertEqual(self.line(RING.openers, OLD), (1023, "M23 Uncommitted"))
        self.assertEqual(esdk.decrypt(source=named("ciphertexts/two-keys"), keyring=ring)[0], named("plaintexts/5000"))


if __name__ == "__main__":
    unittest.main()
