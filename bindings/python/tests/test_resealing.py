"""Messages that go to new keys, over a library. What comes out is opened by the reader of vectors/."""

import base64
import json
import os
import unittest

import esdk

from support import FAULTS, RING, WRAPPING, Pieces, Refused, by_rooms, named, opened, sealed, vectors
from support import context_text, open_message, seal_block, wrapped

# All keys of vectors/, and the new one.
OLD = [WRAPPING, ("esdk-vectors", "second", bytes(range(128, 160)))]
NEW = ("esdk-vectors", "new", bytes(range(64, 96)))
NEW_RING = esdk.Keyring(b"esdk-vectors new " + NEW[2].hex().encode())
CUTS_AND_ROOMS = ((1, 65536), (65536, 1), (15, 15), (4095, 4096), (4096, 4095), (65536, 65536))
FRAME, BESIDE = 1000, 32


def header_length(context):
    """Of a message under the new key with these pairs, by docs/FORMAT.md."""
    return 92 + len(context_text(context)) + len(wrapped(NEW, bytes(32), context))


def resealed(message, ring=RING, **words):
    return esdk.reseal(source=message, keyring=ring, new_keyring=NEW_RING, **words)[0]


class Resealing(unittest.TestCase):
    def is_moved(self, message, old, text, context):
        """It is a message of the new key alone, in frames of this length, and nothing random of the old one is in it."""
        self.assertEqual(open_message(message, [NEW]), (text, context))
        self.assertRaises(Refused, open_message, message, OLD)
        self.assertEqual(self.line(opened, message), "M15 NoKeyOpens")
        self.assertIn(f"frame-length: {FRAME}", esdk.list_header(message).split("\n"))
        frames = max(1, -(-len(text) // FRAME))
        self.assertEqual(len(message), header_length(context) + len(text) + frames * BESIDE + 8)
        self.assertNotEqual(message[3:35], old[3:35])

    def line(self, function, *words, **named_words):
        with self.assertRaises(esdk.EsdkError) as caught:
            function(*words, **named_words)
        return caught.exception.line

    def test_each_message_of_the_vectors(self):
        seen = 0
        for name, message, ring, text in vectors():
            with self.subTest(name):
                if text is None:
                    with self.assertRaises(esdk.MessageError) as caught:
                        resealed(message, ring)
                    self.assertEqual((caught.exception.code, caught.exception.line), FAULTS[name])
                    continue
                seen += 1
                context = open_message(message, OLD)[1]
                for kind in (bytes, bytearray):
                    words = {"source": kind(message), "keyring": ring, "new_keyring": NEW_RING, "frame_length": FRAME}
                    came, header = esdk.reseal(**words)
                    self.is_moved(came, message, text, context)
                    self.assertEqual(header.encryption_context, context)
        self.assertGreaterEqual(seen, 13)

    def test_each_cut_and_each_room(self):
        for name, message, ring, text in vectors():
            for cut, room in CUTS_AND_ROOMS:
                with self.subTest(name, cut=cut, room=room):
                    words = {"keyring": ring, "new_keyring": NEW_RING, "frame_length": FRAME}
                    came, error = by_rooms(esdk.stream(mode="r", source=Pieces(message, cut), **words), room)
                    if text is None:
                        self.assertEqual((error.code, error.line), FAULTS[name])
                        self.assertRaises(Refused, open_message, came, [NEW])
                    else:
                        self.assertIsNone(error)
                        self.is_moved(came, message, text, open_message(message, OLD)[1])

    def test_what_comes_before_a_fault(self):
        """Where the header is unlocked the new one, and of the text before the fault all frames but the last."""
        context = open_message(named("ciphertexts/two-keys"), OLD)[1]
        for name, count in (("altered-tag", 4), ("cut", 4), ("altered-pair", None), ("altered-header-tag", None)):
            words = {"source": named(f"ciphertexts/{name}"), "keyring": RING, "new_keyring": NEW_RING}
            stream = esdk.stream(mode="reseal", frame_length=FRAME, **words)
            came, error = by_rooms(stream, 1000)
            length = 0 if count is None else header_length(context) + count * (FRAME + BESIDE)
            self.assertEqual((len(came), error.line), (length, FAULTS[name][1]))
            self.assertRaises(Refused, open_message, came, [NEW])
            for _ in range(2):
                self.assertEqual(self.line(stream.read, 1), error.line)

    def test_there_and_back(self):
        context, text = {"set": "photos", "\u00e9": "\u4e16\u754c", "": ""}, os.urandom(200000)
        first = sealed(text, encryption_context=context)
        second = resealed(first, frame_length=70000)
        third, header = esdk.reseal(source=second, keyring=NEW_RING, new_keyring=RING)
        self.assertEqual(header.encryption_context, context)
        self.assertEqual(open_message(third, [WRAPPING]), (text, context))
        self.assertEqual(open_message(resealed(seal_block(text, WRAPPING, context)), [NEW]), (text, context))
        self.assertEqual(len({first[3:35], second[3:35], third[3:35], resealed(first)[3:35]}), 4)

    def test_required_keys(self):
        """Pairs that are only authenticated stay so."""
        words = {"encryption_context": {"tenant": "acme", "set": "a"}, "required_encryption_context_keys": ["tenant"]}
        message, given = sealed(b"x", **words), {"encryption_context": {"tenant": "acme"}}
        self.assertEqual(self.line(resealed, message), "M15 NoKeyOpens")
        moved, header = esdk.reseal(source=message, keyring=RING, new_keyring=NEW_RING, **given)
        self.assertEqual(header.encryption_context, {"tenant": "acme", "set": "a"})
        self.assertNotIn(b"acme", moved)
        self.assertIn(b"set", moved)
        text, header = esdk.decrypt(source=moved, keyring=NEW_RING, **given)
        self.assertEqual((text, header.encryption_context), (b"x", {"tenant": "acme", "set": "a"}))
        self.assertEqual(self.line(esdk.decrypt, source=moved, keyring=NEW_RING), "M15 NoKeyOpens")
        wanted = {**given, "required_encryption_context_keys": ["set"]}
        self.assertEqual(self.line(resealed, message, **wanted), 'M13 MissingRequired "set"')
        self.assertEqual(self.line(resealed, message, encryption_context={"set": "b"}), 'M12 ContextMismatch "set"')

    def test_limits_are_those_of_the_old_message(self):
        two = named("ciphertexts/two-keys")
        self.assertEqual(self.line(resealed, two, max_encrypted_data_keys=1), "M5 TooManyDataKeys 2")
        self.assertEqual(self.line(resealed, two, max_body_length=4095), "M9 UnitTooLong 4096")
        moved = resealed(two, max_encrypted_data_keys=2, max_body_length=4096, frame_length=10000)
        self.assertEqual(open_message(moved, [NEW])[0], named("plaintexts/5000"))
        self.assertEqual(self.line(resealed, b"\x01\x80\x01\x78"), "M23 Uncommitted 0178")
        self.assertEqual(self.line(resealed, b"\x01\x80\x01\x78", allow_uncommitted=True), "M10 Truncated")

    def test_what_is_refused(self):
        for words in ({"frame_length": 0}, {"frame_length": 2**32}, {"max_body_length": 0}, {"max_encrypted_data_keys": 0}):
            for source in (b"", bytes(70000)):
                self.assertRaises(ValueError, resealed, source, **words)
        for mode in ("r", "reseal"):
            self.assertRaises(TypeError, esdk.stream, mode=mode, source=b"", keyring=RING)
        for mode in ("e", "d"):
            self.assertRaises(TypeError, esdk.stream, mode=mode, source=b"", keyring=RING, new_keyring=RING)
        self.assertRaises(TypeError, esdk.encrypt, source=b"", keyring=RING, new_keyring=RING)
        self.assertRaises(TypeError, esdk.decrypt, source=sealed(b""), keyring=RING, new_keyring=RING)
        self.assertRaises(TypeError, esdk.reseal, source=b"", keyring=RING)

    def test_a_new_keyring_that_does_not_wrap(self):
        key = {"namespace": "esdk-vectors", "name": "new", "key": base64.b64encode(NEW[2]).decode(), "retired": True}
        retired = esdk.Keyring(json.dumps({"version": 2, "ring": {"raw": key}}).encode())
        with self.assertRaises(esdk.RequestError) as caught:
            esdk.reseal(source=sealed(b"hello"), keyring=RING, new_keyring=retired)
        self.assertEqual((caught.exception.code, caught.exception.line), (6005, "Q5 NoGenerator"))
        self.assertEqual(self.line(esdk.reseal, source=b"x", keyring=RING, new_keyring=retired), "M1 BadVersion 120")
        text = esdk.decrypt(source=resealed(sealed(b"hello")), keyring=retired)[0]
        self.assertEqual(text, b"hello")

    def test_the_new_keys_are_not_in_the_next_message(self):
        ring = esdk.Keyring(RING._file)
        for _ in range(3):
            moved = resealed(sealed(b"hello"), ring)
            self.assertEqual(self.line(esdk.decrypt, source=moved, keyring=ring), "M15 NoKeyOpens")
            message, _ = esdk.encrypt(source=b"hello", keyring=ring)
            self.assertEqual(open_message(message, [WRAPPING]), (b"hello", {}))
            self.assertRaises(Refused, open_message, message, [NEW])
            self.assertRaises(esdk.MessageError, resealed, moved, ring)
        self.assertEqual(len(ring._sessions._kept), 1)

    def test_a_stream(self):
        message = sealed(bytes(200000), encryption_context={"set": "photos"})
        source = Pieces(message, 100)
        words = {"mode": "r", "keyring": RING, "new_keyring": NEW_RING}
        with esdk.stream(source=source, **words) as stream:
            self.assertEqual(stream.header.encryption_context, {"set": "photos"})
            self.assertLess(source.rest.tell(), 1000)
            moved = b"".join(stream)
            self.assertEqual(stream.read(), b"")
        self.assertEqual(open_message(moved, [NEW]), (bytes(200000), {"set": "photos"}))
        with self.assertRaises(esdk.NotFinished):
            with esdk.stream(source=message, **words) as stream:
                stream.read(1000)
        self.assertTrue(stream.closed)


if __name__ == "__main__":
    unittest.main()
