"""A range of a message's text, over a library. What is expected are parts of the texts of vectors/."""

import io
import mmap
import random
import tempfile
import unittest

import esdk

from support import KEY, RING, WRAPPING, named, seal_block, sealed, vectors


class Reads(io.BytesIO):
    """A file object that counts what is read of it, and gives few bytes at a time."""

    count = 0

    def read(self, size=-1):
        piece = super().read(min(size, 1000) if size >= 0 else size)
        self.count += len(piece)
        return piece


class Ranging(unittest.TestCase):
    def fails(self, message, at, count, ring=RING, **words):
        with self.assertRaises(esdk.EsdkError) as caught:
            esdk.decrypt_range(source=message, keyring=ring, at=at, count=count, **words)
        return caught.exception.code, caught.exception.line

    def test_ranges_of_each_vector(self):
        some = random.Random(7)
        for name, message, ring, text in vectors():
            if text is None:
                continue
            for _ in range(20):
                at = some.randrange(len(text) + 1)
                count = some.choice((0, 1, 4095, 4096, 4097, some.randrange(len(text) + 2), 2**62))
                whole = text[at : at + count]
                for source in (message, bytearray(message), io.BytesIO(message)):
                    try:
                        came = esdk.decrypt_range(source=source, keyring=ring, at=at, count=count)
                    except esdk.MessageError as error:
                        self.assertTrue(whole == b"" and error.code in (1010, 1018), (name, at, count))
                    else:
                        self.assertEqual(came, whole, (name, at, count))

    def test_no_more_is_read_than_the_header_and_the_frames(self):
        text = random.Random(8).randbytes(1_000_000)
        source = Reads(b"before" + sealed(text, frame_length=1000))
        source.seek(6)
        came = esdk.decrypt_range(source=source, keyring=RING, at=500_500, count=2000)
        self.assertEqual(came, text[500_500:502_500])
        self.assertLessEqual(source.count, (1 << 16) + 3 * 1032 + 8)

    def test_files_of_each_kind(self):
        text = random.Random(9).randbytes(100_000)
        with tempfile.TemporaryFile() as file:
            file.write(b"before" + sealed(text))
            file.flush()
            for source in (file, mmap.mmap(file.fileno(), 0)):
                source.seek(6)
                for at in (50_000, 0, 99_999):
                    came = esdk.decrypt_range(source=source, keyring=RING, at=at, count=9000)
                    self.assertEqual(came, text[at : at + 9000])
                self.assertIn(self.fails(source, 2**62, 1)[0], (1010, 1018))

    def test_a_source_without_bytes_for_now(self):
        """It isn't at its end, and the message isn't cut."""
        message = sealed(bytes(100_000))
        for pause in (1, 2, 70, 75):
            source, calls = Reads(message), iter(range(1, 200))
            source.read = lambda size: None if next(calls) == pause else Reads.read(source, size)
            with self.assertRaises(BlockingIOError):
                esdk.decrypt_range(source=source, keyring=RING, at=50_000, count=9000)
        self.assertRaises(TypeError, esdk.decrypt_range, source=io.StringIO("a text"), keyring=RING, at=0, count=1)

    def test_a_message_that_ends_behind_a_frame(self):
        message = sealed(bytes(range(100)), frame_length=10)
        frames = len(message) - 10 * 42 - 8
        cut = message[: frames + 4 * 42]
        self.assertEqual(esdk.decrypt_range(source=cut, keyring=RING, at=30, count=10), bytes(range(30, 40)))
        for at, count in ((30, 11), (40, 1), (0, 100)):
            self.assertEqual(self.fails(cut, at, count), (1010, "M10 Truncated"))

    def test_a_long_header(self):
        message = sealed(b"hello" * 100, encryption_context={"a": "x" * 60000, "b": "y" * 5000}, frame_length=10)
        self.assertEqual(esdk.decrypt_range(source=message, keyring=RING, at=5, count=30), b"hello" * 6)

    def test_where_a_range_stands(self):
        message = sealed(bytes(100), frame_length=10)
        found = esdk.span(message[:1000], 35, 10)
        header = len(message) - 10 * 42 - 8
        self.assertEqual(found, esdk.Span(header, 10, header + 3 * 42, 2 * 42 + 8))
        self.assertEqual(esdk.span(message, 0, 1), esdk.Span(header, 10, header, 42 + 8))
        block = seal_block(b"hello", WRAPPING, {})
        header = len(block) - 5 - 36
        self.assertEqual(esdk.span(block, 3, 1), esdk.Span(header, 0, header, 2**64 - 1))
        self.assertEqual(esdk.decrypt_range(source=block, keyring=RING, at=1, count=3), b"ell")
        with self.assertRaises(esdk.MessageError) as caught:
            esdk.span(message[: header - 1], 0, 1)
        self.assertEqual(caught.exception.code, 1010)
        for at, count in ((-1, 1), (0, 0), (2**62 + 1, 1)):
            self.assertRaises(ValueError, esdk.span, message, at, count)

    def test_faults(self):
        text = bytes(range(100))
        message = sealed(text, frame_length=10, encryption_context={"set": "a"})
        slot = len(message) - 10 * 42 - 8 + 3 * 42
        altered = message[: slot + 20] + bytes([message[slot + 20] ^ 1]) + message[slot + 21 :]
        moved = message[:slot] + message[slot + 42 : slot + 84] + message[slot + 42 :]
        self.assertEqual(self.fails(altered, 30, 10), (1020, "M20 UnitTag"))
        self.assertEqual(self.fails(altered, 25, 30), (1020, "M20 UnitTag"))
        self.assertEqual(self.fails(moved, 30, 1), (1018, "M18 WrongSequence"))
        self.assertEqual(self.fails(message[: slot + 41], 30, 1), (1010, "M10 Truncated"))
        self.assertEqual(self.fails(message[:50], 30, 1), (1010, "M10 Truncated"))
        self.assertEqual(self.fails(message, 30, 1, encryption_context={"set": "b"}), (1012, "M12 ContextMismatch"))
        required = {"required_encryption_context_keys": ["set"]}
        self.assertEqual(self.fails(message, 30, 1, **required), (1013, "M13 MissingRequired"))
        other = esdk.Keyring.raw_aes(key_namespace="a", key_name="b", wrapping_key=KEY)
        self.assertEqual(self.fails(message, 30, 1, ring=other), (1015, "M15 NoKeyOpens"))
        for at, count in ((20, 10), (40, 60), (99, 1000)):
            for source in (altered, moved):
                came = esdk.decrypt_range(source=source, keyring=RING, at=at, count=count)
                self.assertEqual(came, text[at : at + count])
        self.assertEqual(esdk.decrypt(source=message, keyring=RING)[0], text)

    def test_bytes_that_were_not_passed(self):
        message = sealed(bytes(100), frame_length=10)
        found = esdk.span(message, 30, 10)
        part = message[found.offset : found.offset + 42]
        front = message[: found.header_length]
        session = RING._sessions.take()
        self.assertEqual(session.range(front, found.offset, part, False, False, 30, 10), bytes(10))
        for front_end, part_end in ((found.header_length, 41), (found.header_length - 1, 42)):
            with self.assertRaises(esdk.CallError) as caught:
                session.range(front[:front_end], found.offset, part[:part_end], False, False, 30, 10)
            self.assertEqual(caught.exception.code, 2010)
        RING._sessions.give_back(session)


if __name__ == "__main__":
    unittest.main()
