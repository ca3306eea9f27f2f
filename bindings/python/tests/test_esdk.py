"""Messages and streams, over a library: ESDK_LIBRARY=FOLDER PYTHONPATH=. python3 -m unittest discover -s tests"""

import array
import gc
import io
import os
import pathlib
import sys
import threading
import time
import tracemalloc
import unittest

import esdk
from esdk._library import Lent
from esdk._session import ANY_LENGTH, Session

from support import FAULTS, RING, WRAPPING, Pieces, Refused, by_rooms, named, vectors
from support import open_message, opened, seal_block, sealed

# A test in C has each with each.
CUTS_AND_ROOMS = ((1, 65536), (65536, 1), (15, 15), (4095, 4096), (4096, 4095), (65536, 65536))


class Messages(unittest.TestCase):
    def test_each_message_of_the_vectors(self):
        seen = 0
        for name, message, ring, text in vectors():
            seen += 1
            with self.subTest(name):
                if text is None:
                    with self.assertRaises(esdk.MessageError) as caught:
                        esdk.decrypt(source=message, keyring=ring)
                    self.assertEqual((caught.exception.code, caught.exception.line), FAULTS[name])
                    with self.assertRaises(Refused):
                        open_message(message, [WRAPPING])
                else:
                    self.assertEqual(esdk.decrypt(source=message, keyring=ring)[0], text)
        self.assertGreaterEqual(seen, 21)

    def test_each_cut_and_each_room(self):
        for name, message, ring, text in vectors():
            for cut, room in CUTS_AND_ROOMS:
                with self.subTest(name, cut=cut, room=room):
                    stream = esdk.stream(mode="d", source=Pieces(message, cut), keyring=ring)
                    came, error = by_rooms(stream, room)
                    if text is None:
                        self.assertEqual((error.code, error.line), FAULTS[name])
                    else:
                        self.assertIsNone(error)
                        self.assertEqual(came, text)

    def test_the_frames_before_a_fault_are_handed_out(self):
        text = named("plaintexts/5000")
        for name, count in (("altered-tag", 4096), ("cut", 4096), ("altered-pair", 0)):
            stream = esdk.stream(mode="d", source=named(f"ciphertexts/{name}"), keyring=RING)
            came, error = by_rooms(stream, 1000)
            self.assertEqual(came, text[:count])
            for _ in range(2):
                with self.assertRaises(esdk.MessageError) as caught:
                    stream.read(1)
                self.assertEqual(caught.exception.line, error.line)
            stream = esdk.stream(mode="d", source=named(f"ciphertexts/{name}"), keyring=RING)
            self.assertEqual(stream.read(10**9) if count else b"", text[:count])
            self.assertRaises(esdk.MessageError, stream.read, 10**9)

    def test_another_implementation_opens_what_is_sealed(self):
        context = {"b": "2", "a": "1", "empty": "", "\u00e9": "\u4e16\u754c", "a b": '=:"\\ \U0001f511'}
        for size in (0, 1, 15, 16, 17, 4096, 70000):
            text = os.urandom(size)
            for frame in (1, 16, 4096, 100000):
                if size // frame > 1000:
                    continue
                for cut in (1000, 65536):
                    message = sealed(Pieces(text, cut), encryption_context=context, frame_length=frame)
                    self.assertEqual(open_message(message, [WRAPPING]), (text, context))

    def test_what_another_implementation_sealed_is_opened(self):
        context = {"\u00e9": "\u4e16\u754c", "": "", "a": "1"}
        for size in (0, 1, 100000):
            text = os.urandom(size)
            came, header = esdk.decrypt(source=seal_block(text, WRAPPING, context), keyring=RING)
            self.assertEqual((came, header.encryption_context), (text, context))

    def test_two_messages_have_nothing_random_in_common(self):
        one, other = sealed(b""), sealed(b"")
        self.assertNotEqual(one[3:35], other[3:35])
        self.assertNotEqual(one[-56:], other[-56:])

    def test_short_sources_and_long_ones(self):
        """Up to 65,536 bytes one call makes the message, and beyond a stream does; one of many frames has no room at once."""
        text, context = os.urandom(65537), {"a": "1"}
        for size, frame in ((0, 1), (65535, 4096), (65536, 65536), (65537, 4096), (5000, 1)):
            for kind in (bytes, bytearray):
                message = sealed(kind(text[:size]), frame_length=frame, encryption_context=context)
                self.assertEqual(open_message(message, [WRAPPING]), (text[:size], context))
                came, header = esdk.decrypt(source=kind(message), keyring=RING)
                self.assertEqual((came, header.encryption_context), (text[:size], context))

    def test_required_keys(self):
        message = sealed(
            b"x", encryption_context={"tenant": "acme", "set": "a"}, required_encryption_context_keys=["tenant"]
        )
        self.assertNotIn(b"acme", message)
        self.assertIn(b"set", message)
        self.assertEqual(self.line(opened, message), "M15 NoKeyOpens")
        text, header = esdk.decrypt(source=message, keyring=RING, encryption_context={"tenant": "acme"})
        self.assertEqual((text, header.encryption_context), (b"x", {"tenant": "acme", "set": "a"}))
        words = {"encryption_context": {"tenant": "acme"}, "required_encryption_context_keys": ["set"]}
        self.assertEqual(self.line(opened, message, **words), 'M13 MissingRequired "set"')
        self.assertEqual(self.line(opened, message, encryption_context={"set": "b"}), 'M12 ContextMismatch "set"')

    def line(self, function, *words, **named_words):
        with self.assertRaises(esdk.EsdkError) as caught:
            function(*words, **named_words)
        return caught.exception.line

    def test_limits(self):
        self.assertEqual(self.line(sealed, b"12345", source_length=4), "Q10 OverDeclared 4")
        self.assertEqual(opened(sealed(b"1234", source_length=4)), b"1234")
        self.assertEqual(opened(sealed(b"123", source_length=4)), b"123")
        two = named("ciphertexts/two-keys")
        self.assertEqual(self.line(opened, two, max_encrypted_data_keys=1), "M5 TooManyDataKeys 2")
        self.assertEqual(self.line(opened, two, max_body_length=4095), "M9 UnitTooLong 4096")
        self.assertEqual(len(opened(two, max_encrypted_data_keys=2, max_body_length=4096)), 5000)
        self.assertEqual(self.line(opened, b"\x01\x80\x01\x78"), "M23 Uncommitted 0178")
        self.assertEqual(self.line(opened, b"\x01\x80\x01\x78", allow_uncommitted=True), "M10 Truncated")

    def test_what_is_refused(self):
        for file, code, line in (
            (b"aws-kms 2026 " + b"00" * 32, 3004, "K4 ReservedNamespace"),
            (b"a b", 3002, "K2 BadShape 1"),
            (b"a b c", 3003, "K3 BadKey 1"),
            (b" " * (1 << 20) + b"x", 3010, "K10 FileTooLong"),
        ):
            with self.assertRaises(esdk.KeyringError) as caught:
                esdk.Keyring(file)
            self.assertEqual((caught.exception.code, caught.exception.line), (code, line))
        for words, code, line in (
            ({"encryption_context": {"aws-crypto-x": ""}}, 6001, 'Q1 ReservedPrefix "aws-crypto-x"'),
            ({"required_encryption_context_keys": ["a"]}, 6004, 'Q4 RequiredAbsent "a"'),
            ({"encryption_context": {"a": "x" * 65536}}, 6002, "Q2 ContextTooLong 65543"),
        ):
            with self.assertRaises(esdk.RequestError) as caught:
                sealed(b"", **words)
            self.assertEqual((caught.exception.code, caught.exception.line), (code, line))
        for words in (
            {"frame_length": 0},
            {"frame_length": 2**32},
            {"frame_length": 4096.0},
            {"source_length": -1},
            {"source_length": 2**64 - 1},
            {"max_encrypted_data_keys": 0},
            {"max_encrypted_data_keys": 65536},
            {"encryption_context": {"\ud800": ""}},
        ):
            self.assertRaises(ValueError, sealed, b"", **words)
        for words in ({"max_body_length": 0}, {"max_body_length": 2**64}):
            self.assertRaises(ValueError, opened, b"", **words)
        for words in ({"frame": 1}, {"opens": True}, {"mode": "d"}):
            for source in (b"", bytes(70000)):
                self.assertRaises(TypeError, sealed, source, **words)
        self.assertRaises(ValueError, esdk.stream, mode="x", source=b"", keyring=RING)
        self.assertRaises(TypeError, sealed, "a text")
        self.assertRaises(TypeError, sealed, io.StringIO("a text"))


class Streams(unittest.TestCase):
    text = bytes(at * at // 7 % 256 for at in range(200000))

    def test_sources_in_memory(self):
        numbers = array.array("I", range(5000))
        for source in (self.text, bytearray(self.text), memoryview(self.text)[7:], memoryview(self.text)[:0], numbers):
            self.assertEqual(opened(sealed(source)), bytes(memoryview(source).cast("B")))
        self.assertRaises((TypeError, BufferError), sealed, memoryview(self.text)[::2])

    def test_a_source_in_memory_is_not_copied(self):
        source = bytearray(self.text)
        stream = esdk.stream(mode="e", source=source, keyring=RING)
        self.assertRaises(BufferError, source.append, 1)
        stream.close()
        source.append(1)

    def test_neither_source_nor_room_is_copied(self):
        """Python's own requests of memory are counted, and a copy of a text or a message would be one."""
        room = bytearray(1 << 16)
        for mode, source in (("e", bytes(1 << 23)), ("d", sealed(bytes(1 << 23)))):
            with esdk.stream(mode=mode, source=source, keyring=RING) as stream:
                tracemalloc.start()
                try:
                    while stream.readinto(room):
                        pass
                    self.assertLess(tracemalloc.get_traced_memory()[1], 1 << 15)
                finally:
                    tracemalloc.stop()

    def test_other_threads_go_on_while_the_library_works(self):
        """Python would hand its lock on after a thousand seconds only, where the call doesn't let it go."""
        session, text, seen, done = Session(RING._file), bytes(1 << 25), [], threading.Event()
        session.seal(4096, ANY_LENGTH, 0)

        def look():
            while not done.is_set():
                seen.append(time.monotonic())
                time.sleep(0.0005)

        every, thread = sys.getswitchinterval(), threading.Thread(target=look)
        sys.setswitchinterval(1000)
        try:
            thread.start()
            with Lent(text) as lent:
                begun = time.monotonic()
                session.feed(*lent)
                ended = time.monotonic()
        finally:
            done.set()
            sys.setswitchinterval(every)
            thread.join()
        self.assertTrue(any(begun < at < ended for at in seen))

    def test_the_room_may_be_the_source(self):
        text = self.text[:60000]
        place = bytearray(text)
        stream = esdk.stream(mode="e", source=place, keyring=RING)
        count = stream.readinto(place)
        self.assertEqual(count, 60000)
        message = bytes(place) + stream.read()
        # The header was written over the text's front before that was read; 14 frames and a final one are behind it.
        header = len(message) - (60000 + 14 * 32 + 40)
        self.assertEqual(open_message(message, [WRAPPING])[0], message[:header] + text[header:])

    def test_lines_and_copies_by_the_standard_library(self):
        text = b"".join(b"line %d\n" % at for at in range(20000))
        stream = esdk.stream(mode="d", source=io.BytesIO(sealed(text)), keyring=RING)
        self.assertEqual(list(io.BufferedReader(stream)), text.splitlines(keepends=True))

    def test_read_of_a_size(self):
        with esdk.stream(mode="d", source=sealed(self.text), keyring=RING) as stream:
            self.assertEqual(stream.read(0), b"")
            self.assertEqual(stream.read(1), self.text[:1])
            self.assertEqual(stream.read(150000), self.text[1:150001])
            self.assertEqual(stream.read(), self.text[150001:])
            self.assertEqual((stream.read(), stream.read(1)), (b"", b""))

    def test_the_header_before_the_text(self):
        message = sealed(self.text, encryption_context={"set": "photos"})
        source = Pieces(message, 100)
        with esdk.stream(mode="d", source=source, keyring=RING) as stream:
            self.assertEqual(stream.header.encryption_context, {"set": "photos"})
            self.assertLess(source.rest.tell(), 1000)
            self.assertEqual(stream.read(), self.text)
        stream = esdk.stream(mode="d", source=b"x", keyring=RING)
        for _ in range(2):
            with self.assertRaises(esdk.MessageError) as caught:
                _ = stream.header
            self.assertEqual(caught.exception.line, "M1 BadVersion 120")

    def test_a_with_that_is_left_early(self):
        for mode, source in (("e", self.text), ("d", sealed(self.text))):
            with self.assertRaises(esdk.NotFinished):
                with esdk.stream(mode=mode, source=source, keyring=RING) as stream:
                    stream.read(10)
            self.assertTrue(stream.closed)
            with esdk.stream(mode=mode, source=source, keyring=RING) as stream:
                stream.read(10)
                stream.close()
            with self.assertRaises(KeyError):
                with esdk.stream(mode=mode, source=source, keyring=RING) as stream:
                    raise KeyError

    def test_a_closed_stream(self):
        stream = esdk.stream(mode="e", source=b"", keyring=RING)
        for _ in range(2):
            stream.close()
        for call in (stream.read, lambda: stream.read(0), stream.__enter__, lambda: stream.readinto(bytearray(1)), lambda: next(stream)):
            self.assertRaises(ValueError, call)

    def test_a_source_without_bytes_for_now(self):
        class Slow(Pieces):
            waits = False

            def read(self, size):
                self.waits = not self.waits
                return None if self.waits else super().read(size)

        stream = esdk.stream(mode="e", source=Slow(self.text, 50000), keyring=RING)
        parts = []
        while True:
            try:
                part = stream.read(30000)
            except BlockingIOError:
                continue
            if not part:
                break
            parts.append(part)
        self.assertEqual(opened(b"".join(parts)), self.text)

    def test_a_source_that_fails(self):
        class Failing(Pieces):
            def read(self, size):
                if self.rest.tell() > 100000:
                    self.rest.seek(0, os.SEEK_END)
                    raise OSError("a bad disk")
                return super().read(size)

        stream = esdk.stream(mode="e", source=Failing(self.text, 40000), keyring=RING)
        for _ in range(3):
            with self.assertRaises(OSError):
                while stream.read(1000):
                    pass

    def test_a_second_thread_is_kept_out(self):
        inside, go_on, seen = threading.Event(), threading.Event(), []

        class Held(Pieces):
            def read(self, size):
                inside.set()
                go_on.wait(60)
                return super().read(size)

        stream = esdk.stream(mode="e", source=Held(b"hello", 5), keyring=RING)
        thread = threading.Thread(target=lambda: seen.append(stream.read()))
        thread.start()
        inside.wait(60)
        for call in (lambda: stream.read(1), stream.close):
            self.assertRaises(RuntimeError, call)
        go_on.set()
        thread.join()
        self.assertEqual(opened(seen[0]), b"hello")

    def test_many_streams_at_once(self):
        right = []

        def work(seed):
            text = bytes([seed]) * 300000
            for _ in range(5):
                if opened(sealed(text)) == text:
                    right.append(seed)

        threads = [threading.Thread(target=work, args=(seed,)) for seed in range(8)]
        for thread in threads:
            thread.start()
        for thread in threads:
            thread.join()
        self.assertEqual(len(right), 40)

    def test_streams_that_are_dropped(self):
        for _ in range(2000):
            esdk.stream(mode="e", source=b"", keyring=RING, frame_length=1 << 20).read(1)
        gc.collect()
        held = int(pathlib.Path("/proc/self/statm").read_text().split()[1]) * os.sysconf("SC_PAGE_SIZE")
        self.assertLess(held, 1 << 29)


if __name__ == "__main__":
    unittest.main()
