"""What goes wrong within a call, or is asked for twice at once: nobody is told a success then who lost something."""

import copy
import io
import os
import pathlib
import pickle
import threading
import unittest
from unittest import mock

import esdk
from esdk import _library, _stream

from support import RING, Pieces, opened, sealed

TEXT = bytes(at * at // 7 % 256 for at in range(400_000))
MESSAGE = sealed(TEXT)


class Slow(Pieces):
    """A source that has no bytes for now, at its calls of these numbers."""

    def __init__(self, held, size, pauses):
        super().__init__(held, size)
        self.calls, self.pauses = 0, pauses

    def read(self, size):
        self.calls += 1
        return None if self.calls in self.pauses else super().read(size)


def behind_pauses(call):
    while True:
        try:
            return call()
        except BlockingIOError:
            pass


class Streams(unittest.TestCase):
    def opening(self, source=MESSAGE):
        return esdk.stream(mode="d", source=source, keyring=RING)

    def test_a_source_that_raises_stop_iteration(self):
        """A loop over the stream would end by it as at the end."""
        for mode, held in (("e", TEXT), ("d", MESSAGE)):
            for all_of in (lambda stream: stream.read(), lambda stream: [piece for piece in stream]):
                source = mock.Mock(read=mock.Mock(side_effect=[held[:100_000], StopIteration, b""]))
                stream = esdk.stream(mode=mode, source=source, keyring=RING)
                for _ in range(2):
                    self.assertRaises(RuntimeError, all_of, stream)

    def test_a_source_without_bytes_within_a_call(self):
        """Who goes on behind a call that lost what it had read doesn't get the rest for the whole."""
        lines = b"".join(b"line %d\n" % at for at in range(1000))
        for reader_of, name, words in (
            (lambda stream: stream, "read", ()),
            (lambda stream: stream, "readline", ()),
            (lambda stream: stream, "readlines", ()),
            (io.BufferedReader, "read", (500_000,)),
            (io.BufferedReader, "readline", ()),
        ):
            stream = self.opening(Slow(sealed(lines), 1000, range(8, 12)))
            call = getattr(reader_of(stream), name)
            self.assertRaises(esdk.NotFinished, lambda: [behind_pauses(lambda: call(*words)) for _ in range(1001)])
            self.assertRaises(esdk.NotFinished, stream.read, 1)

    def test_where_one_may_go_on(self):
        stream = self.opening(Slow(MESSAGE, 50_000, {1, 2, 5, 6, 7, 8}))
        self.assertEqual(behind_pauses(lambda: stream.header).encryption_context, {})
        parts = [behind_pauses(lambda: stream.read(70_000)) for _ in range(3)]
        while piece := behind_pauses(lambda: next(stream, b"")):
            parts.append(piece)
        self.assertEqual(b"".join(parts), TEXT)

    def test_an_exception_within_a_call(self):
        """Memory runs out behind some of the text, and who then goes on by smaller parts gets nothing more."""
        for call in (lambda stream: stream.read(), lambda stream: stream.read(300_000)):
            stream, places = self.opening(), [_stream.unfilled(65536) for _ in range(2)]
            with mock.patch.object(_stream, "unfilled", side_effect=[*places, MemoryError]):
                self.assertRaises(MemoryError, call, stream)
            for _ in range(2):
                self.assertRaises(MemoryError, stream.read, 1)

    def test_a_source_that_fails_before_the_header(self):
        stream = self.opening(mock.Mock(read=mock.Mock(side_effect=[OSError, MESSAGE, b""])))
        for call in (lambda: stream.header, stream.read, lambda: stream.header):
            self.assertRaises(OSError, call)

    def test_a_second_thread_between_the_parts_of_a_call(self):
        real, others, stream = esdk.Stream._part, [], None

        def other():
            try:
                others.append(stream.readinto(bytearray(10)))
            except RuntimeError:
                others.append(None)

        def part(this, size):
            came = real(this, size)
            thread = threading.Thread(target=other)
            thread.start()
            thread.join()
            return came

        for call in (lambda: stream.read(), lambda: stream.read(500_000)):
            stream = self.opening()
            with mock.patch.object(esdk.Stream, "_part", part):
                self.assertEqual(call(), TEXT)
        self.assertGreaterEqual(len(others), 12)
        self.assertEqual(set(others), {None})

    def test_the_child_of_a_fork(self):
        """Both would seal under one data key, with the same IVs."""
        with esdk.stream(mode="e", source=Pieces(TEXT, 1000), keyring=RING) as stream:
            front = stream.read(5000)
            child = os.fork()
            if child == 0:
                try:
                    stream.read(5000)
                except RuntimeError:
                    os._exit(7)
                os._exit(1)
            self.assertEqual(os.waitstatus_to_exitcode(os.waitpid(child, 0)[1]), 7)
            self.assertEqual(opened(front + stream.read()), TEXT)

    def test_a_stream_is_not_copied(self):
        stream = self.opening()
        for make in (copy.copy, copy.deepcopy, pickle.dumps):
            self.assertRaises(TypeError, make, stream)
        self.assertEqual(stream.read(), TEXT)

    def test_lines(self):
        text = b"".join(b"line %d\n" % at for at in range(3000)) + b"the last"
        lines = text.splitlines(keepends=True)
        self.assertEqual(self.opening(sealed(text)).readlines(), lines)
        stream = self.opening(sealed(text))
        self.assertEqual([stream.readline(), stream.readline(3), stream.readline()], [lines[0], b"lin", b"e 1\n"])
        self.assertEqual(stream.readlines(10), lines[2:4])
        self.assertEqual(stream.readlines(None), lines[4:])
        self.assertEqual((stream.readline(), stream.readlines()), (b"", []))


class Words(unittest.TestCase):
    def test_a_context_with_a_key_twice(self):
        for twice in ([("a", "1"), ("a", "2")], (("a", "1"),), "a", 0):
            for call in (
                lambda: sealed(b"", encryption_context=twice),
                lambda: opened(MESSAGE, encryption_context=twice),
                lambda: RING.openers(MESSAGE, twice),
                lambda: esdk.decrypt_range(source=MESSAGE, keyring=RING, at=0, count=1, encryption_context=twice),
            ):
                self.assertRaises(TypeError, call)

    def test_the_library_that_is_named(self):
        """What is named from the folder where one is isn't looked for where the loader looks."""
        folder, before = pathlib.Path(_library.place()).parent, os.getcwd()
        if not folder.is_absolute():
            self.skipTest("it is the system's")
        try:
            os.chdir(folder)
            for name in (".", "./libesdk.so.1", "libesdk.so.1", str(folder)):
                with mock.patch.dict(os.environ, ESDK_LIBRARY=name):
                    self.assertEqual(_library.place(), str(folder / "libesdk.so.1"))
        finally:
            os.chdir(before)


if __name__ == "__main__":
    unittest.main()
