"""Keyrings, and the messages under one of them, over a library."""

import copy
import pathlib
import pickle
import tempfile
import threading
import unittest

import esdk

from support import KEY, RING, WRAPPING, named, open_message, opened, sealed


class Keyrings(unittest.TestCase):
    """Short messages under one keyring have sessions in common, one behind the other."""

    def test_one_message_after_another(self):
        """Neither pairs nor limits nor an error of one message are in the next."""
        two, pair = named("ciphertexts/two-keys"), {"b": "2"}
        limits = {"max_encrypted_data_keys": 1, "max_body_length": 4095}
        for _ in range(3):
            message = sealed(
                b"hello",
                encryption_context={"a": "1", **pair},
                required_encryption_context_keys=["b"],
                source_length=5,
                max_encrypted_data_keys=1,
            )
            self.assertEqual(opened(message, encryption_context=pair), b"hello")
            for source, words, code in (
                (message, {}, 1015),
                (message[:-1], {"encryption_context": pair}, 1010),
                (message, {"encryption_context": {"c": "1" * 70000}}, 6002),
                (two, limits, 1005),
            ):
                with self.assertRaises(esdk.EsdkError) as caught:
                    opened(source, **words)
                self.assertEqual(caught.exception.code, code)
            self.assertRaises(ValueError, sealed, b"", encryption_context=pair, frame_length=0)
            self.assertEqual(open_message(sealed(b"longer"), [WRAPPING]), (b"longer", {}))
            self.assertEqual(opened(two), named("plaintexts/5000"))

    def test_nothing_of_a_message_stays(self):
        ring, text = esdk.Keyring(RING._file), b"some text " * 400
        self.assertEqual(esdk.decrypt(source=sealed(text, encryption_context={"a": "1"}), keyring=ring)[0], text)
        [session] = ring._sessions._kept
        self.assertEqual(session.room().raw.strip(b"\0"), b"")
        self.assertIsNone(session.whole_context())
        self.assertEqual(session.take(session.room(), 1), 0)
        with self.assertRaises(esdk.CallError) as caught:
            session.finish()
        self.assertEqual(caught.exception.code, 2002)

    def test_few_sessions_are_kept_and_each_is_one_callers(self):
        sessions = esdk.Keyring(RING._file)._sessions
        taken = [sessions.take() for _ in range(20)]
        self.assertEqual(len(set(map(id, taken))), 20)
        for session in taken:
            sessions.give_back(session)
        self.assertEqual(len(sessions._kept), 16)

    def test_many_threads_with_one_keyring(self):
        right = []

        def work(seed):
            text, context = bytes([seed]) * (seed * 1000), {"seed": str(seed)}
            for _ in range(200):
                came, header = esdk.decrypt(source=sealed(text, encryption_context=context), keyring=RING)
                if (came, header.encryption_context) == (text, context):
                    right.append(seed)

        threads = [threading.Thread(target=work, args=(seed,)) for seed in range(1, 9)]
        for thread in threads:
            thread.start()
        for thread in threads:
            thread.join()
        self.assertEqual(len(right), 1600)

    def test_copies_of_a_keyring(self):
        for ring in (copy.copy(RING), copy.deepcopy(RING), pickle.loads(pickle.dumps(RING))):
            self.assertEqual(esdk.decrypt(source=sealed(b"hello"), keyring=ring)[0], b"hello")
            self.assertIsNot(ring._sessions, RING._sessions)

    def test_a_keyring_of_a_file(self):
        with tempfile.TemporaryDirectory() as folder:
            path = pathlib.Path(folder, "a.key")
            self.assertRaises(FileNotFoundError, esdk.Keyring.from_file, path)
            path.write_bytes(RING._file)
            for name in (path, str(path)):
                text, _ = esdk.decrypt(source=sealed(b"hello"), keyring=esdk.Keyring.from_file(name))
                self.assertEqual(text, b"hello")
            path.write_bytes(b"a b")
            with self.assertRaises(esdk.KeyringError) as caught:
                esdk.Keyring.from_file(path)
            self.assertEqual((caught.exception.code, caught.exception.line), (3002, "K2 BadShape 1"))

    def test_a_keyring_shows_no_key(self):
        self.assertNotIn(KEY.hex(), repr(RING) + str(RING))


if __name__ == "__main__":
    unittest.main()
