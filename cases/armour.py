"""Base64 armour: bytes as lines of text, and such text as bytes.

Written from the text of docs/FORMAT.md.
"""

import base64
import binascii

from messages import Fault

LINE_BYTES = 57
MOST_LINES = 128
GROUP = 4
LINE_ENDS = b"\n\r"


def armour_text(bytes_):
    """The whole text of these bytes: lines of 76 characters, the last one of 1 to 76."""
    text = base64.b64encode(bytes_)
    return b"".join(text[at : at + 76] + b"\n" for at in range(0, len(text), 76))


def decoded(group):
    """The 1 to 3 bytes of which these four characters are the base64; else None."""
    try:
        bytes_ = base64.b64decode(group, validate=True)
    except binascii.Error:
        return None
    return bytes_ if bytes_ and base64.b64encode(bytes_) == group else None


class Armour:
    """Puts what is written as lines of text, each once its last byte is there: the lines that one write fills go on
    together, at most 128 of them."""

    def __init__(self, put):
        self.put_text = put
        self.held = b""

    def put(self, bytes_):
        self.held += bytes_
        while len(self.held) >= LINE_BYTES:
            full = min(len(self.held) // LINE_BYTES, MOST_LINES) * LINE_BYTES
            self.put_text(armour_text(self.held[:full]))
            self.held = self.held[full:]

    def finish(self):
        if self.held:
            self.put_text(armour_text(self.held))


class Unarmour:
    """Gives the bytes of whole groups of a text, in the pieces in which it comes."""

    def __init__(self, read):
        self.read_text = read
        self.open = b""
        self.groups = 0
        self.is_padded = False
        self.fault = None

    def read(self):
        """The bytes of the next groups, none at the end. A bad group is raised once those before it were given."""
        found = b""
        while not found:
            if self.fault:
                raise self.fault
            piece = self.read_text()
            if not piece:
                return self.end()
            found = b"".join(self.groups_of(piece))
        return found

    def end(self):
        if self.open:
            raise self.bad()
        return b""

    def groups_of(self, piece):
        """The bytes of each group that ends in the piece, up to the first bad one."""
        for character in piece:
            if character in LINE_ENDS:
                continue
            self.open += bytes([character])
            bytes_ = decoded(self.open)
            if self.is_padded or (len(self.open) == GROUP and bytes_ is None):
                self.fault = self.bad()
                return
            if len(self.open) == GROUP:
                self.is_padded = self.open.endswith(b"=")
                self.groups += 1
                self.open = b""
                yield bytes_

    def bad(self):
        return Fault(f"M27 BadArmour {self.groups + 1}")
