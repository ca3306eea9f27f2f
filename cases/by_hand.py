"""What was worked out by hand from the text of docs/FORMAT.md, for the tables of cases. The judge has to agree."""

from forms import shown
from tables import up_to

# Where the units of a message end, and how much of its text is released by then.
UNITS = {
    "nine": (b"123456789", ((205, 4), (241, 8), (282, 9))),
    "eight": (b"12345678", ((205, 4), (249, 8))),
    "eight-and-empty": (b"12345678", ((205, 4), (241, 8), (281, 8))),
    "empty": (b"", ((209, 0),)),
    "block": (b"hello", ((210, 5),)),
    "legacy-nine": (b"123456789", ((175, 4), (211, 8), (252, 9))),
    "legacy-hello": (b"hello", ((184, 5),)),
    "legacy-block": (b"hello", ((180, 5),)),
}

# `nine` of 0-values.cases with the lowest bit of one byte changed, from the first offset to before the second: the line, how
# many bytes of the text are released, and the offset behind the byte with which the fault comes.
ALTERED_NINE = (
    (0, 1, "M1 BadVersion 3", 0, 1),
    (1, 2, "M2 UnsupportedSuite 0578", 0, 3),
    (2, 3, "M2 UnsupportedSuite 0479", 0, 3),
    (3, 35, "M16 Commitment", 0, 169),
    (35, 36, "M10 Truncated", 0, 282),
    (36, 37, "M3 BadContext Length", 0, 38),
    (37, 38, "M10 Truncated", 0, 282),
    (38, 39, "M4 NoDataKeys", 0, 39),
    (39, 41, "M10 Truncated", 0, 282),
    (41, 43, "M15 NoKeyOpens", 0, 169),
    (43, 45, "M10 Truncated", 0, 282),
    (45, 66, "M15 NoKeyOpens", 0, 169),
    (66, 67, "M10 Truncated", 0, 282),
    (67, 68, "M6 BadContentType 0", 0, 118),
    (68, 116, "M15 NoKeyOpens", 0, 169),
    (116, 117, "M6 BadContentType 3", 0, 117),
    (117, 121, "M17 HeaderTag", 0, 169),
    (121, 153, "M16 Commitment", 0, 169),
    (153, 169, "M17 HeaderTag", 0, 169),
    (169, 170, "M18 WrongSequence 1 16777217", 0, 173),
    (170, 171, "M18 WrongSequence 1 65537", 0, 173),
    (171, 172, "M18 WrongSequence 1 257", 0, 173),
    (172, 173, "M18 WrongSequence 1 0", 0, 173),
    (173, 205, "M20 UnitTag 1", 0, 205),
    (205, 206, "M18 WrongSequence 2 16777218", 4, 209),
    (206, 207, "M18 WrongSequence 2 65538", 4, 209),
    (207, 208, "M18 WrongSequence 2 258", 4, 209),
    (208, 209, "M18 WrongSequence 2 3", 4, 209),
    (209, 241, "M20 UnitTag 2", 4, 241),
    (241, 242, "M18 WrongSequence 3 4278190079", 8, 245),
    (242, 243, "M18 WrongSequence 3 4294901759", 8, 245),
    (243, 244, "M18 WrongSequence 3 4294967039", 8, 245),
    (244, 245, "M18 WrongSequence 3 4294967294", 8, 245),
    (245, 246, "M18 WrongSequence 3 16777219", 8, 249),
    (246, 247, "M18 WrongSequence 3 65539", 8, 249),
    (247, 248, "M18 WrongSequence 3 259", 8, 249),
    (248, 249, "M18 WrongSequence 3 2", 8, 249),
    (249, 261, "M20 UnitTag 3", 8, 282),
    (261, 262, "M19 FinalTooLong 16777217", 8, 265),
    (262, 263, "M19 FinalTooLong 65537", 8, 265),
    (263, 264, "M19 FinalTooLong 257", 8, 265),
    (264, 265, "M20 UnitTag 3", 8, 281),
    (265, 282, "M20 UnitTag 3", 8, 282),
)

# `legacy-nine`, a message of format 1.0, in the same way. Its header has 111 bytes, and its authentication 28.
ALTERED_LEGACY = (
    (0, 1, "M1 BadVersion 0", 0, 1),
    (1, 2, "M24 BadType 129", 0, 2),
    (2, 3, "M2 UnsupportedSuite 0078", 0, 4),
    (3, 4, "M2 UnsupportedSuite 0179", 0, 4),
    (4, 20, "M17 HeaderTag", 0, 139),
    (20, 21, "M10 Truncated", 0, 252),
    (21, 22, "M3 BadContext Length", 0, 23),
    (22, 23, "M10 Truncated", 0, 252),
    (23, 24, "M4 NoDataKeys", 0, 24),
    (24, 26, "M10 Truncated", 0, 252),
    (26, 28, "M15 NoKeyOpens", 0, 139),
    (28, 30, "M10 Truncated", 0, 252),
    (30, 51, "M15 NoKeyOpens", 0, 139),
    (51, 52, "M10 Truncated", 0, 252),
    (52, 53, "M6 BadContentType 0", 0, 103),
    (53, 101, "M15 NoKeyOpens", 0, 139),
    (101, 102, "M6 BadContentType 3", 0, 102),
    (102, 103, "M25 BadReserved 16777216", 0, 106),
    (103, 104, "M25 BadReserved 65536", 0, 106),
    (104, 105, "M25 BadReserved 256", 0, 106),
    (105, 106, "M25 BadReserved 1", 0, 106),
    (106, 107, "M26 BadIvLength 13", 0, 107),
    (107, 139, "M17 HeaderTag", 0, 139),
    (139, 140, "M18 WrongSequence 1 16777217", 0, 143),
    (140, 141, "M18 WrongSequence 1 65537", 0, 143),
    (141, 142, "M18 WrongSequence 1 257", 0, 143),
    (142, 143, "M18 WrongSequence 1 0", 0, 143),
    (143, 175, "M20 UnitTag 1", 0, 175),
    (175, 176, "M18 WrongSequence 2 16777218", 4, 179),
    (176, 177, "M18 WrongSequence 2 65538", 4, 179),
    (177, 178, "M18 WrongSequence 2 258", 4, 179),
    (178, 179, "M18 WrongSequence 2 3", 4, 179),
    (179, 211, "M20 UnitTag 2", 4, 211),
    (211, 212, "M18 WrongSequence 3 4278190079", 8, 215),
    (212, 213, "M18 WrongSequence 3 4294901759", 8, 215),
    (213, 214, "M18 WrongSequence 3 4294967039", 8, 215),
    (214, 215, "M18 WrongSequence 3 4294967294", 8, 215),
    (215, 216, "M18 WrongSequence 3 16777219", 8, 219),
    (216, 217, "M18 WrongSequence 3 65539", 8, 219),
    (217, 218, "M18 WrongSequence 3 259", 8, 219),
    (218, 219, "M18 WrongSequence 3 2", 8, 219),
    (219, 231, "M20 UnitTag 3", 8, 252),
    (231, 232, "M19 FinalTooLong 16777217", 8, 235),
    (232, 233, "M19 FinalTooLong 65537", 8, 235),
    (233, 234, "M19 FinalTooLong 257", 8, 235),
    (234, 235, "M20 UnitTag 3", 8, 251),
    (235, 252, "M20 UnitTag 3", 8, 252),
)


def size_of(message):
    return UNITS[message][1][-1][0]


def released_by(message, size):
    """What the front of the message of this size releases."""
    text, units = UNITS[message]
    return text[: max((count for end, count in units if end <= size), default=0)]


def row_of(rows, offset):
    """The fault of the message that is altered at the offset: its line, how much is released, and where it comes."""
    return next(row[2:] for row in rows if row[0] <= offset < row[1])


def refused(taken, line, output=b""):
    """How a decryption ends at a fault of the message."""
    return f"status 1 taken {taken} drawn 0 tree yes output {shown(output)} files - report line esdk: {line}"


def fault_ends(rows, offset, piece, text):
    """How the message that is altered at the offset ends, in pieces of so many bytes, or in one piece where none is said."""
    line, released, end = row_of(rows, offset)
    size = rows[-1][1]
    return refused(up_to(end, piece or size, size), line, text[:released])


def stopped(taken, output, line="X1 SourceFault", drawn=0):
    """How a run ends in which a read or a put failed."""
    return f"status 4 taken {taken} drawn {drawn} tree yes output {shown(output)} files - report line esdk: {line}"
