"""A range of a message's content, by the frames in which it lies.

Written from the text of docs/FORMAT.md.
"""

from cryptography.hazmat.primitives.ciphers.aead import AESGCM

from messages import MOST_FRAMES, Bytes, Fault, Going, block, derived_key, next_frame, units


def slots_of(header, at, count):
    """The places, counted from 0, of the units in which the range lies; a single block is one."""
    if count == 0 or not header.is_framed():
        return range(min(count, 1))
    return range(at // header.frame, (at + count - 1) // header.frame + 1)


def parts(read_from, header, data_key, at, count):
    """The parts of the range, unit by unit. `read_from` gives the message's bytes from an offset on."""
    cipher = AESGCM(derived_key(data_key, header.message_id, header.suite))
    for slot in slots_of(header, at, count):
        if not header.is_framed():
            yield block(read_from(header.length()), header, cipher, None)[at : at + count]
            return
        if slot >= MOST_FRAMES:
            raise Going
        left = read_from(header.length() + slot * (header.frame + 32))
        content, is_final = next_frame(left, header, cipher, slot + 1)
        first = slot * header.frame
        yield content[max(at - first, 0) : at + count - first]
        if is_final:
            return


def gathered(contents):
    """The contents up to the first fault, as one; how many they are; and the fault, None where there is none."""
    found = []
    try:
        for content in contents:
            found.append(content)
    except Fault as fault:
        return b"".join(found), len(found), str(fault)
    except Going:
        return b"".join(found), len(found), "M10 Truncated"
    return b"".join(found), len(found), None


def check(message, header, data_key, at, count):
    """What the range comes to by itself has to be what the judgement of the whole message says of it, where that goes so far."""
    slots = slots_of(header, at, count)
    if not slots:
        return
    found = gathered(parts(lambda offset: Bytes(message[offset:]), header, data_key, at, count))
    content, released, end = gathered(units(Bytes(message[header.length() :]), header, data_key, None))
    is_whole = end in (None, "M22 TrailingBytes")
    if slots[-1] < released or (is_whole and slots[0] < released):
        assert found[::2] == (content[at : at + count], None), (at, count, found, end)
    elif not is_whole and slots[0] <= released:
        assert found[::2] == (content[at:], end), (at, count, found, end)
