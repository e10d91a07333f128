"""The journal behind an image, read and made as docs/FORMATS.md says: for tests that stop a store within a writing of it."""
import struct

MAGIC = int.from_bytes(b"WBL-JRN1", "big")
LINE = 64


def words_of(held):
    return list(struct.unpack(f"<{len(held) // 8}Q", held))


def bytes_of(words):
    return struct.pack(f"<{len(words)}Q", *words)


def image_bytes(held):
    """How many bytes the image has, by its superblock: a line, four for each place, and those of each slot."""
    version, slots, places = struct.unpack_from("<3Q", held, 8)
    return LINE * (1 + 4 * places + slots * (version >> 8 or (2 if version == 3 else 1)))


def tail_of(held):
    """How many words the image has and how many the journal, if there is one."""
    if len(held) < 2 * LINE or len(held) % 8:
        return None
    magic, words, room, turn, *rest = words_of(held[-LINE:])
    if magic not in (0, MAGIC) or turn > 1 or any(rest) or 8 * (words + room + 8) != len(held):
        return None
    return words, room


def with_journal(image, room=None):
    """The image with a journal behind it in which nothing is yet: by default the smallest that a store takes."""
    words = len(image) // 8
    room = room or (words // 8 * 9 + 23) // 8 * 8
    return image + bytes(8 * room) + bytes_of([0, words, room, 0, 0, 0, 0, 0])


def has_no_journal(held):
    """Whether the file ends with its image."""
    return len(held) == image_bytes(held)


def shorten(file):
    """Gives a file that was closed the smallest journal, which a few commits fill."""
    with open(file, "rb") as it:
        held = it.read()
    if has_no_journal(held):
        with open(file, "wb") as it:
            it.write(with_journal(held))


def is_append(held, offset, count):
    """Whether a write of that many bytes there appends an entry to the journal of a file that holds this."""
    found = tail_of(held)
    return found is not None and 8 * found[0] <= offset and offset + count <= 8 * sum(found)
