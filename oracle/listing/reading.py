"""A second reading of document 01 for the listing program, with the hash slots of document 02, No. 5: what it prints for all
that it reads; and of document 02, No. 9, for the table of `hbc locate --all`.

Written from the two documents and not from our definitions or code; only the standard library is used.
"""

from itertools import accumulate

LAYOUTS = {0: None, 1: (0, 0), 2: (1, 0), 3: (0, 1), 4: (1, 1)}  # None is modern; else big integers, function sources
MAGIC = 0x1F1903C103BC1FC6
IMAGE_MOST = 65536
SIZE_LIMIT = 67108864
FOOTER = 20


class Refused(Exception):
    """The number of a refusal."""


def word(data, at):
    return int.from_bytes(data[at : at + 4], "little")


def bits(number, at, width):
    return number >> at & (1 << width) - 1


def debug_position(layout):
    if LAYOUTS[layout] is None:
        return 108
    big_integers, function_sources = LAYOUTS[layout]
    return 92 + 8 * big_integers + 4 * function_sources


class Image:
    """An image under a layout, judged as it is read: 1 to 6, all of one number before the next."""

    def __init__(self, data, layout):
        self.data = data
        self.layout = layout
        self.modern = LAYOUTS[layout] is None
        if len(data) < 148 or len(data) > SIZE_LIMIT:
            raise Refused(1)
        if int.from_bytes(data[:8], "little") != MAGIC:
            raise Refused(2)
        self.place_sections()
        self.identifiers = self.judged_kinds()
        self.strings = self.judged_strings()
        self.functions = self.judged_functions()

    def place_sections(self):
        data = self.data
        self.record_size = 12 if self.modern else 16
        functions, kinds, identifiers, strings, overflows, storage_size = (word(data, at) for at in range(40, 64, 4))
        self.kinds_at = 128 + functions * self.record_size
        self.hashes_at = self.kinds_at + 4 * kinds
        self.small_at = self.hashes_at + 4 * identifiers
        self.overflow_at = self.small_at + 4 * strings
        self.storage_at = self.overflow_at + 8 * overflows
        self.storage_size = storage_size
        self.tail = -(-(self.storage_at + storage_size) // 4) * 4
        if self.tail > len(data) - FOOTER:
            raise Refused(3)

    def judged_kinds(self):
        flags = []
        for k in range(word(self.data, 44)):
            kind = word(self.data, self.kinds_at + 4 * k)
            run = bits(kind, 0, 31)
            # A run that covers more than there can be is not laid out.
            if run > len(self.data):
                raise Refused(4)
            flags += [bool(bits(kind, 31, 1))] * run
        if len(flags) != word(self.data, 52) or sum(flags) != word(self.data, 48):
            raise Refused(4)
        return flags

    def judged_strings(self):
        """The strings as pairs: wide or not, and the units."""
        entries = [word(self.data, self.small_at + 4 * i) for i in range(word(self.data, 52))]
        long = [entry for entry in entries if bits(entry, 24, 8) == 255]
        if len(long) != word(self.data, 56):
            raise Refused(5)
        if any(bits(entry, 1, 23) != k for k, entry in enumerate(long)):
            raise Refused(5)
        pairs = iter(range(self.overflow_at, self.storage_at, 8))
        strings = []
        for entry in entries:
            wide, offset, length = bits(entry, 0, 1), bits(entry, 1, 23), bits(entry, 24, 8)
            if length == 255:
                pair = next(pairs)
                offset, length = word(self.data, pair), word(self.data, pair + 4)
            size = 2 * length if wide else length
            if offset + size > self.storage_size:
                raise Refused(5)
            stored = self.data[self.storage_at + offset : self.storage_at + offset + size]
            if not wide and any(byte > 0x7F for byte in stored):
                raise Refused(5)
            units = [stored[j] | stored[j + 1] << 8 for j in range(0, size, 2)] if wide else list(stored)
            strings.append((bool(wide), units))
        return strings

    def judged_functions(self):
        """The functions as triples: overflowed or not, body start, size."""
        end = len(self.data) - FOOTER
        header_size = 16 if self.modern else 20
        functions, headers = [], []

        def check(start, size):
            if start < self.tail or start + size > end:
                raise Refused(6)

        for i in range(word(self.data, 40)):
            at = 128 + i * self.record_size
            record = int.from_bytes(self.data[at : at + self.record_size], "little")
            large = bool(record >> (88 if self.modern else 120) & 0x20)
            if large:
                if self.modern:
                    pointer = bits(record, 0, 24) | bits(record, 46, 8) << 24
                else:
                    pointer = bits(record, 0, 16) + bits(record, 64, 25) * 65536
                check(pointer, header_size)
                headers.append(pointer)
                start = word(self.data, pointer)
                size = word(self.data, pointer + (12 if self.modern else 8))
                info = 0 if self.modern else word(self.data, pointer + 16)
            else:
                start = bits(record, 0, 25)
                size = bits(record, 32, 14 if self.modern else 15)
                info = 0 if self.modern else bits(record, 64, 25)
            check(start, size)
            if info:
                check(info, 0)
            functions.append((large, start, size))
        debug = word(self.data, debug_position(self.layout))
        if debug:
            check(debug, 0)
        owner = {}
        for number, pointer in enumerate(headers):
            for byte in range(pointer, pointer + header_size):
                if owner.setdefault(byte, number) != number:
                    raise Refused(6)
        if any(byte in owner for _, start, size in functions for byte in range(start, start + size)):
            raise Refused(6)
        return functions


def stored_hash(image, rank):
    """A hash slot as it stands there, right or stale: a number in eight hex digits."""
    return f"{word(image.data, image.hashes_at + 4 * rank):08x}"


def slots(image):
    """The last word of each string's line (document 02, No. 5): the hash slot of an identifier, by its rank, which is the number of
    identifiers with a lower id; `-` for a plain string."""
    ranks = [0, *accumulate(image.identifiers)]
    for is_identifier, rank in zip(image.identifiers, ranks):
        yield stored_hash(image, rank) if is_identifier else "-"


def lines(data, slots=slots):
    """The lines for an input: one `IM` record, and nothing after it."""
    if len(data) < 7 or data[:2] != b"IM" or data[2] not in LAYOUTS:
        raise Refused(15)
    length = word(data, 3)
    if length > IMAGE_MOST or len(data) != 7 + length:
        raise Refused(15)
    yield from image_lines(data[7:], data[2], slots)


def image_lines(data, layout, slots=slots):
    """The lines of an image of any length."""
    image = Image(data, layout)
    yield f"image {len(data)} {len(image.strings)} {len(image.functions)}"
    for i, ((wide, units), slot) in enumerate(zip(image.strings, slots(image))):
        kind = "i" if image.identifiers[i] else "s"
        text = "".join(f"{unit:04x}" for unit in units) or "-"
        yield f"s {i} {'w' if wide else 'n'} {kind} {len(units)} {text} {slot}"
    for i, (large, start, size) in enumerate(image.functions):
        yield f"f {i} {'o' if large else 'p'} {start} {size}"


def located_lines(data, layout):
    """The table of `hbc locate --all`: each string is looked for by itself, from the first small entry on, and what is read on the
    way is noted. An image of many strings takes long."""
    image = Image(data, layout)
    yield "id start bytes units width kind small overflow"
    sums = [0, 0, 0, 0]
    for i, (wide, units) in enumerate(image.strings):
        small, pairs = set(), []
        for at in range(image.small_at, image.small_at + 4 * i + 4, 4):
            small.add(at)
            entry = word(data, at)
            offset = bits(entry, 1, 23)
            if bits(entry, 24, 8) == 255:
                pairs.append(image.overflow_at + 8 * len(pairs))
                offset = word(data, pairs[-1])
        numbers = [len(units) * (2 if wide else 1), len(units), len(small), len(pairs)]
        sums = [a + b for a, b in zip(sums, numbers)]
        kind = "i" if image.identifiers[i] else "s"
        start = image.storage_at + offset
        yield f"{i} {start} {numbers[0]} {numbers[1]} {'w' if wide else 'n'} {kind} {numbers[2]} {numbers[3]}"
    yield f"sum - {sums[0]} {sums[1]} - - {sums[2]} {sums[3]}"


def listing(data, lines=lines):
    try:
        printed = list(lines(data))
    except Refused as refusal:
        printed = [f"refused {refusal}"]
    return "".join(line + "\n" for line in printed).encode()
