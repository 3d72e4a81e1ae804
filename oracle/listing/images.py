"""Images for the listing program, made from parts, and inputs that are wrong in one thing each."""

import hashlib
import struct

from reading import FOOTER, LAYOUTS, MAGIC, debug_position


def narrow(text):
    return (False, text.encode("ascii"))


def wide(text):
    return (True, text.encode("utf-16-le", "surrogatepass"))


def entry(is_wide, offset, length):
    return int(is_wide) | offset << 1 | length << 24


def stale_slots(count):
    """Hash slots that no string gave. All differ, and each from itself with its bytes in the other order."""
    return [(0x01020304 + 0x11111111 * rank) % (1 << 32) for rank in range(count)]


class Maker:
    """One image. `strings` are pairs of a width and bytes, packed in order; `placed` are triples of a width, an
    offset and a count, which may share `storage`. `functions` are pairs of a way ('small' or 'large') and a body.
    `slots` are the hash slots, one for each identifier. `paired` are ids whose place is in the overflow table, though
    it would fit a small entry."""

    def __init__(
        self, layout, strings=(), functions=(), runs=None, storage=None, placed=None, slots=None, paired=(), info=False, debug=False
    ):
        self.layout, self.modern = layout, LAYOUTS[layout] is None
        self.functions, self.paired, self.info, self.debug = list(functions), paired, info, debug
        if placed is None:
            placed, storage = [], b""
            for is_wide, data in strings:
                placed.append((is_wide, len(storage), len(data) // 2 if is_wide else len(data)))
                storage += data
        self.placed, self.storage = list(placed), storage
        self.runs = [(False, len(self.placed))] if runs is None else runs
        self.identifiers = sum(count for flag, count in self.runs if flag)
        self.slots = stale_slots(self.identifiers) if slots is None else slots

    def tables(self):
        small, pairs = b"", b""
        for i, (is_wide, offset, count) in enumerate(self.placed):
            if count >= 255 or offset >= 1 << 23 or i in self.paired:
                small += struct.pack("<I", entry(is_wide, len(pairs) // 8, 255))
                pairs += struct.pack("<II", offset, count)
            else:
                small += struct.pack("<I", entry(is_wide, offset, count))
        return small, pairs

    def build(self):
        kinds = b"".join(struct.pack("<I", flag << 31 | count) for flag, count in self.runs)
        hashes = struct.pack(f"<{self.identifiers}I", *self.slots)
        small, pairs = self.tables()
        record_size = 12 if self.modern else 16
        records_end = 128 + record_size * len(self.functions)
        middle = kinds + hashes + small + pairs + self.storage
        tail = records_end + len(middle)
        middle += b"\xBB" * (-tail % 4)
        tail += -tail % 4
        records, bodies, headers = self.tail(tail)
        header = bytearray(128)
        struct.pack_into("<QI", header, 0, MAGIC, 98 if self.modern else 96)
        counts = (len(self.functions), len(self.runs), self.identifiers, len(self.placed), len(pairs) // 8, len(self.storage))
        struct.pack_into("<6I", header, 40, *counts)
        if self.debug:
            struct.pack_into("<I", header, debug_position(self.layout), tail)
        return bytes(header) + records + middle + bodies + headers + b"\xCC" * FOOTER

    def tail(self, tail):
        """Records, bodies, and large headers behind all bodies."""
        starts, bodies = [], b""
        for _, body in self.functions:
            starts.append(tail + len(bodies))
            bodies += body
        bodies += b"\xDD" * (-len(bodies) % 4)
        records, headers = b"", b""
        for (way, body), start in zip(self.functions, starts):
            info = tail if self.info and not self.modern else 0
            if way == "small":
                records += self.record(start, len(body), info)
                continue
            pointer = tail + len(bodies) + len(headers)
            records += self.pointing(pointer)
            if self.modern:
                headers += struct.pack("<4I", start, 7, 9, len(body))
            else:
                headers += struct.pack("<5I", start, 7, len(body), 9, info)
        return records, bodies, headers

    def record(self, start, size, info):
        if self.modern:
            return (start | 5 << 25 | size << 32 | 3 << 80).to_bytes(12, "little")
        return (start | 5 << 25 | size << 32 | 77 << 47 | info << 64 | 3 << 89 | 4 << 96).to_bytes(16, "little")

    def pointing(self, pointer):
        if self.modern:
            return (pointer & 0xFFFFFF | 1 << 24 | (pointer >> 24) << 46 | 0x20 << 88).to_bytes(12, "little")
        return (pointer & 0xFFFF | 0x1FF << 16 | (pointer >> 16) << 64 | 0x20 << 120).to_bytes(16, "little")


def record(image, layout=0, length=None, mark=b"IM"):
    return mark + bytes([layout]) + struct.pack("<I", len(image) if length is None else length) + image


def framed(data):
    """An input as `test_listings` reads it: its zeros at the end are counted, not written."""
    kept = data.rstrip(b"\0")
    return struct.pack("<II", len(kept), len(data) - len(kept)) + kept


def put(image, at, value, size=4):
    return image[:at] + (value % (1 << 8 * size)).to_bytes(size, "little") + image[at + size :]


# The image of row j of document 01's marked examples, as it says it: "a", "bc", a 4-byte body at 156, its large
# header at 160, 220 bytes. The words of the large header are the Rust's.
def row_j():
    header = bytearray(128)
    struct.pack_into("<QI", header, 0, MAGIC, 97)
    struct.pack_into("<6I", header, 40, 1, 1, 0, 2, 0, 3)
    middle = struct.pack("<I", 2) + struct.pack("<2I", 0x01000000, 0x02000002) + b"abc\0"
    pointing = (160 | 0x20 << 88).to_bytes(12, "little")
    large = struct.pack("<10I", 156, 1, 0, 4, 0, 0, 1, 1, 0, 2)
    image = put(bytes(header) + pointing + middle + b"\1\2\3\4" + large, 32, 220)
    return image + hashlib.sha1(image).digest()


# Row h of the marked examples: four identifiers and their hashes.
def row_h():
    texts = [narrow(""), narrow("a"), narrow("ab"), wide("\u00E9")]
    return Maker(0, texts, runs=[(True, 4)], slots=[0, 0x18270, 0x614F9F9, 0x3AA7A]).build()


def valid():
    """Inputs that are listed: a name and the input."""
    yield "row j", record(row_j())
    texts = [narrow("label"), wide("gr\u00fc\u00df"), narrow(""), narrow("x"), wide(""), wide("\U0001F600")]
    runs = [(True, 0), (False, 1), (True, 2), (False, 0), (True, 1), (False, 2), (True, 0)]
    bodies = [("small", b"\1\2\3"), ("large", b"\4" * 9), ("small", b""), ("large", b""), ("large", b"\5")]
    for layout in LAYOUTS:
        yield f"layout {layout}", record(Maker(layout, texts, bodies, runs, info=True, debug=True).build(), layout)
        yield f"layout {layout}, nothing in it", record(Maker(layout).build(), layout)
        yield f"layout {layout}, strings alone", record(Maker(layout, texts[:2]).build(), layout)
        yield f"layout {layout}, functions alone", record(Maker(layout, functions=bodies).build(), layout)
    yield "every narrow byte", record(Maker(0, [(False, bytes(range(128)))]).build())
    units = struct.pack("<6H", 0xD800, 0xDC00, 0x0123, 0x4567, 0x89AB, 0xCDEF)
    yield "lone surrogates, every digit", record(Maker(1, [(True, units)]).build(), 1)
    yield "lengths, narrow", record(Maker(0, [narrow("a" * n) for n in LENGTHS]).build())
    yield "lengths, wide", record(Maker(2, [wide("\u20AC" * n) for n in LENGTHS]).build(), 2)
    storage = b"shared" * 60
    placed = [(False, i, n) for i in (0, 1, 5) for n in (0, 6, 254, 255, 355)] + [(True, i, 90) for i in (0, 1, 3)]
    yield "shared storage", record(Maker(3, storage=storage, placed=placed).build(), 3)
    yield "an empty string at the end", record(Maker(0, storage=b"abc", placed=[(False, 3, 0), (True, 3, 0)]).build())
    yield "an overflow entry that was not needed", record(Maker(0, [narrow("abc")], paired=[0]).build())
    yield "many strings", record(Maker(0, [narrow(f"string {i}") for i in range(300)]).build())
    yield "many functions", record(Maker(4, functions=[(("small", "large")[i % 3 == 0], b"\7" * (i % 5)) for i in range(300)]).build(), 4)
    yield "many kinds", record(Maker(0, [narrow("k")] * 90, runs=[(i % 2 == 0, i % 3) for i in range(90)]).build())
    base = Maker(0, texts, bodies).build()
    yield "65,536 bytes", record(stretched(base, 65536))
    yield "a stale file length and footer", record(put(base, 32, 12345))
    yield from with_identifiers()


# Around the numbers of units that a line may be cut at, and that a small entry holds.
LENGTHS = [0, 1, 63, 64, 65, 127, 128, 129, 254, 255, 256, 300, 1000]

# Where identifiers stand among six strings.
SIX = {
    "first": [(True, 2), (False, 4)],
    "in the middle": [(False, 2), (True, 3), (False, 1)],
    "last": [(False, 4), (True, 2)],
    "all": [(True, 6)],
    "in two runs": [(True, 2), (False, 1), (True, 2), (False, 1)],
    "behind two plain runs": [(False, 1), (True, 1), (False, 2), (True, 2)],
    "in runs side by side": [(True, 1), (True, 2), (False, 1), (False, 1), (True, 1)],
    "between runs of none": [(False, 0), (True, 0), (False, 1), (True, 2), (False, 0), (True, 1), (True, 0), (False, 1), (True, 1)],
}

# All digits at both ends, leading zeros, the ends of the range, signs; none reads the same from its other end but 0 and 2^32 - 1.
WORDS = [0, 0xFFFFFFFF, 1, 0x80000000, 0x7FFFFFFF, 0x01234567, 0x89ABCDEF, 0xFEDCBA98, 0x76543210, 0xA, 0xF00000, 0x0B0C0D0E, 0xFFFFFFFE]


def with_identifiers():
    """Inputs that are listed, for their hash slots: a name and the input."""
    texts = [narrow("label"), wide("gr\u00fc\u00df"), narrow(""), wide(""), narrow("x"), wide("\U0001F600")]
    for i, (name, runs) in enumerate(SIX.items()):
        made = Maker(i % 5, texts, [("small", b"\1\2\3"), ("large", b"\4")][: i % 3], runs)
        yield f"identifiers {name}", record(made.build(), i % 5)
    image = row_h()
    yield "row h", record(image)
    yield "row h, each slot with the hash of the next", record(image[:132] + image[136:148] + image[132:136] + image[148:])
    names = [narrow("k")] * len(WORDS)
    yield "slots at their limits", record(Maker(0, names, runs=[(True, len(WORDS))], slots=WORDS).build())
    apart = [(i % 2 == 1, 1) for i in range(2 * len(WORDS))]
    yield "slots at their limits, plain strings between them", record(Maker(3, names * 2, runs=apart, slots=WORDS).build(), 3)
    for is_wide, text in ((False, "a"), (True, "\u20AC")):
        long = [(wide if is_wide else narrow)(text * n) for n in LENGTHS]
        made = Maker(4, long, runs=[(True, len(long))])
        yield f"lengths, identifiers, {'wide' if is_wide else 'narrow'}", record(made.build(), 4)
    pairs = [narrow("z" * 300), narrow("p"), wide("\u20AC" * 255), wide("q"), narrow("z" * 256)]
    runs = [(True, 1), (False, 1), (True, 2), (False, 1)]
    yield "identifiers with overflow entries", record(Maker(1, pairs, runs=runs, paired=[1, 3]).build(), 1)
    placed = [(False, 0, 6), (False, 0, 6), (True, 1, 2), (False, 2, 0), (False, 2, 3)]
    yield "identifiers that share storage", record(Maker(2, storage=b"shared", placed=placed, runs=runs).build(), 2)
    yield "300 identifiers in a run", record(Maker(0, [narrow("")] * 302, runs=[(False, 1), (True, 300), (False, 1)]).build())
    many = [(i % 2 == 0, i % 7) for i in range(100)]
    count = sum(run for _, run in many)
    yield "many runs of identifiers", record(Maker(1, [narrow("n")] * count, runs=many).build(), 1)


def stretched(image, length):
    """The image with more bytes in its tail, of zeros from some place on."""
    return image + bytes(length - len(image))


def fullest():
    """As many strings as an image of 65,536 bytes can have, one kind for all: what the program's index is made for."""
    image = Maker(0, storage=b"", placed=[(i % 3 == 0, 0, 0) for i in range(16346)]).build()
    assert len(image) == 65536
    return "as many strings as there can be", record(image)


def malformed():
    """Inputs that are refused with 15, a name and the input."""
    image = row_j()
    yield "nothing", b""
    for n in range(1, 7):
        yield f"a head of {n} bytes", record(image)[:n]
    yield "a head alone", record(image)[:7]
    yield "one byte short", record(image)[:-1]
    yield "a byte after the record", record(image) + b"\0"
    yield "another mark", record(image, mark=b"ST")
    yield "another mark's second byte", record(image, mark=b"IN")
    yield "a mark in lower case", record(image, mark=b"im")
    yield "layout 5", record(image, layout=5)
    yield "layout 255", record(image, layout=255)
    yield "a length over the limit", record(image, length=65537)
    yield "a length of 2^32 - 1", record(image, length=2**32 - 1)
    yield "a length that is right modulo 65,536", record(image, length=len(image) + 65536)
    yield "65,537 bytes", record(stretched(image, 65537))
    yield "65,536 bytes and one more", record(stretched(image, 65536)) + b"\0"
    yield "15 before 1", record(b"", length=1)
    yield "15 before 2", record(put(image, 0, 0)) + b"\0"


def damaged():
    """Inputs that are refused with 1 to 6: a name, the number and the input."""
    texts = [narrow("label"), wide("\u20AC"), narrow("more"), narrow("z" * 300)]
    runs = [(False, 2), (True, 2)]
    bodies = [("small", b"\1" * 6), ("large", b"\2" * 5), ("large", b"\3" * 4)]
    yield "no image", 1, record(b"")
    yield "147 bytes", 1, record(row_j()[:147])
    yield "148 bytes, sections past the end", 3, record(row_j()[:148])
    yield "148 bytes of zeros", 2, record(bytes(148))
    for layout in (0, 4):
        made = Maker(layout, texts, bodies, runs, info=True, debug=True)
        image = made.build()
        size = 12 if layout == 0 else 16
        kinds = 128 + 3 * size
        small = kinds + 4 * 2 + 4 * 2
        pairs = small + 4 * 4
        storage = pairs + 8
        end = storage + len(made.storage)
        tail = end + -end % 4
        footer = len(image) - FOOTER
        headers = footer - 2 * (16 if layout == 0 else 20)

        def point(i, place):
            at = 128 + i * size
            kept = image[at + 3] << 24 if layout == 0 else int.from_bytes(image[at + 2 : at + 4], "little") << 16
            return put(image, at, kept | place)

        def given(number, name, data):
            return f"layout {layout}: {name}", number, record(data, layout)

        for byte in (0, 7):
            yield given(2, f"magic byte {byte}", put(image, byte, image[byte] ^ 1, 1))
        yield given(3, "a function too many", put(image, 40, 2**32 - 1))
        yield given(3, "storage up to the footer's start and one more", put(image, 60, footer - storage + 1))
        yield given(4, "a kind count of one less", put(put(image, 44, 1), 48, 3))
        yield given(4, "a run one longer", put(image, kinds, 3))
        yield given(4, "runs that are right modulo 2^32", put(put(image, kinds, 2**31 - 1), kinds + 4, 2**31 + 2**31 - 1))
        yield given(4, "an identifier less", put(image, kinds + 4, 2))
        yield given(5, "an overflow entry less", put(image, small + 12, entry(False, 0, 1)))
        yield given(5, "an overflow entry more", put(image, small, entry(False, 0, 255)))
        yield given(5, "an overflow entry with another index", put(image, small + 12, entry(False, 1, 255)))
        yield given(5, "a string that leaves storage", put(image, small, entry(False, len(made.storage) - 4, 5)))
        yield given(5, "a wide string that leaves storage", put(image, small + 4, entry(True, len(made.storage) - 3, 2)))
        yield given(5, "an empty string past storage", put(image, small, entry(False, len(made.storage) + 1, 0)))
        yield given(5, "an overflow pair that leaves storage", put(image, pairs + 4, 2**32 - 1))
        yield given(5, "a narrow byte 0x80", put(image, storage, 0x80, 1))
        yield given(6, "a body before the tail", put(image, 128, image[131] << 24 | tail - 1))
        yield given(6, "a body past the footer's start", put(image, 132, image[134] << 16 | footer))
        yield given(6, "a large header's body at 0", put(put(image, headers, 0), headers + (12 if layout == 0 else 8), 0))
        yield given(6, "a header that starts before the tail", point(1, tail - 1))
        yield given(6, "a header that ends past the footer's start", point(2, footer - 15))
        yield given(6, "two records with one pointer", point(2, headers))
        yield given(6, "two headers that share a byte", point(2, headers + (15 if layout == 0 else 19)))
        yield given(6, "a header on its own body", put(image, headers, headers))
        yield given(6, "a body that ends in a header", put(image, 132, image[134] << 16 | headers - tail + 1))
        yield given(6, "a debug place before the tail", put(image, debug_position(layout), tail - 1))
        yield given(6, "a debug place past the footer's start", put(image, debug_position(layout), footer + 1))
        if layout != 0:
            yield given(6, "an info place before the tail", put(image, 128 + 8, image[139] << 24 | 1))
            yield given(6, "a large header's info place past the footer's start", put(image, headers + 16, footer + 1))
            yield given(6, "a pointer that is right modulo 2^32", put(image, 128 + size + 8, image[128 + size + 11] << 24 | 1 << 16))
        yield given(4, "4 before 5", put(put(image, kinds, 3), storage, 0x80, 1))
        yield given(5, "5 before 6", put(put(image, storage, 0x80, 1), debug_position(layout), 1))
