"""A second reading of document 02, No. 10: where strings stand in a repacked image, and what hbc prints of it.

Written from the document and not from our definitions or code. The images are read by oracle/listing/reading.py.
"""

import hashlib
import json
import re
import struct

from draw import drawn_flags, drawn_functions, drawn_runs, one_in
from images import Maker, entry, narrow, wide
from reading import LAYOUTS, Image, debug_position, word
from reasons import counted, units_of


def drawn(random):
    """An image of labels, drawn at random, among them many that are equal; and its layout."""
    layout = random.choice(list(LAYOUTS))
    texts = [random.choice(("", "a", "ab", "b" * 254, "b" * 255)) + "c" * random.randrange(9) for _ in range(random.choice((1, 4, 15, 60)))]
    labels = [wide(text) if one_in(random, 3) else narrow(text) for text in texts]
    strings = random.choices(labels, k=random.choice((0, 2, 9, 60, 150)))
    runs = drawn_runs(random, drawn_flags(random, len(strings)))
    return Maker(layout, strings, drawn_functions(random), runs, info=one_in(random, 2), debug=one_in(random, 2)).build(), layout


def stored(is_wide, units):
    return struct.pack(f"<{len(units)}{'H' if is_wide else 'B'}", *units)


def packed(strings, is_even, is_shared):
    """Where each string goes, and storage: where they are shared, equal ones of one width to the place of the first."""
    storage, offsets, first = b"", [], {}
    for is_wide, units in strings:
        key = (is_wide, *units)
        if not is_shared or key not in first:
            storage += b"\0" * (is_even and is_wide and len(storage) % 2)
            first[key] = len(storage)
            storage += stored(is_wide, units)
        offsets.append(first[key])
    return offsets, storage


def region(strings, start, is_even, is_shared):
    """The bytes from the small table, which is at `start`, to the tail; and how many of them are storage."""
    offsets, storage = packed(strings, is_even, is_shared)
    small, pairs = b"", b""
    for (is_wide, units), offset in zip(strings, offsets):
        if offset >= 0x800000 or len(units) >= 255:
            small += struct.pack("<I", entry(is_wide, len(pairs) // 8, 255))
            pairs += struct.pack("<II", offset, len(units))
        else:
            small += struct.pack("<I", entry(is_wide, offset, len(units)))
    made = small + pairs + storage
    return made + bytes(-(start + len(made)) % 4), len(storage)


def parts(image):
    """What a repacked image has as it was: kinds and stored hashes; strings; functions and the debug place, counted from the tail; and all
    bytes of the tail but those of large headers."""
    data, end = image.data, len(image.data) - 20
    debug = word(data, debug_position(image.layout))
    headers = large_headers(image)
    rest = bytes(0 if at in headers else data[at] for at in range(image.tail, end))
    functions = [(large, start - image.tail, size) for large, start, size in image.functions]
    return data[image.kinds_at : image.small_at], image.strings, functions, debug and debug - image.tail, rest


def large_headers(image):
    """The places of the words of large headers."""
    places = set()
    for number in range(len(image.functions)):
        at = 128 + number * image.record_size
        record = int.from_bytes(image.data[at : at + image.record_size], "little")
        if not image.functions[number][0]:
            continue
        low, high = (24, record >> 46 & 0xFF) if image.modern else (16, record >> 64 & 0x1FFFFFF)
        pointer = record % (1 << low) + (high << low)
        places.update(range(pointer, pointer + (16 if image.modern else 20)))
    return places


def is_sealed(data):
    """Whether file length and footer are right."""
    return word(data, 32) == len(data) and data[-20:] == hashlib.sha1(data[:-20]).digest()


def group_lines(strings, is_all):
    groups = {}
    for number, (is_wide, units) in enumerate(strings):
        groups.setdefault((is_wide, *units), []).append(number)
    told = [ids for ids in groups.values() if len(ids) > 1]
    for first, *others in told if is_all else told[:20]:
        is_wide, units = strings[first]
        size = counted(len(stored(is_wide, units))) + (", wide" if is_wide else "")
        shown = others if is_all else others[:8]
        more = f" and {len(others) - len(shown):,} more" if len(others) > len(shown) else ""
        text = f"{units[:100]}{'...' if len(units) > 100 else ''}"
        yield f"string {first} {text} ({size}) is stored once for {len(others):,} more: {', '.join(map(str, shown))}{more}"
    if len(told) > 20 and not is_all:
        yield f"and {len(told) - 20} more group{'' if len(told) == 21 else 's'}: --all lists all of them"


def lines(image, is_even, is_all):
    """What `hbc repack` prints of an image; the units of a text stand in place of the text."""
    strings, rest = image.strings, len(image.data) - image.tail
    shared = len(strings) - len({(is_wide, *units) for is_wide, units in strings})
    made, size = region(strings, image.small_at, is_even, True)
    apart, apart_size = region(strings, image.small_at, is_even, False)
    before, after = len(image.data), image.small_at + len(made) + rest
    groups = len({(is_wide, *units) for i, (is_wide, units) in enumerate(strings) if (is_wide, units) in strings[:i]})
    yield from group_lines(strings, is_all)
    if groups:
        share = f"{shared:,} of them share{'s' if shared == 1 else ''} the place of another"
        yield f"strings: {len(strings):,}, {share}; {groups:,} group{'' if groups == 1 else 's'}"
        yield f"storage: {counted(size)}, {apart_size:,} if each string were stored for itself ({apart_size - size:,} saved)"
        yield f"image: {counted(before)} before, {after:,} after; {image.small_at + len(apart) + rest:,} if rebuilt without sharing"
    else:
        yield f"strings: {len(strings):,}, none of them equal to another in text and width: nothing to share"
        yield f"storage: {counted(size)}"
        yield f"image: {counted(before)} before, {after:,} after"
    if after > before:
        yield f"the image gets {counted(after - before)} longer: {why_longer(image, size)}"


def why_longer(image, size):
    """No image here is so long that more strings get overflow entries by their offsets."""
    different = {(is_wide, *units) for is_wide, units in image.strings}
    bytes_needed = sum(len(units) * (2 if is_wide else 1) for is_wide, *units in different)
    if bytes_needed > image.storage_size:
        return "strings that shared bytes without being equal are stored apart now"
    assert size > image.storage_size
    return "wide strings start at even places now"


def told_units(told):
    """What was printed, with the units of each text in place of the text."""
    line = r'^(string \d+ )(".*")((?:\.\.\.)? \([0-9,]+ bytes?(?:, wide)?\) is stored once for )'
    return re.sub(line, lambda found: found[1] + str(units_of(json.loads(found[2]))) + found[3], told, flags=re.MULTILINE)


def repacked(image, data, is_even):
    """Of what was made of an image: its region of strings and what that has to be; whether all else is as it was, and the counts and the
    footer are right."""
    made = Image(data, image.layout)
    strings, size = region(image.strings, image.small_at, is_even, True)
    pairs = sum(len(units) >= 255 for _, units in image.strings)
    yield data[made.small_at : made.tail], strings
    yield parts(made), parts(image)
    yield (is_sealed(data), word(data, 56), word(data, 60)), (True, pairs, size)
