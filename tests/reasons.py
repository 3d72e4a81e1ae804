"""A second reading of document 02, No. 6: why a string patch is made in place, or packs all strings anew, in the words of hbc.

Written from the document and not from our definitions or code. The strings are read by oracle/listing/reading.py.
"""

import json
import re

from reading import bits, word

IN_PLACE = "fits in place: its bytes are written over, and no string moves"


def placed(image):
    """Of each string of an admitted image where it starts, where it ends, and whether it is wide."""
    pairs = iter(range(image.overflow_at, image.storage_at, 8))
    places = []
    for i, (is_wide, units) in enumerate(image.strings):
        entry = word(image.data, image.small_at + 4 * i)
        offset = word(image.data, next(pairs)) if bits(entry, 24, 8) == 255 else bits(entry, 1, 23)
        start = image.storage_at + offset
        places.append((start, start + len(units) * (2 if is_wide else 1), is_wide))
    return places


def overlapping(places, number):
    """The lowest other string that overlaps one, or none."""
    start, end, _ = places[number]
    for other, (other_start, other_end, _) in enumerate(places):
        if other != number and start < other_end and other_start < end:
            return other
    return None


def overlap(places, number, other):
    (start, end, _), (other_start, other_end, _) = places[number], places[other]
    if start == end:
        return f"string {number}, which is empty, stands within string {other}"
    if other_start == other_end:
        return f"string {other}, which is empty, stands within string {number}"
    some = "" if other_start <= start and end <= other_end else "some of "
    return f"string {number} shares {some}its bytes with string {other}"


def counted(count):
    return f"{count:,} byte{'' if count == 1 else 's'}"


def cause(places, number, value):
    """Why a value has all strings packed anew: the first that holds, and which other string it tells of; neither where it fits in place."""
    start, end, is_wide = places[number]
    if is_wide:
        return f"string {number} is stored wide (UTF-16)", None
    if not value.isascii():
        first = next(character for character in value if not character.isascii())
        return f'the new text of string {number} has a character that is not ASCII, "{first}"', None
    if len(value) != end - start:
        return f"string {number} has {counted(end - start)} and its new text {len(value):,}", None
    other = overlapping(places, number)
    return (None, None) if other is None else (overlap(places, number, other), other)


def grown(before, after):
    if before == after:
        return "the image is as long as before"
    return f"{counted(abs(after - before))} {'longer' if after > before else 'shorter'}"


def units_of(text):
    data = text.encode("utf-16-le", "surrogatepass")
    return [low | high << 8 for low, high in zip(data[::2], data[1::2])]


def text_line(name, number, units):
    """The line of a text, as `with_units` has it."""
    cut = "..." if len(units) > 100 else ""
    return f"{name} of string {number}: {units[:100]}{cut} ({len(units)} unit{'' if len(units) == 1 else 's'})"


def with_units(answer):
    """The lines of an answer, with the units of each text in place of the text."""
    line = r'^((?:old |new )?text of string \d+: )(".*")((?:\.\.\.)? \(\d+ units?\))$'
    return re.sub(line, lambda told: told[1] + str(units_of(json.loads(told[2]))) + told[3], answer.decode(), flags=re.MULTILINE)


def why_lines(image, places, number, value, after):
    """What `hbc why` says of an edit that makes an image of so many bytes."""
    why, other = cause(places, number, value)
    before = len(image.data)
    yield f"{why}, so all strings are packed anew: {grown(before, after)}" if why else f"string {number} {IN_PLACE}"
    yield text_line("old text", number, image.strings[number][1])
    yield text_line("new text", number, units_of(value))
    if other is not None:
        yield text_line("text", other, image.strings[other][1])
    yield f"image: {counted(before)} before, {after:,} after"


def pass_lines(places, edits, before, after):
    """What --why says of edits of one pass: each is judged by itself, and all are packed where one of them is not in place."""
    causes = [cause(places, number, value)[0] for number, value in edits]
    for i, ((number, _), why) in enumerate(zip(edits, causes), 1):
        if why:
            yield f"edit {i}: {why}, so all strings are packed anew"
        elif any(causes):
            yield f"edit {i}: string {number} by itself would fit in place, but is packed anew with the others of its pass"
        else:
            yield f"edit {i}: string {number} {IN_PLACE}"
    moved = f"all strings are packed anew, once: {grown(before, after)}" if any(causes) else "no string moves"
    yield f"edits 1 to {len(edits)} are one pass, in which {moved}"
    yield f"image: {counted(before)} before edits 1 to {len(edits)}, {after:,} after"
