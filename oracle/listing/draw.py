"""Small images of all layouts for the listing program, drawn at random, some of them damaged in one place."""

from images import WORDS, Maker, put, record
from reading import LAYOUTS, word


def one_in(random, count):
    return random.randrange(count) == 0


def drawn_flags(random, count):
    """Which strings are identifiers: the next one is mostly what the one before it is."""
    flags, flag = [], one_in(random, 2)
    for _ in range(count):
        flag ^= one_in(random, 3)
        flags.append(flag)
    return flags


def drawn_runs(random, flags):
    """Kinds that cover the flags: not always the fewest, and runs of none before, between and behind them."""
    runs = []
    for flag in flags:
        if one_in(random, 6):
            runs.append((one_in(random, 2), 0))
        if runs and runs[-1][0] == flag and not one_in(random, 4):
            runs[-1] = (flag, runs[-1][1] + 1)
        else:
            runs.append((flag, 1))
    return runs + [(one_in(random, 2), 0)] * one_in(random, 4)


def drawn_storage(random):
    """Storage, and how many bytes at its front are ASCII, so that narrow strings may stand there."""
    narrow = bytes(random.randrange(128) for _ in range(random.choice((0, 2, 9, 30, 300))))
    return narrow + random.randbytes(random.choice((0, 1, 6, 30, 600))), len(narrow)


def drawn_place(random, storage, narrow_end):
    """A string anywhere in storage: they share it, lie within each other and leave gaps."""
    is_wide = one_in(random, 3)
    end = len(storage) if is_wide else narrow_end
    offset = random.randint(0, end)
    most = (end - offset) // 2 if is_wide else end - offset
    count = random.choice((0, min(1, most), min(5, most), random.randint(0, most), most))
    return is_wide, offset, count


def drawn_slot(random):
    return random.choice((random.getrandbits(32), random.getrandbits(32), random.getrandbits(20), random.choice(WORDS)))


def drawn_functions(random):
    ways = random.choices(("small", "large"), k=random.choice((0, 0, 1, 2, 3)))
    return [(way, random.randbytes(random.choice((0, 1, 4, 7)))) for way in ways]


def drawn_maker(random, layout):
    count = random.choice((0, 1, 2, 3, 5, 8, 13))
    storage, narrow_end = drawn_storage(random)
    runs = drawn_runs(random, drawn_flags(random, count))
    return Maker(
        layout,
        functions=drawn_functions(random),
        runs=runs,
        storage=storage,
        placed=[drawn_place(random, storage, narrow_end) for _ in range(count)],
        slots=[drawn_slot(random) for _ in range(sum(run for flag, run in runs if flag))],
        paired=[i for i in range(count) if one_in(random, 6)],
        info=one_in(random, 2),
        debug=one_in(random, 2),
    )


def other_byte(random, data):
    """Another byte, in the head and the magic as often as anywhere."""
    at = random.choice((random.randrange(15), random.randrange(len(data))))
    return put(data, at, random.getrandbits(8), 1), f"another byte at {at}"


def other_word(random, data):
    """Another word in the image: a count, or one behind the header."""
    at = 7 + random.choice((random.randrange(40, 64, 4), random.randrange(128, len(data) - 10, 4)))
    old = word(data, at)
    value = random.choice((0, 1, old + 1, old - 1, old ^ 1 << 31, 2**32 - 1, len(data), random.getrandbits(32)))
    return put(data, at, value), f"another word at {at}"


def drawn(random):
    """An input, and what it is."""
    layout = random.choice(list(LAYOUTS))
    made = drawn_maker(random, layout)
    slots = " ".join(f"{slot:08x}" for slot in made.slots) or "none"
    name = f"layout {layout}, {len(made.placed)} strings, {len(made.functions)} functions, kinds {made.runs}, slots {slots}"
    data = record(made.build(), layout)
    if not one_in(random, 4):
        return name, data
    data, damage = random.choice((other_byte, other_word))(random, data)
    return f"{name}, {damage}", data
