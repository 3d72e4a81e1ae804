// Calls nepuladrim_read_po and nepuladrim_write_po from C, on the image of lists.h in each layout: against single patches by id, in every
// room; files in and outside the subset; to each refusal, alone and beside each other one; with as much work space as is asked for, with
// more, and with less by one. Ends with 1 at the first answer that is not as it should be.
#include "lists.h"

// ---- what is lent

// A file of these bytes, and what is asked for it; behind that a rest, which no call touches.
enum { REST = 4, SMALL_MOST = 4096 };
static struct {
    uint8_t *file, *text;
    uint32_t *ends, *work;
    size_t length, room;
} lent;

// How many bytes, words and words more or less than that are lent.
struct spare {
    long text, ends, work;
};
static const struct spare EXACT = {0, 0, 0}, MORE = {REST, REST, REST};

static size_t words_asked(void) { return lent.length / 8 + 1; }
static size_t work_asked(void) { return 3 * words_asked() + STRINGS; }

static void lend(size_t room) {
    size_t words = room / 8 + 1;
    lent.file = realloc(lent.file, room + 1);
    lent.text = realloc(lent.text, room + REST);
    lent.ends = realloc(lent.ends, 4 * (words + REST));
    lent.work = realloc(lent.work, 4 * (3 * words + STRINGS + REST));
    lent.room = room;
    is(lent.file && lent.text && lent.ends && lent.work);
}

static void fill(void) {
    memset(lent.text, 0xa5, lent.length + REST);
    memset(lent.ends, 0xa5, 4 * (words_asked() + REST));
    memset(lent.work, 0xa5, 4 * (work_asked() + REST));
    memset(out, 0xa5, sizeof out);
}

static int are_zeros(const void *bytes, size_t length) {
    const uint8_t *at = bytes;
    return length == 0 || (at[0] == 0 && memcmp(at, at + 1, length - 1) == 0);
}

// Zeros over what was asked for, and the rest as it was; or all as it was.
static int is_left(const void *at, size_t asked, size_t rest, int are_used) {
    return (!are_used || are_zeros(at, asked)) && is_untouched(at, are_used ? asked : 0, asked + rest);
}

static void is_given_back(int are_used) {
    is(is_left(lent.text, lent.length, REST, are_used));
    is(is_left(lent.ends, 4 * words_asked(), 4 * REST, are_used));
    is(is_left(lent.work, 4 * work_asked(), 4 * REST, are_used));
}

// ---- calls

static void take_bytes(const char *file, size_t bytes) {
    is(bytes <= lent.room);
    memcpy(lent.file, file, bytes);
    lent.length = bytes;
}

static void take_file(const char *file) { take_bytes(file, strlen(file)); }

// One call. The bytes behind what it makes stay, and all of them where it is refused; and what was lent is zeros where it was used.
static uint64_t read_with(uint8_t layout, uint8_t mode, size_t bytes, struct spare spare, int are_used, size_t room) {
    fill();
    uint64_t answer = nepuladrim_read_po(image, bytes, layout, mode, lent.file, lent.length, lent.text, lent.length + (size_t)spare.text,
                                         lent.ends, words_asked() + (size_t)spare.ends, lent.work, work_asked() + (size_t)spare.work, out,
                                         room);
    is(is_untouched(out, answer < NEPULADRIM_REFUSED ? answer : 0, sizeof out));
    is_given_back(are_used);
    return answer;
}

static uint64_t read_in(uint8_t layout, uint8_t mode, size_t room) { return read_with(layout, mode, length, EXACT, 1, room); }

// ---- single patches

static uint8_t kept[sizeof out], once[sizeof out];

// The edits one by one. Answers the last length, or the first refusal; the image is in `once`. With none, the image is finalized.
static uint64_t singly(uint8_t layout, uint8_t mode, const struct edit *edits, size_t count, size_t room) {
    uint64_t now = length;
    memcpy(once, image, length);
    if (!count) return room < length ? refused(13) : nepuladrim_finalize(once, length);
    for (size_t i = 0; i < count && now < NEPULADRIM_REFUSED; i++) {
        memcpy(kept, once, sizeof kept);
        now = nepuladrim_patch_string_by_id(kept, now, layout, mode, edits[i].id, (const uint8_t *)edits[i].value,
                                            strlen(edits[i].value), once, room);
    }
    return now;
}

#define PAIR(id, string) "msgid \"" id "\"\nmsgstr \"" string "\"\n"

// Files, and the patches that they are, by id.
static const struct {
    const char *file;
    size_t count;
    struct edit edits[3];
} FILES[] = {
    // in place; with comments, empty lines, and none between; in any order of the file
    {PAIR("a", "z"), 1, {{0, "z"}}},
    {"# x\n#: y\n\n" PAIR("gh", "xy") PAIR("a", "z") "\n\n#~ msgid \"a\"\n", 2, {{0, "z"}, {6, "xy"}}},
    // packed anew: longer, wide, shared; a text that stays; texts that change places
    {PAIR("a", "longer than before") "\n" PAIR("gh", "\303\251"), 2, {{0, "longer than before"}, {6, "\303\251"}}},
    {PAIR("ef", "ef") "\n" PAIR("def", "de"), 2, {{3, "de"}, {4, "ef"}}},
    {PAIR("def", "def"), 1, {{3, "def"}}},
    {PAIR("a", "gh") PAIR("gh", "a") PAIR("ef", "def"), 3, {{0, "gh"}, {4, "def"}, {6, "a"}}},
    // escapes, pieces, characters of two to four bytes
    {PAIR("a", "\\n\\t\\\"\\\\"), 1, {{0, "\n\t\"\\"}}},
    {"msgid \"\"\n\"d\"\n\"\"\n\"ef\"\nmsgstr \"\"\n\"n\\\\\"\n\"n\\\"\"\n", 1, {{3, "n\\n\""}}},
    {PAIR("a", "\302\200\342\202\254\360\237\214\262\177"), 1, {{0, "\302\200\342\202\254\360\237\214\262\177"}}},
    // set aside: the header at any place, also where an identifier is empty; what is not translated, also where no string has it
    {PAIR("a", "z") PAIR("", "Language: \\n") PAIR("gh", ""), 1, {{0, "z"}}},
    {"#, fuzzy\n" PAIR("a", "z") PAIR("nobody has it", "") PAIR("bc", ""), 1, {{0, "z"}}},
    {"", 0, {{0, NULL}}},
    {"\n", 0, {{0, NULL}}},
    {"#\n#, fuzzy\n\n", 0, {{0, NULL}}},
    {PAIR("", "x") PAIR("a", ""), 0, {{0, NULL}}},
};

static void follow_single_patches(uint8_t layout, uint8_t mode) {
    for (size_t i = 0; i < sizeof FILES / sizeof FILES[0]; i++) {
        take_file(FILES[i].file);
        // from too little to enough, and by one around each step
        for (size_t room = length - 12; room < length + 48; room++) {
            uint64_t answer = singly(layout, mode, FILES[i].edits, FILES[i].count, room);
            is(read_in(layout, mode, room) == answer);
            is(answer >= NEPULADRIM_REFUSED || memcmp(out, once, answer) == 0);
        }
        is(nepuladrim_admit(out, singly(layout, mode, FILES[i].edits, FILES[i].count, sizeof out), layout) == 0);
    }
}

// Here "a" is string 0, string 4, which is wide, and string 2, which is an identifier.
static void make_alike(uint8_t layout) {
    make(layout);
    put(small_at + 16, 0x01000007);
    image[storage_at + 3] = 'a';
}

// Every plain string that has a text gets the other, of either width, and no identifier does.
static void set_equal_strings(uint8_t layout, uint8_t mode) {
    static const struct edit both[] = {{0, "bcd"}, {4, "bcd"}};
    make_alike(layout);
    take_file(PAIR("a", "bcd"));
    uint64_t answer = singly(layout, mode, both, 2, sizeof once);
    is(read_in(layout, mode, sizeof out) == answer && memcmp(out, once, answer) == 0);
    uint8_t units[4];
    is(nepuladrim_string(out, answer, layout, 2, units, 4) == 2 && memcmp(units, "a", 2) == 0);
    is(nepuladrim_string(out, answer, layout, 4, units, 4) == 3 && memcmp(units, "bcd", 3) == 0);
    make(layout);
}

// 13 where a step before the last does not fit, though the end would: the room for it, and a byte less.
static void judge_each_step(uint8_t layout, uint8_t mode) {
    static const struct edit edits[] = {{0, "abcdefghijklmn"}, {3, "d"}, {4, "e"}};
    uint64_t most = singly(layout, mode, edits, 1, sizeof once), least = singly(layout, mode, edits, 3, sizeof once);
    is(least < most);
    take_file(PAIR("a", "abcdefghijklmn") PAIR("def", "d") PAIR("ef", "e"));
    is(read_in(layout, mode, most) == least);
    is(read_in(layout, mode, most - 1) == refused(13));
    is(read_in(layout, mode, least) == refused(13));
}

// ---- the subset

// Outside it, by a line, by a byte, and by a msgid.
static const char *const OUTSIDE[] = {
    // lines
    PAIR("a", "z") "msgid \"gh\"\nmsgstr \"xy\"",
    "#",
    "msgid \"a\"\n",
    "msgid \"a\"\n\nmsgstr \"z\"\n",
    "msgid \"a\"\n#\nmsgstr \"z\"\n",
    "msgid \"a\"\nmsgid \"a\"\nmsgstr \"z\"\n",
    "msgstr \"z\"\n",
    PAIR("a", "z") "msgstr \"z\"\n",
    "\"a\"\n",
    PAIR("a", "z") "\n\"z\"\n",
    PAIR("a", "z") "#\n\"z\"\n",
    // keywords and what is behind them
    "msgid  \"a\"\nmsgstr \"z\"\n",
    "msgid\"a\"\nmsgstr \"z\"\n",
    "msgid\nmsgstr \"z\"\n",
    "msgid \nmsgstr \"z\"\n",
    "msgid a\nmsgstr \"z\"\n",
    " msgid \"a\"\nmsgstr \"z\"\n",
    "Msgid \"a\"\nmsgstr \"z\"\n",
    "MSGID \"a\"\nMSGSTR \"z\"\n",
    "msgctxt \"c\"\n" PAIR("a", "z"),
    "msgid \"a\"\nmsgid_plural \"as\"\nmsgstr[0] \"z\"\n",
    "msgid \"a\"\nmsgstr[0] \"z\"\n",
    "domain \"d\"\n" PAIR("a", "z"),
    " \n" PAIR("a", "z"),
    " #\n" PAIR("a", "z"),
    PAIR("a", "z") " \"z\"\n",
    "x\n",
    "\\\n",
    // quoted text
    "msgid \"a\nmsgstr \"z\"\n",
    "msgid \"a\" \nmsgstr \"z\"\n",
    "msgid \"a\"b\nmsgstr \"z\"\n",
    "msgid \"a\"b\"\nmsgstr \"z\"\n",
    "msgid \"a\" \"b\"\nmsgstr \"z\"\n",
    "msgid \"\\\"\nmsgstr \"z\"\n",
    "msgid \"\\\nmsgstr \"z\"\n",
    "msgid \"\nmsgstr \"z\"\n",
    PAIR("a", "\\r"), PAIR("a", "\\a"), PAIR("a", "\\0"), PAIR("a", "\\x41"), PAIR("a", "\\101"), PAIR("a", "\\'"), PAIR("a", "\\N"),
    PAIR("a", "\\ "), PAIR("a", "\\\303\251"), PAIR("a", "\\u0041"),
    // bytes below 32, also in comments
    "msgid\t\"a\"\nmsgstr \"z\"\n", "msgid \"a\"\r\nmsgstr \"z\"\r\n", "msgid \"a\tb\"\nmsgstr \"z\"\n", "#\t\n", "#\001\n", "#\037\n",
    "\r\n", "# \r\n", "\f\n",
    // bytes that are no UTF-8, also in comments: alone, cut, longer than they need, halves, past the last
    "#\200\n", "#\303\n", "#\303", "#\300\257\n", "#\340\200\257\n", "#\360\200\200\257\n", "#\355\240\200\n", "#\355\277\277\n",
    "#\364\220\200\200\n", "#\365\200\200\200\n", "#\370\210\200\200\200\n", "#\376\n", "#\377\n", PAIR("a", "\351"),
    "msgid \"a\"\nmsgstr \"\303\"\n\"\251\"\n",
    "\357\273\277" PAIR("a", "z"), "\377\376m",
    // twice: also the header, what is not translated, in other pieces, with the same msgstr
    PAIR("a", "z") PAIR("a", "z"), PAIR("a", "z") "\n" PAIR("a", ""), PAIR("a", "") PAIR("gh", "x") PAIR("a", ""),
    PAIR("", "x") PAIR("", "x"), PAIR("", "") PAIR("", ""), PAIR("gh", "x") "msgid \"g\"\n\"h\"\nmsgstr \"y\"\n",
    PAIR("\\n", "") PAIR("\\n", ""), PAIR("nobody has it", "") PAIR("nobody has it", ""),
};

// Inside it, and nothing of it is applied.
static const char *const INSIDE[] = {
    "#\357\273\277\n", "#\177\n", "\n\n\n", "#\n#\n", "#~ msgid \"a\"\n#~ msgstr \"z\"\n#~ msgid \"a\"\n#~ msgstr \"z\"\n",
    PAIR("a", "") PAIR("A", "") PAIR("a ", "") PAIR("\\\\n", "") PAIR("\\n", ""),
    "#\355\237\277\356\200\200\364\217\277\277\302\200\340\240\200\360\220\200\200\n",
    "msgid \"\"\nmsgstr \"\"\n\"\"\n\"\"\n",
    PAIR("\357\273\277", ""),
    "msgid \"\"\n\"a\"\nmsgstr \"\"\nmsgid \"b\"\nmsgstr \"\"\n",
};

static void judge_files(uint8_t layout) {
    for (size_t i = 0; i < sizeof OUTSIDE / sizeof OUTSIDE[0]; i++) {
        take_file(OUTSIDE[i]);
        is(read_in(layout, NEPULADRIM_PLAIN, sizeof out) == refused(16));
    }
    take_bytes("#\0\n", 3);
    is(read_in(layout, NEPULADRIM_PLAIN, sizeof out) == refused(16));
    for (size_t i = 0; i < sizeof INSIDE / sizeof INSIDE[0]; i++) {
        take_file(INSIDE[i]);
        is(read_in(layout, NEPULADRIM_EVEN, sizeof out) == length);
    }
}

// 14: no string, only an identifier, only a part of a string, only one that another pair makes.
static void look_up(uint8_t layout) {
    static const char *const absent[] = {
        PAIR("x", "z"), PAIR("bc", "z"), PAIR("\303\251", "z"), PAIR("g", "z"), PAIR("ghi", "z"), PAIR("A", "z"), PAIR("a ", "z"),
        PAIR("a\\n", "z"), PAIR("a", "x") PAIR("x", "z"), PAIR("x", "a") PAIR("a", "x"), PAIR("a", "z") PAIR("aa", "zz"),
    };
    for (size_t i = 0; i < sizeof absent / sizeof absent[0]; i++) {
        take_file(absent[i]);
        is(read_in(layout, NEPULADRIM_PLAIN, sizeof out) == refused(14));
        is(read_in(layout, NEPULADRIM_EVEN, 0) == refused(14));
    }
}

// ---- work space

// With less by one of each: 13, before the file is looked at, and nothing is written. With more, the rest stays.
static void lend_other_lengths(uint8_t layout) {
    static const char *const files[] = {PAIR("a", "zz"), "", "#", PAIR("a", "\\r"), PAIR("x", "y"), "#345678\n", "#3456789\n", "#34567\n"};
    for (size_t i = 0; i < sizeof files / sizeof files[0]; i++) {
        take_file(files[i]);
        uint64_t answer = read_in(layout, NEPULADRIM_PLAIN, sizeof out);
        is(read_with(layout, NEPULADRIM_PLAIN, length, MORE, 1, sizeof out) == answer);
        for (int short_of = 1; short_of < 8; short_of++) {
            const struct spare less = {short_of & 1 ? -1 : 0, short_of & 2 ? -1 : REST, short_of & 4 ? -1 : 0};
            if (less.text < 0 && lent.length == 0) continue;
            is(read_with(layout, NEPULADRIM_PLAIN, length, less, 0, sizeof out) == refused(13));
        }
    }
}

// A file of 2^32 bytes, told by its length alone: nothing of it is read.
static void refuse_long_file(void) {
    const size_t bytes = (size_t)1 << 32, words = bytes / 8 + 1;
    take_file(PAIR("a", "z"));
    fill();
    is(nepuladrim_read_po(image, length, 0, 0, lent.file, bytes, lent.text, bytes, lent.ends, words, lent.work, 3 * words + STRINGS, out,
                          sizeof out) == refused(13));
    is(is_untouched(out, 0, sizeof out));
    is_given_back(0);
}

// ---- each number

// In the order in which they are due; the first 13 is of the work space.
static const unsigned ORDER[] = {15, 1, 2, 3, 4, 5, 6, 13, 16, 14, 11, 12, 13};
enum { NUMBERS = sizeof ORDER / sizeof ORDER[0], OF_FILE = 8 };

static void append(const char *bytes) {
    memcpy(lent.file + lent.length, bytes, strlen(bytes));
    lent.length += strlen(bytes);
}

// A pair with a msgstr of so many bytes.
static void append_pair(const char *id, size_t bytes) {
    append("msgid \"");
    append(id);
    append("\"\nmsgstr \"");
    memset(lent.file + lent.length, 'a', bytes);
    lent.length += bytes;
    append("\"\n");
}

// A call in a legacy layout in which each of these numbers is due, and no other; what is wrong with the file stands first, or last.
static uint64_t call(const int *due, int are_first, uint8_t mode) {
    make(1);
    if (due[2]) image[0] ^= 1;
    if (due[3]) put(60, 1000);
    if (due[4]) put(kinds_at, 2);
    if (due[5]) put(small_at, 0x01000100);
    if (due[6]) put(128, 0);
    lent.length = 0;
    if (!are_first) append_pair("gh", 2);
    if (due[8]) append("#\t\n");
    if (due[9]) append_pair("bc", 2);
    if (are_first) append_pair("gh", 2);
    // a body behind such a string starts past 33,554,431
    if (due[10] || due[11]) append_pair("a", due[10] ? LIMIT : 33554432);
    const struct spare spare = {0, due[7] ? -1 : 0, 0};
    int are_used = 1;
    for (int i = 0; i < OF_FILE; i++) are_used &= !due[i];
    return read_with(1, due[0] ? mode : NEPULADRIM_EVEN, due[1] ? 147 : length, spare, are_used, due[12] ? length - 1 : sizeof out);
}

// Alone, each two, and what is wrong with the file in either place.
static void refuse_in_order(void) {
    for (int are_first = 0; are_first < 2; are_first++) {
        int due[NUMBERS] = {0};
        is(call(due, are_first, 0) == length);
        for (int i = 0; i < NUMBERS; i++)
            for (int j = i; j < NUMBERS; j++) {
                due[i] = due[j] = 1;
                is(call(due, are_first, 2) == refused(ORDER[i]));
                due[i] = due[j] = 0;
            }
    }
}

// 15: other layout and mode bytes, each by itself, before all else.
static void refuse_bytes(void) {
    static const uint8_t bytes[] = {5, 6, 127, 128, 255};
    make(0);
    take_file("outside");
    for (size_t i = 0; i < sizeof bytes; i++) {
        is(read_with(bytes[i], NEPULADRIM_PLAIN, length, EXACT, 0, sizeof out) == refused(15));
        is(read_with(0, bytes[i], length, EXACT, 0, sizeof out) == refused(15));
        is(read_with(bytes[i], bytes[i], 0, (struct spare){-1, -1, -1}, 0, 0) == refused(15));
    }
    is(read_with(0, 2, length, EXACT, 0, sizeof out) == refused(15));
    is(read_with(0, NEPULADRIM_EVEN, length, EXACT, 1, sizeof out) == refused(16));
}

// ---- a file that is written

static uint32_t four[4 * STRINGS + REST];

// One call, with so many words lent. What it makes is at the front of `out`, the rest of which stays; the words are zeros where they were
// used, and the rest of them stays.
static uint64_t write_with(uint8_t layout, size_t bytes, size_t words, int are_used, size_t room) {
    memset(four, 0xa5, sizeof four);
    memset(out, 0xa5, sizeof out);
    uint64_t answer = nepuladrim_write_po(image, bytes, layout, four, words, out, room);
    is(is_untouched(out, answer < NEPULADRIM_REFUSED ? answer : 0, sizeof out));
    is(is_left(four, 16 * STRINGS, 4 * REST, are_used));
    return answer;
}

// This is the file, in this much room and work space and in no less; and it is read.
static void is_file(uint8_t layout, const char *file) {
    const size_t bytes = strlen(file);
    is(write_with(layout, length, 4 * STRINGS, 1, sizeof out) == bytes && memcmp(out, file, bytes) == 0);
    is(write_with(layout, length, 4 * STRINGS + REST, 1, bytes) == bytes && memcmp(out, file, bytes) == 0);
    if (bytes) is(write_with(layout, length, 4 * STRINGS, 1, bytes - 1) == refused(13));
    is(write_with(layout, length, 4 * STRINGS - 1, 0, sizeof out) == refused(13));
    take_file(file);
    is(read_in(layout, NEPULADRIM_PLAIN, sizeof out) == length);
}

#define ENTRY(id) PAIR(id, "") "\n"

static void write_files(uint8_t layout) {
    is_file(layout, ENTRY("a") ENTRY("def") ENTRY("ef") ENTRY("gh"));
    make_alike(layout);
    is_file(layout, ENTRY("a") ENTRY("def") ENTRY("gh"));
    // escapes, and units that go as they are; behind "a" string 4 is wide: a pair, a half of one, one that is turned round
    make(layout);
    memcpy(image + storage_at + 5, "\n\t\"\\\177", 5);
    is_file(layout, ENTRY("a") ENTRY("\\n\\t\\\"") ENTRY("\\t\\\"") ENTRY("\\\\\177"));
    static const struct {
        const char *bytes, *file;
    } wides[] = {
        {"\x3c\xd8\x32\xdf", ENTRY("a") ENTRY("\360\237\214\262")}, {"\x3c\xd8\x41\x00", ENTRY("a")}, {"\x32\xdf\x3c\xd8", ENTRY("a")},
        {"\xac\x20\x80\x00", ENTRY("a") ENTRY("\342\202\254\302\200")},  {"\x41\x00\x1f\x00", ENTRY("a")}, {"\x41\x00\x00\x00", ENTRY("a")},
        {"\xff\xff\x20\x00", ENTRY("a") ENTRY("\357\277\277 ")},
    };
    for (size_t i = 0; i < sizeof wides / sizeof wides[0]; i++) {
        make(layout);
        // "def" is empty, "ef" has these two units, "gh" is "a"
        put(small_at + 12, 0x00000000);
        put(small_at + 16, 0x0200000b);
        put(small_at + 24, 0x01000000);
        memcpy(image + storage_at + 5, wides[i].bytes, 4);
        is_file(layout, wides[i].file);
    }
    // no string can be written
    put(small_at, 0);
    put(small_at + 16, 0);
    put(small_at + 24, 1);
    is_file(layout, "");
    make(layout);
}

static void refuse_to_write(void) {
    static const unsigned order[] = {15, 1, 2, 3, 4, 5, 6, 13, 13};
    enum { ALL = sizeof order / sizeof order[0] };
    for (int i = 0; i < ALL; i++)
        for (int j = i; j < ALL; j++) {
            int due[ALL] = {0};
            due[i] = due[j] = 1;
            make(1);
            if (due[2]) image[0] ^= 1;
            if (due[3]) put(60, 1000);
            if (due[4]) put(kinds_at, 2);
            if (due[5]) put(small_at, 0x01000100);
            if (due[6]) put(128, 0);
            is(write_with(due[0] ? 5 : 1, due[1] ? 147 : length, due[7] ? 0 : 4 * STRINGS, i == 8, due[8] ? 0 : sizeof out) ==
               refused(order[i]));
        }
}

// What was written is read, with a text of its own for each msgid where its empty msgstr stands.
static void come_back(uint8_t layout) {
    static const struct edit edits[] = {{0, "0\303\251"}, {3, "1\303\251"}, {4, "2\303\251"}, {6, "3\303\251"}};
    uint64_t bytes = write_with(layout, length, 4 * STRINGS, 1, sizeof out);
    size_t pairs = 0;
    lent.length = 0;
    for (uint64_t i = 0; i < bytes; i++) {
        if (i > 0 && out[i] == '"' && out[i - 1] == '"') append(edits[pairs++].value);
        lent.file[lent.length++] = out[i];
    }
    uint64_t answer = singly(layout, NEPULADRIM_EVEN, edits, 4, sizeof once);
    is(read_in(layout, NEPULADRIM_EVEN, sizeof out) == answer && memcmp(out, once, answer) == 0);
}

int main(void) {
    lend(SMALL_MOST);
    for (uint8_t layout = 0; layout < 5; layout++) {
        make(layout);
        for (uint8_t mode = NEPULADRIM_PLAIN; mode <= NEPULADRIM_EVEN; mode++) {
            follow_single_patches(layout, mode);
            set_equal_strings(layout, mode);
            judge_each_step(layout, mode);
        }
        judge_files(layout);
        look_up(layout);
        lend_other_lengths(layout);
        write_files(layout);
        come_back(layout);
    }
    make(0);
    refuse_long_file();
    refuse_bytes();
    refuse_to_write();
    lend(LIMIT + SMALL_MOST);
    refuse_in_order();
    puts("tests/c: a translators' file is the single patches that it says, is refused as it should be, and is written and read");
    return 0;
}
