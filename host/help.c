// hbc help: what each command takes and does.
#include "commands.h"
#include "print.h"

#include <string.h>

// ./hbc prints the same lines where the program is not built yet.
static const char USAGE[] =
#include "usage.inc"
    ;

static const char DEMO[] =
    "usage: hbc demo\n"
    "Builds a small image, patches two strings and a body of it, lists it before and after, and has sha1sum check its footer.\n";

static const char EXTRACT[] =
    "usage: hbc extract IMAGE FILE.po [--layout LAYOUT] [--header]\n"
    "Writes a translators' file, in gettext's PO format and in UTF-8: for each plain string of the image its text as a msgid, on one\n"
    "line, and an empty msgstr for the translation, lowest id first. hbc translate takes the file back. What is written and what is\n"
    "passed over is printed in numbers; passed over are identifiers, empty strings, texts that an earlier string has, and what no PO\n"
    "file can say: strings that are not valid UTF-16, or have controls other than newline and tab.\n"
    "\n"
    "--header puts the usual header in front: a pair with an empty msgid that says, among other things, that the file is UTF-8. Most\n"
    "tools of gettext and most editors want it: msgfmt -c refuses a file without it, and msgmerge spoils accents. hbc translate takes\n"
    "the file with it or without. The language is left for the translator to fill in, of which msgfmt -c warns.\n"
    "\n"
    "FILE.po is written whole or not at all, as hbc patch writes its OUT, and in place of what was there: translations too. To bring a\n"
    "file of translations up to a new image, extract to another name and have msgmerge put the two together. Where FILE.po is -, the\n"
    "file goes to standard output, and the numbers to standard error.\n";

static const char INDEX[] =
    "usage: hbc index IMAGE [ID...] [--layout LAYOUT]\n"
    "Fills an index of the image's strings, once, and prints what it holds: of the strings of the ids, in the order in which they are\n"
    "given, or with none of every string. A line has the names of the columns; then a line for each string:\n"
    "  ID OFFSET LENGTH n|w s|i    where it starts, counted from the start of storage; its length in bytes where it is narrow (n)\n"
    "                              and in units of 16 bits where it is wide (w); s plain or i identifier\n"
    "It is for programs that ask for many strings: no string is walked to. hbc locate counts what a walk visits, and hbc verify tells\n"
    "where storage starts. Where there is no string of an id, nothing is printed of the others.\n";

static const char LIST[] =
    "usage: hbc list IMAGE [--layout LAYOUT] [--text]\n"
    "       hbc list IMAGE LAYOUT\n"
    "Lists the strings and functions of an image. The first line has the image's length and its numbers of strings and\n"
    "functions. Then a line for each:\n"
    "  s ID n|w s|i COUNT UNITS HASH    a string: narrow or wide, an identifier (i) or not, its UTF-16 units in hex, - for none,\n"
    "                                   and the hash that an identifier has in the image, in hex, - for no identifier\n"
    "  f ID o|p START SIZE              a function: with a large header (o) or plain, and where its body stands\n"
    "A hash is told as it is stored, whether it is that of the string or not; a patch of the string puts it right.\n"
    "\n"
    "--text lists the same for people: string ID \"TEXT\" or identifier ID \"TEXT\", hash HASH. In a text, \\n, \\t, \\\", \\\\ and \\u\n"
    "with four digits stand for what no terminal shows, as in JSON.\n";

static const char LOCATE[] =
    "usage: hbc locate IMAGE ID [--layout LAYOUT]\n"
    "       hbc locate IMAGE --all [--layout LAYOUT]\n"
    "Tells where string ID stands in the image: its text, start, bytes, units, width and kind. Then how many entries are visited to\n"
    "find it: small entries, from the first one to its own, and overflow entries, the pair of each of these that overflows. What\n"
    "admitting the image reads is not counted.\n"
    "\n"
    "--all prints a table of every string, a line each, and the sums of its columns in the last line:\n"
    "  ID START BYTES UNITS n|w s|i SMALL OVERFLOW    n narrow or w wide, s plain or i identifier, entries visited\n"
    "  sum - BYTES UNITS - - SMALL OVERFLOW\n";

static const char PATCH[] =
    "usage: hbc patch IMAGE OUT [--layout LAYOUT] [--even] [--dry-run] [--why] EDIT...\n"
    "Writes the image with the edits to OUT, and prints what changed. An EDIT is one of these; they are applied in the order in\n"
    "which they stand, all of them or none:\n"
    "  --string ID=TEXT         string ID becomes TEXT, UTF-8 as typed\n"
    "  --string-from ID=FILE    string ID becomes the bytes of FILE, which are UTF-8\n"
    "  --body ID=FILE           the body of function ID becomes the bytes of FILE\n"
    "\n"
    "String edits of different ids that stand one behind the other are made in one pass: in place where each of them fits, else the\n"
    "strings are packed anew, once. What comes out is what they make one after the other, but only the end is judged: the image may\n"
    "be too long in between. A body, or an id that is edited again, ends a pass and begins the next; of two edits of an id the later\n"
    "one counts. String edits of different ids by several people may be made in any order, one call behind the other: where all calls\n"
    "are accepted, with --even all or none, the image that comes out is the same.\n"
    "\n"
    "With no edit, the image gets its file length and its footer. OUT may be IMAGE. It is written whole or not at all: a new file\n"
    "beside it takes its name, and its mode where it was there. Where OUT is a link, what it leads to is written; what is no\n"
    "regular file is not replaced. Where OUT is -, the image goes to standard output, and what changed to standard error.\n"
    "--dry-run judges and prints the same and writes nothing; it needs no OUT.\n"
    "\n"
    "--even is for a loader that reads wide strings, which are UTF-16, as 16-bit words and stops at an odd address. A string edit\n"
    "that does not fit in place packs all strings anew; each wide one then starts at an even place, behind one zero byte where\n"
    "that is needed. It holds for all string edits of the call; bodies are the same either way. Edits that fit in place move\n"
    "nothing: wide strings at odd places stay there until an edit packs the strings anew. An edit of a wide string always does,\n"
    "also to its own text. How many have stayed is printed.\n"
    "\n"
    "--why prints first, a line for each edit, why it was made in place or why all strings were packed anew, as hbc why does. Each\n"
    "edit of a pass is judged by itself on the image that the pass got. Where one of them does not fit in place, all strings are\n"
    "packed anew, also those of edits that would fit; and one that would be refused by itself may be taken with the others. Behind\n"
    "the edits of a pass it says what was done with all of them, and how long the image was before and after. The edit of a body is\n"
    "a pass of its own, and moves no string.\n";

static const char TRANSLATE[] =
    "usage: hbc translate IMAGE OUT FILE.po... [--layout LAYOUT] [--even] [--dry-run] [--no-fuzzy]\n"
    "Writes the image with the translations of the files to OUT, all of them or none, and prints what changed and how many pairs of\n"
    "each file were applied or set aside. A msgid is looked up among the plain strings of the image, and each that has just this text\n"
    "gets the msgstr; identifiers are never changed. The files are applied in their order, each to what the one before it made. What\n"
    "comes out is what hbc patch makes of the same strings, one by one, lowest id first. OUT is written as by hbc patch, and may be\n"
    "IMAGE; a name that ends in .po is not taken for it. --dry-run judges and prints the same and writes nothing; before a single file\n"
    "it needs no OUT.\n"
    "\n"
    "What is read is a subset of gettext's PO format, in UTF-8:\n"
    "  msgid \"TEXT\"     one space behind the keyword; then lines of quoted text alone may continue it\n"
    "  msgstr \"TEXT\"    the same; it stands right behind its msgid\n"
    "and between pairs empty lines and lines that begin with #. In a text, \\n, \\t, \\\" and \\\\ are escapes. Each line ends with a\n"
    "line feed. Not read, so that the file is refused: other keywords (msgctxt, msgid_plural, msgstr[0]), other escapes, tabs and\n"
    "other controls, carriage returns, spaces around what is quoted, a byte order mark, and a msgid that stands there twice. A refusal\n"
    "names the line; where no plain string has a msgid, it also names texts that are near it.\n"
    "\n"
    "Not applied are the header, which is the pair with the empty msgid, and pairs whose msgstr is empty: these are not translated. So\n"
    "no file can make a string empty: hbc patch can. A pair that a comment #, fuzzy calls a guess is applied like any other, though\n"
    "gettext leaves it out; how many there were is printed, and with --no-fuzzy such a file is not applied, with the exit status 1.\n"
    "Obsolete entries, which begin with #~, are comments, and what was the old msgid, behind #|, is one too.\n"
    "\n"
    "--even starts wide strings at even places: hbc help patch.\n";

static const char VERIFY[] =
    "usage: hbc verify IMAGE [--layout LAYOUT]\n"
    "       hbc verify IMAGE LAYOUT\n"
    "Tells whether an image is admitted, or why it is refused; whether its file length and its footer are right or stale (a patch\n"
    "puts them right); its counts; and where each section starts and how many bytes it has.\n";

static const char WHY[] =
    "usage: hbc why IMAGE ID=TEXT [--layout LAYOUT] [--even]\n"
    "       hbc why IMAGE --string-from ID=FILE [--layout LAYOUT] [--even]\n"
    "Tells why hbc patch makes an edit of string ID in place, or why it packs all strings anew, so that a small edit changes most of\n"
    "the image. Nothing is written. The first line is the first of these reasons that holds:\n"
    "  string 12 fits in place: its bytes are written over, and no string moves\n"
    "  string 12 is stored wide (UTF-16), so all strings are packed anew: 8 bytes shorter\n"
    "  the new text of string 12 has a character that is not ASCII, \"é\", so all strings are packed anew: 4 bytes longer\n"
    "  string 12 has 7 bytes and its new text 6, so all strings are packed anew: the image is as long as before\n"
    "  string 12 shares its bytes with string 40, so all strings are packed anew: 1,204 bytes longer\n"
    "Of all strings that overlap it the lowest id is told. An empty one overlaps where it stands within the other. Then come the old\n"
    "and the new text of the string, the text of the one that overlaps it, and how long the image is before and after.\n"
    "\n"
    "What hbc patch would refuse is refused in the same words. ID=TEXT, --string-from and --even are as for hbc patch, whose --why\n"
    "tells the same of each of its edits.\n";

static const char INSTALL[] =
    "usage: ./hbc install DIR\n"
    "A command of ./hbc in the repository. Below DIR: bin/hbc, this program, which needs no script then; lib/libhbc.a and\n"
    "include/hbc.h for programs in C; lib/pkgconfig/hbc.pc; share/man/man1/hbc.1. They are for x86-64 Linux.\n";

static const char HELP[] = "usage: hbc help [COMMAND]\nPrints the commands, or what one of them takes and does.\n";

static const struct {
    const char *name, *text;
} TEXTS[] = {
    {"demo", DEMO},     {"extract", EXTRACT}, {"help", HELP},           {"index", INDEX},   {"install", INSTALL}, {"list", LIST},
    {"locate", LOCATE}, {"patch", PATCH},     {"translate", TRANSLATE}, {"verify", VERIFY}, {"why", WHY},
};

void print_usage(FILE *to) {
    print(to, "%s", USAGE);
    finish_printing(to);
}

static const char *text_of(const char *name) {
    for (size_t i = 0; i < sizeof TEXTS / sizeof TEXTS[0]; i++)
        if (strcmp(name, TEXTS[i].name) == 0) return TEXTS[i].text;
    fail("no command '%s': hbc help", name);
}

int help(char **words) {
    if (!*words) {
        print_usage(stdout);
        return 0;
    }
    if (words[1]) fail("help takes one command");
    print(stdout, "%s", text_of(*words));
    finish_printing(stdout);
    return 0;
}
