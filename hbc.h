// Nepuladrim for callers in C: the proved functions of crate `hbc`, exported by `hbc_c`. `./hbc install DIR` puts this file and their
// archive, libhbc.a for x86-64, below a folder; `tools/build` writes the archive to target/staticlib.
//
// A slice is a pointer and a length; the pointer of an empty one must not be null. What a function reads and what it writes must
// not overlap. `layout` is 0 modern; 1 legacy, 2 with big integers, 3 with function sources, 4 both. Strings and functions go by
// their ids from 0.
//
// `mode` says where strings go when a string patch packs them anew. 0 plain: each where the one before it ends. 1 even: the same, but
// a wide string, an empty one too, starts at an even offset of storage, so at an even place, behind one zero byte where that is needed.
// A patch that fits in place moves no string, and is the same in both.
//
// String patches of different strings, in one mode, may be made in any order, one behind the other: where every call is accepted, the last
// image is the same, byte for byte. What a patch by value finds must not hang on the order, and no other patch may set that string.
//
// A function that writes answers the length of what it made, which is at the front of `out`, all later bytes as they were; or it
// answers NEPULADRIM_REFUSED and the number of the refusal, as documents 01 and 02 have it, and no byte is changed.
#ifndef NEPULADRIM_HBC_H
#define NEPULADRIM_HBC_H

#include <stddef.h>
#include <stdint.h>

#define NEPULADRIM_REFUSED (UINT64_C(1) << 32)

enum nepuladrim_mode { NEPULADRIM_PLAIN, NEPULADRIM_EVEN };

// 0 where the bytes are an image of the layout, else the number of the refusal: 1 to 6, or 15 for another layout byte.
uint8_t nepuladrim_admit(const uint8_t *image, size_t image_length, uint8_t layout);

// File length and footer, in the lent image. Refused with 1.
uint64_t nepuladrim_finalize(uint8_t *image, size_t image_length);

// A minimal modern image: strings as one text and their end places, and the body of one function. `ends_length` counts the ends,
// which are words, and not bytes. Refused with 15, 8, 12, 11, 13.
uint64_t nepuladrim_build(uint32_t version, const uint8_t *text, size_t text_length, const uint32_t *ends, size_t ends_length,
                          const uint8_t *body, size_t body_length, uint8_t *out, size_t out_length);

// The bytes of string `id` at the front of `out`: ASCII where it is narrow, else UTF-16, low byte first. Refused with 15, 1 to 7, 13.
uint64_t nepuladrim_string(const uint8_t *image, size_t image_length, uint8_t layout, uint32_t id, uint8_t *out,
                           size_t out_length);

// The bytes of the body of function `id`. Refused with 15, 1 to 7, 13.
uint64_t nepuladrim_body(const uint8_t *image, size_t image_length, uint8_t layout, uint32_t id, uint8_t *out,
                         size_t out_length);

// String `id` becomes a value, which is UTF-8. Refused with 15, for another layout or mode byte, 1 to 8, 11, 12, 13.
uint64_t nepuladrim_patch_string_by_id(const uint8_t *image, size_t image_length, uint8_t layout, uint8_t mode, uint32_t id,
                                       const uint8_t *value, size_t value_length, uint8_t *out, size_t out_length);

// The lowest string that has the old value becomes the new one. Refused with 15 likewise, 1 to 6, 8, 14, 11, 12, 13.
uint64_t nepuladrim_patch_string_replace(const uint8_t *image, size_t image_length, uint8_t layout, uint8_t mode,
                                         const uint8_t *old_value, size_t old_length, const uint8_t *new_value, size_t new_length,
                                         uint8_t *out, size_t out_length);

// Strings become values in one pass: in place where each could be so on the image as it is given, else all strings are packed anew, once.
// `ids` has the strings, `text` the values behind each other, which are UTF-8, and `ends` where each ends: value J is the text from the
// end before it, the first one from 0, to ends[J]. `ids_length` and `ends_length` count words, and are the same; text behind the last end
// is not looked at. The order of the list does not matter. With no ids the image gets its file length and footer. Where the same patches
// by id one after the other are accepted, in the same mode, their last image is the one that is made here. What lies between is not
// judged: a list may be taken though one of its single patches would meet a limit.
// Refused with 15, for another layout or mode byte, or where there are not as many ends as ids, or an end is below the one before it or
// past the text; 1 to 6; 7 for any id; 17 for any that is given twice, be it with the same value; 8 for any value; and 11, 12, 13 for
// the image that would come out.
uint64_t nepuladrim_patch_strings(const uint8_t *image, size_t image_length, uint8_t layout, uint8_t mode, const uint32_t *ids,
                                  size_t ids_length, const uint8_t *text, size_t text_length, const uint32_t *ends,
                                  size_t ends_length, uint8_t *out, size_t out_length);

// The strings of an image become what a translators' file says, all of it or nothing. `file` is a subset of PO: pairs of a msgid and a
// msgstr, each behind its keyword and one space as quoted text, with lines of quoted text that continue it; between pairs, empty lines and
// lines that begin with #. Escapes are \n, \t, \" and \\. Every line ends with a line feed, and has no other byte below 32; all is UTF-8.
// The pair with the empty msgid, the header, and pairs with an empty msgstr are not applied. Each other msgid is looked up in the image as
// it is given, and every plain string that has it gets the msgstr; no identifier does. What comes out is what the patches by id make one
// after the other, lowest id first; with none the image gets its file length and footer.
// `text`, `ends` and `work` are lent to work in: of bytes as many as the file has; of words one for every 8 bytes of the file, rounded
// down, and one more; and of words three times as many as that and one for each string of the image. `ends_length` and `work_length`
// count words. What is asked for of them is zeros afterwards, whatever the answer is, and what lies behind that is as it was.
// Refused with 15, for another layout or mode byte; 1 to 6; 13 where one of the three is shorter, or the file has 2^32 bytes or more; these
// write nothing, to the three neither. Then with 16 for a line outside the subset, bytes that are not UTF-8, or a msgid that is given
// twice, be it the header's; 14 for a msgid to be applied that no plain string has; and 11, 12, 13 as the first of the patches by id that
// meets one, each with the room of `out`; with none, 13 where `out` is shorter than the image.
uint64_t nepuladrim_read_po(const uint8_t *image, size_t image_length, uint8_t layout, uint8_t mode, const uint8_t *file,
                            size_t file_length, uint8_t *text, size_t text_length, uint32_t *ends, size_t ends_length, uint32_t *work,
                            size_t work_length, uint8_t *out, size_t out_length);

// A translators' file of an image: one pair for each plain string that is not empty, is valid UTF-16 and has no unit below 32 but newline
// and tab, in the order of ids, equal ones once; its msgid on one line, an empty msgstr, an empty line. nepuladrim_read_po takes the file,
// and reads those msgids in that order. `work` is lent to work in, four words for each string of the image: they are zeros afterwards.
// Refused with 15, 1 to 6; 13 where `work` is shorter, of which nothing is written then; and 13 where `out` is shorter than the file, or
// that would have 2^32 bytes or more.
uint64_t nepuladrim_write_po(const uint8_t *image, size_t image_length, uint8_t layout, uint32_t *work, size_t work_length, uint8_t *out,
                             size_t out_length);

// The body of function `id` becomes other bytes. Refused with 15, 1 to 7, 9 to 13.
uint64_t nepuladrim_patch_function_bytes(const uint8_t *image, size_t image_length, uint8_t layout, uint32_t id,
                                         const uint8_t *body, size_t body_length, uint8_t *out, size_t out_length);

// An index of an image's strings, from which each of them is told without a walk over the tables: three runs of words, in each run one
// word for each string, by id. The first run has where strings start in storage, counted from its start; the second their lengths as the
// table counts them, in bytes where a string is narrow and in units of 16 bits where it is wide; the third their flags. `index_length`
// counts words. Those behind the three runs stay as they are. The answer is the number of strings.
// Refused with 15, 1 to 6; and 13 where the index has fewer than three words for each string. Then no word of it is written.
uint64_t nepuladrim_fill_index(const uint8_t *image, size_t image_length, uint8_t layout, uint32_t *index, size_t index_length);

// The words of a string in an index, in the order of the runs, and as they are put at the front of what is lent for them.
enum nepuladrim_index_word { NEPULADRIM_INDEX_OFFSET, NEPULADRIM_INDEX_LENGTH, NEPULADRIM_INDEX_FLAGS, NEPULADRIM_INDEX_WORDS };

// The bits of its flags; all others are 0.
enum nepuladrim_index_flag { NEPULADRIM_INDEX_WIDE = 1, NEPULADRIM_INDEX_IDENTIFIER = 2 };

// What an index for `count` strings holds of string `id`: NEPULADRIM_INDEX_WORDS words at the front of `out`, which is also the answer.
// `index_length` and `out_length` count words. An index is valid only for the image that it was filled from, and with the count that
// filling answered. Nothing tells whether it is so: of any other content, what the three runs hold is answered as it is.
// Refused with 7 for an id that is not below the count; then 13 where the index has fewer than three words for each of so many strings,
// however many are stated; then 13 where `out` has fewer than NEPULADRIM_INDEX_WORDS words.
uint64_t nepuladrim_look_up(const uint32_t *index, size_t index_length, size_t count, uint32_t id, uint32_t *out, size_t out_length);

// Why a patch of string `id` to a value, which is UTF-8, is made in place, or by packing all strings anew. Nothing is made. A code and two
// words are put at the front of `out`, NEPULADRIM_REASON_WORDS words, which is also the answer. The code is the first of those below that
// holds, and nepuladrim_patch_string_by_id, in that mode and with room enough, goes by it. Words that a code does not name are 0.
// `index` is lent for it, three words for each string of the image. It is filled anew, so that it is afterwards as nepuladrim_fill_index
// leaves it, also where the patch is refused. `index_length` and `out_length` count words.
// Refused with 15, for another layout or mode byte; 1 to 6; and 13 where the index is shorter: then no word of it is written. Then with 7,
// 8, 11, 12, as the patch is; and last of all with 13 where `out` has fewer than NEPULADRIM_REASON_WORDS words.
uint64_t nepuladrim_why(const uint8_t *image, size_t image_length, uint8_t layout, uint8_t mode, uint32_t id, const uint8_t *value,
                        size_t value_length, uint32_t *index, size_t index_length, uint32_t *out, size_t out_length);

// The words of a reason, as they are put at the front of what is lent for them.
enum nepuladrim_reason_word { NEPULADRIM_REASON_CODE, NEPULADRIM_REASON_FIRST, NEPULADRIM_REASON_SECOND, NEPULADRIM_REASON_WORDS };

// The codes. By the first the value is written over the string, and no string moves; by each other one all strings are packed anew.
enum nepuladrim_reason {
    NEPULADRIM_IN_PLACE, // the string is narrow, the value ASCII and as long, and no other string overlaps
    NEPULADRIM_WIDE, // the string is wide, whatever the value is
    NEPULADRIM_NOT_ASCII, // the value has a byte over 0x7F
    NEPULADRIM_LENGTHS, // the lengths differ: the first word is that of the string in bytes, the second that of the value
    NEPULADRIM_OVERLAP // another string shares a byte with it, or one of the two is empty and lies within: the first word is the lowest id
};

// A part of the listing of an image, from byte `from` on: its strings and functions as text, as much as there is room for, at most
// 67,108,864 bytes. A part that is shorter than both is the last. `index` is lent for it, three words for each string of the image, and
// `index_length` counts words: each part fills it anew, so that it is afterwards as nepuladrim_fill_index leaves it, also where nothing is
// listed. Refused with 15, 1 to 6; and 13 where the index is shorter, of which nothing is written then.
uint64_t nepuladrim_list(const uint8_t *image, size_t image_length, uint8_t layout, size_t from, uint32_t *index, size_t index_length,
                         uint8_t *out, size_t out_length);

// What is known of an image, as NEPULADRIM_IMAGE_FACTS numbers at the front of `out`, in the order of the names below. Section K
// reaches from its start to that of the next; the last one, the footer, to the image's end. Refused with 15, 1 to 6, 13.
uint64_t nepuladrim_image_facts(const uint8_t *image, size_t image_length, uint8_t layout, uint64_t *out, size_t out_length);

enum nepuladrim_image_fact {
    NEPULADRIM_LENGTH,
    NEPULADRIM_STATED_LENGTH, // the file length that the header states
    NEPULADRIM_LENGTH_IS_RIGHT, // 1 where that is the length, else 0
    NEPULADRIM_FOOTER_IS_RIGHT, // 1 where the footer is the SHA-1 of all bytes before it, else 0
    NEPULADRIM_FUNCTIONS,
    NEPULADRIM_KINDS,
    NEPULADRIM_IDENTIFIERS,
    NEPULADRIM_STRINGS,
    NEPULADRIM_OVERFLOWS,
    NEPULADRIM_STORAGE_SIZE, // in bytes, without the zeros up to the tail
    NEPULADRIM_RECORDS_AT,
    NEPULADRIM_KINDS_AT,
    NEPULADRIM_HASHES_AT,
    NEPULADRIM_SMALL_AT,
    NEPULADRIM_OVERFLOW_AT,
    NEPULADRIM_STORAGE_AT,
    NEPULADRIM_TAIL_AT,
    NEPULADRIM_FOOTER_AT,
    NEPULADRIM_IMAGE_FACTS
};

// What is known of string `id`, as NEPULADRIM_STRING_FACTS numbers likewise. Refused with 15, 1 to 7, 13.
uint64_t nepuladrim_string_facts(const uint8_t *image, size_t image_length, uint8_t layout, uint32_t id, uint64_t *out,
                                 size_t out_length);

enum nepuladrim_string_fact {
    NEPULADRIM_STRING_AT,
    NEPULADRIM_STRING_BYTES,
    NEPULADRIM_STRING_UNITS, // of 16 bits where it is wide, else bytes
    NEPULADRIM_STRING_IS_WIDE, // 1 or 0
    NEPULADRIM_STRING_IS_IDENTIFIER, // 1 or 0
    NEPULADRIM_STRING_SMALL_VISITED, // how many small entries are visited to find it: its own and those before it
    NEPULADRIM_STRING_OVERFLOW_VISITED, // how many overflow pairs: those of these entries that overflow
    NEPULADRIM_STRING_FACTS
};

// What is known of the strings from `id` on, NEPULADRIM_STRING_FACTS numbers for each, one behind the other: of as many strings as
// there are and as there is room for, in one pass over the tables. The answer counts the numbers; 0 where there is no such string.
// Refused with 15, 1 to 6.
uint64_t nepuladrim_string_facts_from(const uint8_t *image, size_t image_length, uint8_t layout, uint32_t id, uint64_t *out,
                                      size_t out_length);

#endif
