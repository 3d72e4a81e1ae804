//! The fixed files, by the words of document 02, No. 1, that they are about, and what becomes of the fixed image by them.

use super::fixed::End;
use super::words::of_one_hash;

/// All that are for the fixed image.
pub fn all() -> Vec<Named> {
    let groups = [
        lines(),
        blanks(),
        bytes(),
        quotes(),
        pairs(),
        keywords(),
        headers(),
        twice(),
        untranslated(),
        targets(),
        unknown(),
    ];
    groups.concat()
}

/// Its name, the file, and how it ends.
pub type Named = (&'static str, Vec<u8>, End);

fn sets(name: &'static str, file: impl Into<Vec<u8>>, edits: &[(usize, &str)]) -> Named {
    let edits = edits.iter().map(|(id, value)| (*id, value.to_string())).collect();
    (name, file.into(), End::Sets(edits))
}

/// Yes becomes Ja, and nothing else happens.
fn yes(name: &'static str, file: impl Into<Vec<u8>>) -> Named {
    sets(name, file, &[(0, "Ja"), (3, "Ja"), (8, "Ja")])
}

fn no(name: &'static str, file: impl Into<Vec<u8>>) -> Named {
    (name, file.into(), End::Refused(16))
}

/// A pair as most write it.
pub fn pair(id: &str, text: &str) -> String {
    format!("msgid \"{id}\"\nmsgstr \"{text}\"\n")
}

pub const YES: &str = "msgid \"Yes\"\nmsgstr \"Ja\"\n";

// ---- "Each line ends with a line feed, the last too", "between pairs".

fn lines() -> Vec<Named> {
    vec![
        sets("no line at all", "", &[]),
        sets("one empty line", "\n", &[]),
        sets("comments alone", "# a\n#\n\n#. b\n", &[]),
        yes("one pair", YES),
        yes("an empty line before the first pair", format!("\n{YES}")),
        yes("a comment before the first pair", format!("# one\n#two\n{YES}")),
        yes("an empty line behind the last pair", format!("{YES}\n\n")),
        yes("a comment behind the last pair", format!("{YES}# the end\n")),
        yes("comments of every kind", format!("#\n# a\n#. b\n#: c.js:1\n#| msgid \"No\"\n{YES}")),
        yes("a comment that a translator quoted", format!("#\"x\n# \\q \"\n{YES}")),
        sets(
            "no line between two pairs",
            format!("{YES}{}", pair("No", "Nein")),
            &[(0, "Ja"), (1, "Nein"), (3, "Ja"), (8, "Ja"), (10, "Nein")],
        ),
        sets(
            "lines between two pairs",
            format!("{YES}\n# b\n\n{}", pair("No", "Nein")),
            &[(0, "Ja"), (1, "Nein"), (3, "Ja"), (8, "Ja"), (10, "Nein")],
        ),
        yes("the flag fuzzy is a comment", format!("#, fuzzy\n{YES}")),
        sets("an obsolete pair is a comment", "#~ msgid \"Yes\"\n#~ msgstr \"Ja\"\n", &[]),
        no("the last line has no line feed", YES.trim_end()),
        no("a last comment has no line feed", format!("{YES}#")),
        no("a file of one letter", "x"),
        no("a file of one quote", "\"\n"),
        no("an empty line behind msgid", "msgid \"Yes\"\n\nmsgstr \"Ja\"\n"),
        no("a comment behind msgid", "msgid \"Yes\"\n# a\nmsgstr \"Ja\"\n"),
        no("an empty line within msgid", "msgid \"Y\"\n\n\"es\"\nmsgstr \"Ja\"\n"),
        no("a comment within msgid", "msgid \"Y\"\n#\n\"es\"\nmsgstr \"Ja\"\n"),
        no("an empty line within msgstr", "msgid \"Yes\"\nmsgstr \"J\"\n\n\"a\"\n"),
        no("a comment within msgstr", "msgid \"Yes\"\nmsgstr \"J\"\n# a\n\"a\"\n"),
        no("a flag within msgstr", "msgid \"Yes\"\nmsgstr \"\"\n#, fuzzy\n\"Ja\"\n"),
        no("quoted text before the first pair", format!("\"x\"\n{YES}")),
        no("quoted text behind an empty line", format!("{YES}\n\"x\"\n")),
    ]
}

// ---- "each followed by one space".

fn blanks() -> Vec<Named> {
    vec![
        no("a space before a keyword", format!(" {YES}")),
        no("a space before msgstr", "msgid \"Yes\"\n msgstr \"Ja\"\n"),
        no("a space before quoted text", "msgid \"Y\"\n \"es\"\nmsgstr \"Ja\"\n"),
        no("a space before a comment", format!(" # a\n{YES}")),
        no("a line of spaces", format!("  \n{YES}")),
        no("a space behind the quote", "msgid \"Yes\" \nmsgstr \"Ja\"\n"),
        no("two spaces behind msgid", "msgid  \"Yes\"\nmsgstr \"Ja\"\n"),
        no("two spaces behind msgstr", "msgid \"Yes\"\nmsgstr  \"Ja\"\n"),
        no("no space behind msgid", "msgid\"Yes\"\nmsgstr \"Ja\"\n"),
        no("no space behind msgstr", "msgid \"Yes\"\nmsgstr\"Ja\"\n"),
        no("a tab behind msgid", "msgid\t\"Yes\"\nmsgstr \"Ja\"\n"),
        no("a tab behind msgstr", "msgid \"Yes\"\nmsgstr\t\"Ja\"\n"),
        no("a tab as a line", format!("\t\n{YES}")),
        no("carriage returns", YES.replace('\n', "\r\n")),
        no("a carriage return behind a comment", format!("# a\r\n{YES}")),
        no("a carriage return as a line", format!("\r\n{YES}")),
        no("a byte order mark", format!("\u{feff}{YES}")),
        no("a byte order mark before a comment", format!("\u{feff}# a\n{YES}")),
        no("a space of no break", "msgid\u{a0}\"Yes\"\nmsgstr \"Ja\"\n"),
        sets("spaces within quotes", pair("No", "  N o "), &[(1, "  N o "), (10, "  N o ")]),
    ]
}

// ---- "a raw byte below 32 within a line is outside the subset", "bytes that aren't UTF-8".

fn bytes() -> Vec<Named> {
    let text = |bytes: &[u8]| [b"msgid \"Yes\"\nmsgstr \"J", bytes, b"a\"\n"].concat();
    let comment = |bytes: &[u8]| [b"# a", bytes, b"\n", YES.as_bytes()].concat();
    let all = |value: &str| {
        let value = format!("J{value}a");
        [0, 3, 8].map(|id| (id, value.clone())).to_vec()
    };
    let mut cases = vec![
        yes("127 in a comment", comment(b"\x7f")),
        yes("characters in a comment", comment("é\u{80}日😀\u{feff}\u{10ffff}".as_bytes())),
        yes("U+FFFD in a comment", comment("\u{fffd}".as_bytes())),
        no("a character cut by two lines", *b"msgid \"Yes\"\nmsgstr \"J\xc3\"\n\"\xa9\"\n"),
        no("a character cut by the end", *b"msgid \"Yes\"\nmsgstr \"Ja\"\n# \xe2\x82"),
        no("a character cut by a line feed", *b"# \xe2\x82\n"),
    ];
    for said in [
        "\u{7f}",
        "\u{80}",
        "é",
        "\u{7ff}",
        "\u{800}",
        "\u{feff}",
        "\u{ffff}",
        "😀",
        "\u{d7ff}",
        "\u{10ffff}",
    ] {
        cases.push(("a character as text", text(said.as_bytes()), End::Sets(all(said))));
    }
    for byte in [0, 1, 8, 9, 11, 12, 13, 27, 31] {
        cases.push(no("a byte below 32 in text", text(&[byte])));
        cases.push(no("a byte below 32 in a comment", comment(&[byte])));
    }
    // Each is refused for another row of the table of well-formed byte sequences.
    let wrong: [&[u8]; 12] = [
        b"\x80",
        b"\xbf",
        b"\xc3",
        b"\xc0\x80",
        b"\xc1\xbf",
        b"\xc3\x29",
        b"\xe0\x9f\xbf",
        b"\xed\xa0\x80",
        b"\xef\xbf",
        b"\xf0\x8f\xbf\xbf",
        b"\xf4\x90\x80\x80",
        b"\xff",
    ];
    for bytes in wrong {
        cases.push(no("no UTF-8 in text", text(bytes)));
        cases.push(no("no UTF-8 in a comment", comment(bytes)));
        cases.push(no("no UTF-8 in a msgid", [b"msgid \"", bytes, b"\"\nmsgstr \"\"\n"].concat()));
    }
    cases
}

// ---- "quoted text", "the escapes `\n`, `\t`, `\"`, `\\`".

fn quotes() -> Vec<Named> {
    let seven = "a\\nb\\tc\\\"d\\\\e";
    let text = |said: &str| format!("msgid \"Yes\"\nmsgstr {said}\n");
    vec![
        sets("each escape in a msgid", pair(seven, "x"), &[(7, "x")]),
        sets(
            "each escape in a msgstr",
            pair("No", "\\n\\t\\\"\\\\"),
            &[(1, "\n\t\"\\"), (10, "\n\t\"\\")],
        ),
        sets("a backslash and an n", pair("No", "\\\\n"), &[(1, "\\n"), (10, "\\n")]),
        sets("a backslash and a quote", pair("No", "\\\\\\\""), &[(1, "\\\""), (10, "\\\"")]),
        sets("letters n and t", pair("No", "nt"), &[(1, "nt"), (10, "nt")]),
        no("the escape r", text("\"J\\ra\"")),
        no("the escape a", text("\"J\\aa\"")),
        no("the escape '", text("\"J\\'a\"")),
        no("the escape 0", text("\"J\\000a\"")),
        no("the escape x", text("\"J\\x41\"")),
        no("the escape u", text("\"J\\u0041\"")),
        no("the escape N", text("\"J\\Na\"")),
        no("a backslash and a character", text("\"J\\éa\"")),
        no("a backslash before the line feed", text("\"Ja\\")),
        no("a backslash before the last quote", text("\"Ja\\\"")),
        no("a bare quote", text("\"J\"a\"")),
        no("three quotes", text("\"\"\"")),
        no("text behind the quote", text("\"Ja\"x")),
        no("a comment behind the quote", text("\"Ja\" # x")),
        no("no quote", text("Ja")),
        no("no quote before", text("Ja\"")),
        no("no quote behind", text("\"Ja")),
        no("one quote alone", text("\"")),
        no("nothing behind msgstr", "msgid \"Yes\"\nmsgstr \n"),
        no("msgstr alone", "msgid \"Yes\"\nmsgstr\n"),
        no("other quotes", text("'Ja'")),
        no("quotes of typographers", text("“Ja”")),
        no("two quoted texts on one line", text("\"J\" \"a\"")),
        yes("msgid in pieces", "msgid \"\"\n\"Y\"\n\"\"\n\"es\"\nmsgstr \"Ja\"\n"),
        yes("msgstr in pieces", "msgid \"Yes\"\nmsgstr \"\"\n\"J\"\n\"a\"\n\"\"\n"),
        yes("both in pieces", "msgid \"Ye\"\n\"s\"\nmsgstr \"J\"\n\"a\"\n"),
        no("an escape in two pieces", text("\"J\\\"\n\"na\"")),
        no("text behind a piece", text("\"J\"\n\"a\"x")),
        no("an open piece", text("\"J\"\n\"a")),
    ]
}

// ---- "`msgid` then `msgstr`".

fn pairs() -> Vec<Named> {
    vec![
        no("a msgid alone", "msgid \"Yes\"\n"),
        no("a msgid alone behind a pair", format!("{YES}\nmsgid \"No\"\n")),
        no("a msgid and pieces alone", "msgid \"Y\"\n\"es\"\n"),
        no("a msgstr alone", "msgstr \"Ja\"\n"),
        no("a msgstr before its msgid", "msgstr \"Ja\"\nmsgid \"Yes\"\n"),
        no("two msgids in a row", format!("msgid \"No\"\n{YES}")),
        no("three msgids in a row", format!("msgid \"No\"\nmsgid \"x\"\n{YES}")),
        no("two msgids in a row behind a pair", format!("{YES}\nmsgid \"q\"\n{}", pair("No", ""))),
        no("two msgstrs in a row", format!("{YES}msgstr \"Ja\"\n")),
        no("a msgstr behind an empty line", format!("{YES}\nmsgstr \"Ja\"\n")),
        no("both on one line", "msgid \"Yes\" msgstr \"Ja\"\n"),
    ]
}

fn keywords() -> Vec<Named> {
    vec![
        no("msgctxt", format!("msgctxt \"menu\"\n{YES}")),
        no("msgid_plural", "msgid \"Yes\"\nmsgid_plural \"Yeses\"\nmsgstr \"Ja\"\n"),
        no("msgstr[0]", "msgid \"Yes\"\nmsgstr[0] \"Ja\"\n"),
        no("a plural pair", "msgid \"Yes\"\nmsgid_plural \"Yeses\"\nmsgstr[0] \"Ja\"\n"),
        no("domain", format!("domain \"menu\"\n{YES}")),
        no("MSGID", format!("{YES}MSGID \"No\"\nMSGSTR \"Nein\"\n")),
        no("MSGSTR", "msgid \"Yes\"\nMSGSTR \"Ja\"\n"),
        no("Msgid", "Msgid \"Yes\"\nmsgstr \"Ja\"\n"),
        no("msgids", "msgids \"Yes\"\nmsgstr \"Ja\"\n"),
        no("msgi", "msgi \"Yes\"\nmsgstr \"Ja\"\n"),
        no("msg", "msg\n"),
        no("another comment", format!("// a\n{YES}")),
        no("a semicolon", format!("; a\n{YES}")),
    ]
}

// ---- "The pair with the empty msgid is the header and isn't applied".

fn headers() -> Vec<Named> {
    let header = pair("", "Content-Type: text/plain; charset=ISO-8859-1\\n");
    vec![
        yes("the header first", format!("{header}\n{YES}")),
        yes("the header last", format!("{YES}\n{header}")),
        yes("the header in pieces", format!("msgid \"\"\n\"\"\nmsgstr \"\"\n\"x\\n\"\n{YES}")),
        yes("the header without text", format!("{}{YES}", pair("", ""))),
        sets("the header alone", header.clone(), &[]),
        sets("the header is not applied to the empty string", pair("", "x"), &[]),
        yes("no header: the first piece is empty", "msgid \"\"\n\"Yes\"\nmsgstr \"Ja\"\n"),
        no("the header twice", format!("{header}{YES}{header}")),
        no("the header twice, otherwise", format!("{header}{}", pair("", ""))),
        no("the header twice, once in pieces", format!("{header}msgid \"\"\n\"\"\nmsgstr \"\"\n")),
    ]
}

// ---- "a msgid given twice".

fn twice() -> Vec<Named> {
    let no_pair = pair("No", "Nein");
    vec![
        no("twice", format!("{YES}{no_pair}{}", pair("Yes", "Oui"))),
        no("twice, side by side", format!("{YES}{}", pair("Yes", "Oui"))),
        no("twice the same", format!("{YES}\n{YES}")),
        no("twice, once in pieces", format!("{YES}msgid \"Y\"\n\"es\"\nmsgstr \"Oui\"\n")),
        no(
            "twice, in other pieces",
            "msgid \"Y\"\n\"es\"\nmsgstr \"\"\nmsgid \"Ye\"\n\"s\"\nmsgstr \"\"\n",
        ),
        no("twice untranslated", format!("{}{no_pair}{}", pair("Yes", ""), pair("Yes", ""))),
        no("twice, once untranslated", format!("{YES}{}", pair("Yes", ""))),
        no("twice, first untranslated", format!("{}{YES}", pair("Yes", ""))),
        no("twice and unknown", format!("{}{}", pair("q", "x"), pair("q", "x"))),
        no("twice, unknown and untranslated", format!("{}{}", pair("q", ""), pair("q", ""))),
        no("twice with escapes", format!("{0}{0}", pair("a\\nb\\tc\\\"d\\\\e", "x"))),
        no("the third pair twice", {
            format!("{YES}{no_pair}{}{}", pair("Café", "x"), pair("Café", "y"))
        }),
        sets(
            "two that differ by a letter's size",
            format!("{YES}{}", pair("yes", "")),
            &[(0, "Ja"), (3, "Ja"), (8, "Ja")],
        ),
        sets(
            "one that starts as another",
            format!("{YES}{}{}", pair("Ye", ""), pair("Yess", "")),
            &[(0, "Ja"), (3, "Ja"), (8, "Ja")],
        ),
        sets(
            "two that a form of normalizing would join",
            format!("{}{}", pair("Café", "x"), pair("Cafe\u{301}", "")),
            &[(5, "x")],
        ),
    ]
}

// ---- "an empty msgstr means not translated and isn't applied".

fn untranslated() -> Vec<Named> {
    vec![
        sets("untranslated", pair("Yes", ""), &[]),
        sets("untranslated in pieces", "msgid \"Yes\"\nmsgstr \"\"\n\"\"\n", &[]),
        yes("untranslated beside one", format!("{}{YES}", pair("No", ""))),
        sets("untranslated and unknown", pair("q", ""), &[]),
        sets("untranslated identifier", pair("Only", ""), &[]),
        yes("no empty msgstr: the first piece is empty", "msgid \"Yes\"\nmsgstr \"\"\n\"Ja\"\n"),
    ]
}

// ---- "looked up in the image as given, identifiers left out, and every plain string with that value gets the msgstr".

fn targets() -> Vec<Named> {
    let yes_no = [(0, "No"), (1, "Yes"), (3, "No"), (8, "No"), (10, "Yes")];
    vec![
        yes("every plain string with the value, wide or narrow", YES),
        sets("strings at one place", pair("No", "Nein"), &[(1, "Nein"), (10, "Nein")]),
        sets(
            "the same length in place but for the shared",
            pair("No", "Ne"),
            &[(1, "Ne"), (10, "Ne")],
        ),
        sets("a wide one", pair("Café", "Thé"), &[(5, "Thé")]),
        sets("a wide one becomes narrow", pair("Café", "Tea"), &[(5, "Tea")]),
        sets("beyond the plane", pair("😀", "🎉"), &[(9, "🎉")]),
        sets("127", pair("\u{7f}", "x"), &[(13, "x")]),
        sets("in place", pair("\u{7f}", "y"), &[(13, "y")]),
        sets("the same again", pair("Yes", "Yes"), &[(0, "Yes"), (3, "Yes"), (8, "Yes")]),
        sets("the same again where it is alone", pair("\u{7f}", "\u{7f}"), &[(13, "\u{7f}")]),
        sets("the same again of a wide one", pair("Café", "Café"), &[(5, "Café")]),
        sets("swapped", format!("{}{}", pair("Yes", "No"), pair("No", "Yes")), &yes_no),
        sets(
            "swapped, the other first",
            format!("{}{}", pair("No", "Yes"), pair("Yes", "No")),
            &yes_no,
        ),
        sets(
            "what a patch makes is no target",
            format!("{}{}", pair("Yes", "Café"), pair("Café", "x")),
            &[(0, "Café"), (3, "Café"), (5, "x"), (8, "Café")],
        ),
        sets(
            "what a patch hides is a target",
            format!("{}{}", pair("Café", "Yes"), pair("Yes", "Ja")),
            &[(0, "Ja"), (3, "Ja"), (5, "Yes"), (8, "Ja")],
        ),
        sets(
            "in another order than the ids",
            format!("{}{}{}", pair("😀", "x"), pair("Café", "yy"), pair("No", "zzz")),
            &[(1, "zzz"), (5, "yy"), (9, "x"), (10, "zzz")],
        ),
        sets(
            "a long value",
            pair("No", &"x".repeat(255)),
            &[(1, &"x".repeat(255)), (10, &"x".repeat(255))],
        ),
        sets(
            "a long wide value",
            pair("No", &"é".repeat(255)),
            &[(1, &"é".repeat(255)), (10, &"é".repeat(255))],
        ),
    ]
}

// ---- "14 for a msgid to be applied that no plain string has".

fn unknown() -> Vec<Named> {
    let is = |name, file: String, number| -> Named { (name, file.into(), End::Refused(number)) };
    let unknown = pair("q", "x");
    vec![
        is("unknown", unknown.clone(), 14),
        is("unknown behind a known one", format!("{YES}{unknown}"), 14),
        is("unknown before a known one", format!("{unknown}{YES}"), 14),
        is("only an identifier has it", pair("Only", "x"), 14),
        is("a part of a value", pair("Ye", "x"), 14),
        is("more than a value", pair("Yess", "x"), 14),
        is("by another letter's size", pair("YES", "x"), 14),
        is("what a patch makes", format!("{YES}{}", pair("Ja", "Yes")), 14),
        is("U+FFFD for a lone surrogate", pair("\u{fffd}a", "x"), 14),
        is(
            "U+FFFD for a lone surrogate, and a known one",
            format!("{YES}{}", pair("\u{fffd}a", "x")),
            14,
        ),
        is("a space for a control unit", pair(" x", "x"), 14),
        is("16 behind an unknown one", format!("{unknown}x\n"), 16),
        is("16 before an unknown one", format!("x\n{unknown}"), 16),
        is("16 in a comment behind an unknown one", format!("{unknown}#\t\n"), 16),
        is("twice behind an unknown one", format!("{unknown}{YES}{YES}"), 16),
        is("twice before an unknown one", format!("{YES}{YES}{unknown}"), 16),
        is("a last line without end behind an unknown one", format!("{unknown}#"), 16),
    ]
}

// ---- Values that a sum over their units does not tell apart; and images with no strings, or with one value.

/// Strings, a file, and how it ends.
pub type Alike = (&'static str, String, Vec<u8>, End);

pub fn alike() -> Vec<Alike> {
    let [one, other] = of_one_hash();
    let strings = format!("w:{one}|w:{other}|n:a|w:{one}|N:b");
    let set = |name, strings: &str, file: String, edits: &[(usize, &str)]| {
        let (name, file, end) = sets(name, file, edits);
        (name, strings.to_owned(), file, end)
    };
    let refused = |name, strings: &str, file: String, number| {
        (name, strings.to_owned(), file.into_bytes(), End::Refused(number))
    };
    let [both, turned] = [[&one, &other], [&other, &one]]
        .map(|[first, second]| format!("{}{}", pair(first, "x"), pair(second, "yy")));
    // Zeros in front add nothing to a hash.
    let zeros = "n:\0Yes|n:Yes|w:\0\0Yes|w:Yes";
    vec![
        set("the first of one hash", &strings, pair(&one, "x"), &[(0, "x"), (3, "x")]),
        set("the second of one hash", &strings, pair(&other, "x"), &[(1, "x")]),
        set("two of one hash", &strings, both, &[(0, "x"), (1, "yy"), (3, "x")]),
        set("two of one hash, turned", &strings, turned, &[(0, "yy"), (1, "x"), (3, "yy")]),
        set(
            "two of one hash, one untranslated",
            &strings,
            format!("{}{}", pair(&one, ""), pair(&other, "x")),
            &[(1, "x")],
        ),
        refused("of one hash and unknown", &format!("w:{one}"), pair(&other, "x"), 14),
        refused(
            "of one hash, twice",
            &strings,
            [&one, &other, &one].map(|id| pair(id, "x")).concat(),
            16,
        ),
        set("zeros in front", zeros, pair("Yes", "Ja"), &[(1, "Ja"), (3, "Ja")]),
        refused("zeros in front alone", "n:\0Yes", pair("Yes", "Ja"), 14),
        set("no string and no line", "", String::new(), &[]),
        set("no string, untranslated", "", pair("Yes", ""), &[]),
        refused("no string", "", pair("Yes", "Ja"), 14),
        refused("no string and a line outside", "", format!("{YES}x\n"), 16),
        refused("no plain string", "N:Yes|W:Yes", pair("Yes", "Ja"), 14),
        set(
            "every string",
            "n:a|w:a|=0|=1",
            pair("a", "b"),
            &[(0, "b"), (1, "b"), (2, "b"), (3, "b")],
        ),
    ]
}
