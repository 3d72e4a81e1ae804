//! What strings say, and images of them.

use crate::patches::odd::packed;
use crate::patches::small::Bare;
use crate::patches::texts;
use crate::random::Random;

/// An image of strings, told with bars between them: n or w and what it says, in capitals an identifier; u and its units as
/// hex numbers; = and the id of a string before whose place it has too, + where it is an identifier. It has a small and a
/// large record, info places and a debug offset.
pub fn image(layout: u8, strings: &str) -> Vec<u8> {
    told(layout, strings).image()
}

pub fn told(layout: u8, strings: &str) -> Bare {
    // Its own string goes: what is kept are the functions.
    let mut bare = Bare { strings: vec![], storage: vec![], ..packed(layout, "n0") };
    for string in strings.split('|').filter(|string| !string.is_empty()) {
        let (kind, said) = string.split_at(1);
        if let "=" | "+" = kind {
            let (wide, _, offset, count) = bare.strings[said.parse::<usize>().unwrap()];
            bare.strings.push((wide, kind == "+", offset, count));
            continue;
        }
        let said = said.strip_prefix(':').unwrap();
        let units: Vec<u16> = match kind {
            "u" | "U" => {
                said.split('.').map(|unit| u16::from_str_radix(unit, 16).unwrap()).collect()
            }
            _ => said.encode_utf16().collect(),
        };
        let wide = !kind.eq_ignore_ascii_case("n");
        let is_identifier = kind.as_bytes()[0].is_ascii_uppercase();
        bare.strings.push((wide, is_identifier, bare.storage.len(), units.len()));
        let bytes = units
            .iter()
            .flat_map(|unit| unit.to_le_bytes().into_iter().take(1 + usize::from(wide)));
        bare.storage.extend(bytes);
    }
    bare
}

/// What the strings of random images say: few words, so that many are alike; among them each that can't be written, those
/// that have to be escaped, and at times two in a row.
pub fn word(random: &mut Random) -> Vec<u16> {
    const WORDS: [&str; 24] = [
        "",
        "a",
        "a",
        "b",
        "ab",
        "No",
        "No",
        "Yes",
        "Yes",
        "Yes",
        "aé",
        "é",
        "日本",
        "😀",
        "\n",
        "a\nb",
        "\t",
        "\"",
        "\\",
        "\\n",
        "\u{7f}",
        "\u{feff}",
        "{n} of {m}",
        "\u{80}",
    ];
    const OTHERS: [&[u16]; 8] = [
        &[0xd800],
        &[0xdc00, 0x61],
        &[0x61, 0xdbff],
        &[0xdc00, 0xd800],
        &[0x1f],
        &[0x61, 0x0d],
        &[0],
        &[0xe9, 1],
    ];
    match random.below(16) {
        0 => random.pick(&OTHERS).to_vec(),
        1 => [word(random), word(random)].concat(),
        2 => vec![random.pick(&[0x78, 0xe9]); random.within(250..260)],
        _ => random.pick(&WORDS).encode_utf16().collect(),
    }
}

/// Two values of two units each that have the same hash.
pub fn of_one_hash() -> [String; 2] {
    let text = |first: char, last: u32| format!("{first}{}", char::from_u32(last).unwrap());
    let other = text('b', 0x800);
    let last = (0x80..0x2000).find(|last| texts::hash(&text('a', *last)) == texts::hash(&other));
    [text('a', last.unwrap()), other]
}
