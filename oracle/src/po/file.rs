//! A second reading of document 02, No. 1: the pairs of a file. What a program would take besides, with a mistake on
//! purpose, is first brought into the subset, so that the reader itself knows nothing of it.

use super::slip::Slip;

/// A pair, unescaped and joined, and how many pieces of quoted text gave each half.
#[derive(Clone, Debug)]
pub struct Pair {
    pub id: String,
    pub text: String,
    pub id_pieces: Vec<String>,
    pub text_pieces: Vec<String>,
}

/// The pairs up to the first line that is outside, if there is one.
pub struct Parsed {
    pub pairs: Vec<Pair>,
    pub is_outside: bool,
}

pub fn parsed(file: &[u8], slip: Option<Slip>) -> Parsed {
    let file = brought_in(file, slip);
    let Ok(text) = std::str::from_utf8(&file) else {
        return Parsed { pairs: vec![], is_outside: true };
    };
    // "Each line ends with a line feed, the last too".
    let mut lines: Vec<&str> = text.split('\n').collect();
    let is_open = lines.pop() != Some("");
    let reader = Reader { slip, lines: lines.into_iter().map(|line| kind(line, slip)).collect() };
    let mut parsed = reader.run();
    parsed.is_outside |= is_open;
    parsed
}

enum Line {
    /// "lines that are empty or begin with `#`"
    Aside,
    Id(String),
    Text(String),
    /// "lines of quoted text alone"
    More(String),
    Outside,
}

fn kind(line: &str, slip: Option<Slip>) -> Line {
    let quoted = |text| unquoted(text, slip);
    let found = if line.bytes().any(|byte| byte < 32) && slip != Some(Slip::LowBytesTaken) {
        None
    } else if line.is_empty() || line.starts_with('#') {
        Some(Line::Aside)
    } else if let Some(text) = line.strip_prefix("msgid ") {
        quoted(text).map(Line::Id)
    } else if let Some(text) = line.strip_prefix("msgstr ") {
        quoted(text).map(Line::Text)
    } else {
        quoted(line).map(Line::More)
    };
    found.unwrap_or(Line::Outside)
}

/// What stands between the quotes, "the escapes `\n`, `\t`, `\"`, `\\`".
fn unquoted(text: &str, slip: Option<Slip>) -> Option<String> {
    let slips = |one| slip == Some(one);
    let mut text = text;
    if slips(Slip::TextBehindTaken) {
        text = &text[..=text.rfind('"')?];
    }
    let text = text.strip_prefix('"')?;
    let text = match text.strip_suffix('"') {
        None if slips(Slip::NoQuoteBehindTaken) => text,
        stripped => stripped?,
    };
    let mut all = String::new();
    let mut characters = text.chars();
    while let Some(one) = characters.next() {
        match one {
            '"' if !slips(Slip::BareQuotesTaken) => return None,
            '\\' => match characters.next() {
                Some(escaped) => all.push_str(&unescaped(escaped, slip)?),
                None if slips(Slip::OpenEscapeTaken) => all.push('\\'),
                None => return None,
            },
            one => all.push(one),
        }
    }
    Some(all)
}

fn unescaped(escaped: char, slip: Option<Slip>) -> Option<String> {
    let one = match escaped {
        'n' if slip == Some(Slip::NewlineAsN) => 'n',
        't' if slip == Some(Slip::TabAsT) => 't',
        'n' => '\n',
        't' => '\t',
        '"' | '\\' => escaped,
        'r' if slip == Some(Slip::OtherEscapesTaken) => '\r',
        other if slip == Some(Slip::OtherEscapesTaken) => other,
        _ => return None,
    };
    Some(if slip == Some(Slip::EscapesKept) { format!("\\{escaped}") } else { one.into() })
}

struct Reader {
    slip: Option<Slip>,
    lines: Vec<Line>,
}

impl Reader {
    fn slips(&self, slip: Slip) -> bool {
        self.slip == Some(slip)
    }

    /// "between pairs, lines that are empty or begin with `#`; `msgid` then `msgstr`".
    fn run(&self) -> Parsed {
        let mut pairs = vec![];
        let mut at = 0;
        while at < self.lines.len() {
            match &self.lines[at] {
                Line::Aside => at += 1,
                Line::Id(first) => match self.pair(first, at + 1) {
                    Some((pair, next)) => {
                        pairs.push(pair);
                        at = next;
                    }
                    None if self.is_passed(at) => at += 1,
                    None => return Parsed { pairs, is_outside: true },
                },
                Line::Text(_) if self.slips(Slip::TextWithoutIdTaken) => at += 1,
                _ => return Parsed { pairs, is_outside: true },
            }
        }
        Parsed { pairs, is_outside: false }
    }

    /// A msgid that no msgstr follows, where a mistake lets it pass.
    fn is_passed(&self, at: usize) -> bool {
        match self.lines.get(at + 1) {
            None => self.slips(Slip::LastIdWithoutTextTaken),
            Some(Line::Id(_)) => self.slips(Slip::IdsInRowTaken),
            _ => false,
        }
    }

    /// The pair whose msgid line stands before a place, and where the lines behind it start.
    fn pair(&self, first: &str, at: usize) -> Option<(Pair, usize)> {
        let (id_pieces, at) = self.continued(first, at, Slip::IdNotContinued);
        let Some(Line::Text(first)) = self.lines.get(at) else { return None };
        let (text_pieces, at) = self.continued(first, at + 1, Slip::TextNotContinued);
        let glue = if self.slips(Slip::LinesJoinedBySpace) { " " } else { "" };
        let (id, text) = (id_pieces.join(glue), text_pieces.join(glue));
        Some((Pair { id, text, id_pieces, text_pieces }, at))
    }

    /// "after either, lines of quoted text alone that continue it".
    fn continued(&self, first: &str, at: usize, not: Slip) -> (Vec<String>, usize) {
        let mut pieces = vec![first.to_owned()];
        let mut at = at;
        while let Some(Line::More(piece)) = self.lines.get(at) {
            pieces.push(piece.clone());
            at += 1;
        }
        let last = pieces.len() - 1;
        match self.slip {
            Some(Slip::ContinuationDropped) => pieces.truncate(1),
            Some(slip) if slip == not => pieces.truncate(1),
            Some(Slip::SecondContinuationDropped) => pieces.truncate(2),
            Some(Slip::LastContinuationOnly) => pieces = vec![pieces[last].clone()],
            _ => {}
        }
        (pieces, at)
    }
}

/// The pairs that are refused as given twice: "a msgid given twice".
pub fn is_twice(pairs: &[Pair], slip: Option<Slip>) -> bool {
    let taken = |i: usize, j: usize| {
        let (one, other) = (&pairs[i], &pairs[j]);
        match slip {
            Some(Slip::TwiceTaken) => true,
            Some(Slip::TwiceTakenWhereAlike) => one.text == other.text,
            Some(Slip::TwiceTakenAmongUntranslated) => one.text.is_empty() || other.text.is_empty(),
            Some(Slip::TwiceTakenOfHeader) => one.id.is_empty(),
            Some(Slip::TwiceByPieces) => one.id_pieces != other.id_pieces,
            Some(Slip::TwiceAmongNeighbours) => i + 1 != j,
            _ => false,
        }
    };
    let alike = |i: usize, j: usize| pairs[i].id == pairs[j].id && !taken(i, j);
    (0..pairs.len()).any(|j| (0..j).any(|i| alike(i, j)))
}

// ---- Mistakes on purpose, as what a program that makes them would have to be given.

/// A file that is outside, whatever else is in it.
const OUTSIDE: &[u8] = b"?\n";

fn brought_in(file: &[u8], slip: Option<Slip>) -> Vec<u8> {
    let Some(slip) = slip else { return file.to_vec() };
    match slip {
        Slip::EmptyFileRefused if file.is_empty() => OUTSIDE.to_vec(),
        Slip::DeleteRefused if file.contains(&127) => OUTSIDE.to_vec(),
        Slip::OpenLastLineTaken if !file.is_empty() && !file.ends_with(b"\n") => {
            [file, b"\n"].concat()
        }
        Slip::ByteOrderMarkTaken => file.strip_prefix(b"\xef\xbb\xbf").unwrap_or(file).to_vec(),
        Slip::LossyTaken => String::from_utf8_lossy(file).into_owned().into_bytes(),
        Slip::RawTabTaken => file
            .iter()
            .flat_map(|byte| if *byte == 9 { b"\\t".to_vec() } else { vec![*byte] })
            .collect(),
        slip => by_lines(file, slip),
    }
}

fn by_lines(file: &[u8], slip: Slip) -> Vec<u8> {
    let mut lines: Vec<Vec<u8>> = file.split(|byte| *byte == b'\n').map(<[u8]>::to_vec).collect();
    let last = lines.pop().unwrap_or_default();
    if is_refused(&lines, slip) {
        return OUTSIDE.to_vec();
    }
    match slip {
        Slip::FuzzyLeftOut => without_fuzzy(&mut lines),
        Slip::EmptyLineWithinTaken => {
            without_within(&mut lines, |line| line.is_empty(), b"msgid");
        }
        Slip::CommentWithinTaken => {
            without_within(&mut lines, |line| line.starts_with(b"#"), b"msgid");
        }
        Slip::EmptyLinePassedInText => {
            without_within(&mut lines, |line| line.is_empty(), b"msgstr");
        }
        Slip::CommentPassedInText => {
            without_within(&mut lines, |line| line.starts_with(b"#"), b"msgstr");
        }
        Slip::PluralTaken => lines.retain(|line| !line.starts_with(b"msgid_plural ")),
        _ => {}
    }
    for line in &mut lines {
        *line = line_brought_in(line, slip);
    }
    lines.push(last);
    lines.join(&b'\n')
}

fn is_aside(line: &[u8]) -> bool {
    line.is_empty() || line.starts_with(b"#")
}

/// Where a mistake refuses more than is outside.
fn is_refused(lines: &[Vec<u8>], slip: Slip) -> bool {
    let starts = |line: &Vec<u8>| line.starts_with(b"msgid ");
    match slip {
        Slip::FirstPairHasToComeFirst => lines.first().is_some_and(|line| is_aside(line)),
        // An empty line behind the last pair is what we write.
        Slip::LastPairHasToComeLast => lines.last().is_some_and(|line| line.starts_with(b"#")),
        Slip::EmptyLineHasToPart => {
            lines.windows(2).any(|two| !two[0].is_empty() && starts(&two[1]))
        }
        _ => false,
    }
}

/// Drops the pairs behind a comment of the flag.
fn without_fuzzy(lines: &mut Vec<Vec<u8>>) {
    let (mut is_flagged, mut is_dropped) = (false, false);
    lines.retain(|line| {
        if is_aside(line) {
            is_dropped = false;
            is_flagged |= line.starts_with(b"#,") && line.windows(5).any(|part| part == b"fuzzy");
        } else if line.starts_with(b"msgid ") {
            is_dropped = std::mem::take(&mut is_flagged);
        }
        !is_dropped
    });
}

/// Drops lines of a kind that stand behind a line with the keyword, or behind those that continue it, where what follows
/// goes on with the pair.
fn without_within(lines: &mut Vec<Vec<u8>>, is: fn(&[u8]) -> bool, keyword: &[u8]) {
    let goes_on = |line: &[u8]| {
        line.starts_with(b"\"") || keyword == b"msgid" && line.starts_with(b"msgstr ")
    };
    let mut kept: Vec<Vec<u8>> = vec![];
    let mut is_within = false;
    for (at, line) in lines.iter().enumerate() {
        let next = lines[at..].iter().find(|line| !is(line));
        if is_within && is(line) && next.is_some_and(|next| goes_on(next)) {
            continue;
        }
        is_within = line.starts_with(keyword) || is_within && line.starts_with(b"\"");
        kept.push(line.clone());
    }
    *lines = kept;
}

fn line_brought_in(line: &[u8], slip: Slip) -> Vec<u8> {
    let trimmed = |line: &[u8]| {
        let start = line.iter().position(|byte| *byte != b' ').unwrap_or(line.len());
        line[start..].to_vec()
    };
    let keyword = |before: &[u8], after: &[u8]| {
        let mut line = line.to_vec();
        for name in [&b"msgid"[..], b"msgstr"] {
            let old = [name, before].concat();
            if let Some(rest) = line.strip_prefix(&old[..]) {
                line = [name, after, rest].concat();
            }
        }
        line
    };
    match slip {
        Slip::LinesOfSpacesTaken if trimmed(line).is_empty() => vec![],
        Slip::IndentTaken => trimmed(line),
        Slip::SpacesBehindTaken => {
            let end = line.iter().rposition(|byte| *byte != b' ').map_or(0, |last| last + 1);
            line[..end].to_vec()
        }
        Slip::TwoSpacesTaken => keyword(b"  \"", b" \""),
        Slip::NoSpaceTaken => keyword(b"\"", b" \""),
        Slip::TabForSpaceTaken => keyword(b"\t\"", b" \""),
        Slip::CarriageReturnsTaken => line.strip_suffix(b"\r").unwrap_or(line).to_vec(),
        Slip::UpperCaseTaken if line.starts_with(b"MSG") => {
            let end = line.iter().position(|byte| *byte == b' ').unwrap_or(line.len());
            [line[..end].to_ascii_lowercase(), line[end..].to_vec()].concat()
        }
        Slip::ContextTaken if line.starts_with(b"msgctxt ") => b"#".to_vec(),
        Slip::PluralTaken => match line.strip_prefix(b"msgstr[0]") {
            Some(rest) => [b"msgstr", rest].concat(),
            None => line.to_vec(),
        },
        Slip::ObsoleteRead => line.strip_prefix(b"#~ ").unwrap_or(line).to_vec(),
        Slip::CommentsNotJudged if line.starts_with(b"#") => b"#".to_vec(),
        // In a comment nothing but the bytes below 32 is judged.
        Slip::TextAloneJudged if line.starts_with(b"#") => {
            line.iter().map(|byte| byte & 0x7f | u8::from(*byte > 0x7f) << 6).collect()
        }
        _ => line.to_vec(),
    }
}
