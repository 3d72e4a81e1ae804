//! Mistakes on purpose: wrong patchers, over the pairs of which the law speaks. Each has to be found by the two ends alone.

use oracle::job::wrong::{patched, Slip, Turn, SLIPS};
use oracle::patches::orders::{speaks, Case, Walk};
use oracle::patches::Kind;

/// So many pairs have to find each.
const LEAST: usize = 10;

fn walks(case: &Case, slip: Option<Slip>) -> [Walk; 2] {
    case.walks(&|place, patch| {
        let (layout, mode, first, image) = (patch.layout, patch.mode, &case.image[..], patch.image);
        let edits = patch.edits();
        if patch.kind == Kind::ByValue && edits.is_empty() {
            return Err(14);
        }
        patched(&Turn { layout, mode, place, first, image, edits }, slip).ok_or(0)
    })
}

fn finds(case: &Case, slip: Slip) -> bool {
    let walks = walks(case, Some(slip));
    speaks(&walks) && walks[0].end != walks[1].end
}

/// Each mistake and how many pairs find it, as a line; and whether that is enough. The ends of the pairs are the right ones,
/// which a patcher with no mistake has to make.
pub fn report(pairs: &[(Case, Vec<u8>)]) -> (String, bool) {
    let is_right = |(case, end): &(Case, Vec<u8>)| {
        walks(case, None).iter().all(|walk| walk.end.as_ref() == Ok(end))
    };
    let found = |slip: Slip| pairs.iter().filter(|(case, _)| finds(case, slip)).count();
    let counts: Vec<usize> = SLIPS.into_iter().map(found).collect();
    let each = SLIPS.iter().zip(&counts).map(|(slip, count)| format!("{slip:?} {count}"));
    let line = format!(
        "{} mistakes on purpose, pairs whose two ends show each: {}",
        SLIPS.len(),
        each.collect::<Vec<_>>().join(", ")
    );
    (line, pairs.iter().all(is_right) && counts.iter().all(|count| *count >= LEAST))
}
