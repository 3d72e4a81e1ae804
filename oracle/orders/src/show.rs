//! A case in words.

use oracle::image::reading::Reading;
use oracle::job::packing::Mode;
use oracle::patches::draw::text;
use oracle::patches::orders::{Case, Step};
use oracle::patches::Kind;

/// What a case takes to be written down.
pub fn size(case: &Case) -> usize {
    let step = |step: &Step| step.old.len() + step.new.len();
    case.image.len() + case.steps.iter().map(step).sum::<usize>()
}

pub fn case(case: &Case, order: &[usize]) -> String {
    let mode = if case.mode == Mode::Even { "even" } else { "plain" };
    let (layout, room) = (case.layout.0, case.room);
    let mut lines =
        vec![format!("  layout {layout}, {mode}, room {room}; as drawn, and {order:?}")];
    lines.extend(
        case.steps
            .iter()
            .enumerate()
            .map(|(i, step)| format!("  patch {i}: {}", self::step(case, step))),
    );
    let reading = Reading { layout: case.layout, image: &case.image, slip: None };
    if reading.refusal() == 0 {
        lines.extend(reading.strings().iter().enumerate().map(|(id, string)| {
            let width = if string.wide { "wide" } else { "narrow" };
            let (start, end) = (string.start, string.end);
            format!("  string {id}: {width}, {start} to {end}: {:?}", text(&reading, string))
        }));
    }
    let hex: String = case.image.iter().map(|byte| format!("{byte:02x}")).collect();
    lines.push(format!("  image {hex}"));
    lines.join("\n")
}

fn step(case: &Case, step: &Step) -> String {
    let text = |bytes: &[u8]| format!("\"{}\"", bytes.escape_ascii());
    match step.kind {
        Kind::ByValue => format!("{} becomes {}", text(&step.old), text(&step.new)),
        Kind::Pass => {
            let edits = case.patch(step, &case.image).edits();
            let edit = |(id, value): &(u32, &[u8])| format!("{id} becomes {}", text(value));
            format!("a pass: {}", edits.iter().map(edit).collect::<Vec<_>>().join(", "))
        }
        _ => format!("{} becomes {}", step.id, text(&step.new)),
    }
}
