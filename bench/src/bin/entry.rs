// Calls a function of hbc.h on an image laid out as compilers lay them out, with as many strings as functions:
//   entry admission|listing|index|look-ups|table|first|last modern|mixed|pairs|names COUNT REPEATS
//   entry why-place|why-wide|why-lengths mixed COUNT REPEATS
//   entry why-overlap shared COUNT REPEATS
// modern: every record has a large header. mixed: legacy, every second record has one. pairs: mixed, and every fourth
// string has an overflow pair. names: mixed, and identifiers come by twos. shared: mixed, and the last string stands where
// the first one does. index: it is filled; look-ups: of the last string, in an index that is filled once, before. table:
// what is known of all strings; first, last: of one. why: the reason of a patch: of the string in the middle to a value as
// long or 5 bytes longer, of the last one, which is wide, of the first one, which the last one overlaps. Prints 0, or the
// number of a refusal, and the length of what was gone over: the image, its listing, the strings of the index, the
// look-ups, the bytes of the table, or the table entries visited to find the string; of a reason its code.

#[path = "../image.rs"]
mod image;

use image::{image, shape};

extern "C" {
    fn nepuladrim_admit(image: *const u8, length: usize, layout: u8) -> u8;
    fn nepuladrim_list(
        image: *const u8,
        length: usize,
        layout: u8,
        from: usize,
        index: *mut u32,
        words: usize,
        out: *mut u8,
        room: usize,
    ) -> u64;
    fn nepuladrim_fill_index(
        image: *const u8,
        length: usize,
        layout: u8,
        index: *mut u32,
        words: usize,
    ) -> u64;
    fn nepuladrim_look_up(
        index: *const u32,
        words: usize,
        count: usize,
        id: u32,
        out: *mut u32,
        room: usize,
    ) -> u64;
    fn nepuladrim_why(
        image: *const u8,
        length: usize,
        layout: u8,
        mode: u8,
        id: u32,
        value: *const u8,
        value_length: usize,
        index: *mut u32,
        words: usize,
        out: *mut u32,
        room: usize,
    ) -> u64;
    fn nepuladrim_string_facts(
        image: *const u8,
        length: usize,
        layout: u8,
        id: u32,
        out: *mut u64,
        room: usize,
    ) -> u64;
    fn nepuladrim_string_facts_from(
        image: *const u8,
        length: usize,
        layout: u8,
        id: u32,
        out: *mut u64,
        room: usize,
    ) -> u64;
}

// The numbers that are known of a string; the second are its bytes, the last two count the entries visited.
const FACTS: usize = 7;

// The mode of string patches in which no place has to be even.
const PLAIN: u8 = 0;

// The words of an index for each string, and how many look-ups are made at a time: one takes too little to be counted.
const WORDS: usize = 3;
const LOOK_UPS: usize = 1000;

const REFUSED: u64 = 1 << 32;

fn admission(image: &[u8], layout: u8) -> (u64, usize) {
    let refusal = unsafe { nepuladrim_admit(image.as_ptr(), image.len(), layout) };
    (u64::from(refusal), image.len())
}

fn refusal(answer: u64) -> u64 {
    answer.saturating_sub(REFUSED)
}

fn listing(image: &[u8], layout: u8, index: &mut [u32], out: &mut [u8]) -> (u64, usize) {
    let (from, to) = ((image.as_ptr(), image.len()), (out.as_mut_ptr(), out.len()));
    let lent = (index.as_mut_ptr(), index.len());
    let answer = unsafe { nepuladrim_list(from.0, from.1, layout, 0, lent.0, lent.1, to.0, to.1) };
    (refusal(answer), answer as usize)
}

fn fill(image: &[u8], layout: u8, index: &mut [u32]) -> (u64, usize) {
    let (from, lent) = ((image.as_ptr(), image.len()), (index.as_mut_ptr(), index.len()));
    let answer = unsafe { nepuladrim_fill_index(from.0, from.1, layout, lent.0, lent.1) };
    (refusal(answer), answer as usize)
}

fn look_ups(index: &[u32], count: usize, id: usize) -> (u64, usize) {
    let mut found = [0; WORDS];
    let (from, to) = ((index.as_ptr(), index.len()), found.as_mut_ptr());
    let mut answer = 0;
    for _ in 0..LOOK_UPS {
        answer = unsafe { nepuladrim_look_up(from.0, from.1, count, id as u32, to, WORDS) };
    }
    (refusal(answer), LOOK_UPS)
}

fn why(image: &[u8], layout: u8, edit: &(usize, Vec<u8>), index: &mut [u32]) -> (u64, usize) {
    let mut reason = [0; WORDS];
    let (from, lent) = ((image.as_ptr(), image.len()), (index.as_mut_ptr(), index.len()));
    let (id, value, to) = (edit.0 as u32, (edit.1.as_ptr(), edit.1.len()), reason.as_mut_ptr());
    let answer = unsafe {
        nepuladrim_why(
            from.0, from.1, layout, PLAIN, id, value.0, value.1, lent.0, lent.1, to, WORDS,
        )
    };
    (refusal(answer), reason[0] as usize)
}

// The string and the value of a patch, by what is asked of it.
fn edit(image: &[u8], layout: u8, asked: &str, count: usize) -> (usize, Vec<u8>) {
    let id = match asked {
        "why-overlap" => 0,
        "why-wide" => count - 1,
        _ => count / 2,
    };
    let more = if asked == "why-lengths" { 5 } else { 0 };
    (id, vec![b'v'; facts(image, layout, id).1[1] as usize + more])
}

fn table(image: &[u8], layout: u8, out: &mut [u64]) -> (u64, usize) {
    let (from, to) = ((image.as_ptr(), image.len()), (out.as_mut_ptr(), out.len()));
    let answer = unsafe { nepuladrim_string_facts_from(from.0, from.1, layout, 0, to.0, to.1) };
    (refusal(answer), 8 * answer as usize)
}

fn facts(image: &[u8], layout: u8, id: usize) -> (u64, [u64; FACTS]) {
    let mut facts = [0; FACTS];
    let (from, to) = ((image.as_ptr(), image.len()), facts.as_mut_ptr());
    let answer = unsafe { nepuladrim_string_facts(from.0, from.1, layout, id as u32, to, FACTS) };
    (refusal(answer), facts)
}

fn string(image: &[u8], layout: u8, id: usize) -> (u64, usize) {
    let (refusal, facts) = facts(image, layout, id);
    (refusal, (facts[FACTS - 2] + facts[FACTS - 1]) as usize)
}

fn main() {
    let words: Vec<String> = std::env::args().collect();
    let shape = shape(&words[2]);
    let count: usize = words[3].parse().unwrap();
    let image = image(&shape, count, count, 0);
    let repeats: usize = words[4].parse().unwrap();
    let mut out = vec![0; 16 * image.len()];
    let mut numbers = vec![0; FACTS * count];
    let mut index = vec![0; WORDS * count];
    let mut answer = (0, 0);
    let edit = edit(&image, shape.layout, &words[1], count);
    if words[1] == "look-ups" {
        fill(&image, shape.layout, &mut index);
    }
    for _ in 0..repeats {
        let image = std::hint::black_box(&image);
        answer = match &words[1][..] {
            "admission" => admission(image, shape.layout),
            "index" => fill(image, shape.layout, &mut index),
            "look-ups" => look_ups(&index, count, count - 1),
            "why-place" | "why-wide" | "why-lengths" | "why-overlap" => {
                why(image, shape.layout, &edit, &mut index)
            }
            "table" => table(image, shape.layout, &mut numbers),
            "first" => string(image, shape.layout, 0),
            "last" => string(image, shape.layout, count - 1),
            _ => listing(image, shape.layout, &mut index, &mut out),
        };
    }
    println!("{} {}", answer.0, answer.1);
}
