//! sharp image|patches|index|why [all]: an honest look at the fixed calls of a family. For each mistake that the second reading
//! can make on purpose it counts those that a program with that mistake would answer otherwise. Ends with 1 where
//! there are none, or where an image that was made whole is refused.

use std::fmt::Debug;
use std::process::ExitCode;

use oracle::family::Family;
use oracle::image::reading::{self, Slip, TESTS};
use oracle::image::{self, makes_whole_images};
use oracle::stream::Call;
use oracle::{index, patches, why};

fn main() -> ExitCode {
    if !makes_whole_images() {
        println!("oracle: image: an image that was made whole is refused");
        return ExitCode::FAILURE;
    }
    let given = Family::of_arguments();
    match given.as_ref().map(|(family, words)| (family.name, *family, !words.is_empty())) {
        Some(("image", family, all)) => {
            let named = |slip| match slip {
                Slip::Without(i) => format!("the test left out: {}", TESTS[i].sentence),
                slip => format!("{slip:?}"),
            };
            report(family, &reading::slips(), image::finds, named, all)
        }
        Some(("patches", family, all)) => {
            report(family, &patches::slips(), patches::finds, |slip| format!("{slip:?}"), all)
        }
        Some(("index", family, all)) => {
            report(family, &index::slips(), index::finds, index::named, all)
        }
        Some(("why", family, all)) => {
            report(family, &why::slips(), why::finds, |slip| format!("{slip:?}"), all)
        }
        _ => {
            eprintln!("usage: sharp image|patches|index|why [all]");
            ExitCode::from(2)
        }
    }
}

fn report<S: Copy + Debug>(
    family: &Family,
    slips: &[S],
    finds: fn(&Call, S) -> bool,
    named: impl Fn(S) -> String,
    all: bool,
) -> ExitCode {
    let calls = (family.fixed)();
    let mut missed = 0;
    for slip in slips {
        let found = calls.iter().filter(|call| finds(call, *slip)).count();
        if found == 0 || all {
            println!("{found} find {}", named(*slip));
        }
        missed += usize::from(found == 0);
    }
    println!(
        "oracle: {}: {} mistakes on purpose, {missed} not found by the fixed calls",
        family.name,
        slips.len()
    );
    ExitCode::from(u8::from(missed > 0))
}
