//! Holds the library under test, linked through its C interface, against the oracle: the whole
//! answer, the whole lent buffer and the bytes around it, for generated type files and documents.
//!
//! rustc -O --edition 2021 compare.rs -L FOLDER -l static=NAME && ./compare COUNT SEED [FIRST] [trace]
//!
//! The judge on a type file and its list of attributes, and the reader on three documents for each, half of them with names longer
//! than 8 and a length of names to go with them, now and then one that is refused; in either edition.
//! Case number n of a seed is always the same; FIRST skips the cases before it, and `trace` prints
//! each case's number first, to find one that ends the program.

mod generate;
mod held;
mod library;
mod oracle;

use generate::Random;
use held::{differs, show, show_smaller, Inputs, Lent};
use oracle::{Answer, Settings};
use std::collections::BTreeMap;
use std::{env, process};

const SHOWN_DIFFERENCES: usize = 3;
/// Numbers for as many elements as there may be.
const JUDGE_ROOM: usize = 6 * 64;
/// Numbers for as many attributes as there may be.
const LIST_ROOM: usize = 9 * 40 * 64;

fn main() {
    let arguments: Vec<String> = env::args().skip(1).collect();
    let number = |index: usize| {
        arguments
            .get(index)
            .and_then(|text| text.parse::<u64>().ok())
    };
    let (Some(count), Some(seed)) = (number(0), number(1)) else {
        eprintln!("usage: compare COUNT SEED [FIRST] [trace]");
        process::exit(2);
    };
    let first = number(2).unwrap_or(0);
    let trace = arguments.last().is_some_and(|text| text == "trace");
    let mut tally = Tally::default();
    for case in first..first + count {
        if trace {
            eprintln!("case {case}");
        }
        // Each case has its own stream, so that it is the same whatever came before it.
        let mut random = Random::new(seed.wrapping_mul(1_000_000_007).wrapping_add(case));
        compare_case(case, &mut random, &mut tally);
    }
    println!(
        "refusal numbers given, 0 for acceptance: {:?}",
        tally.numbers
    );
    println!("{} passed, {} failed", tally.passed, tally.failed);
    process::exit((tally.failed > 0) as i32);
}

#[derive(Default)]
struct Tally {
    passed: usize,
    failed: usize,
    numbers: BTreeMap<u32, usize>,
}

/// A type file, a document under it and two under an accepted one.
fn compare_case(case: u64, random: &mut Random, tally: &mut Tally) {
    let longest = generate::name_length(random);
    let any = generate::any_type(random);
    let inputs = Inputs {
        settings: given(random, longest),
        type_file: generate::stretched(&any.file, longest),
        document: None,
        lists: false,
    };
    compare_inputs(case, random, &inputs, tally);
    let inputs = Inputs {
        lists: true,
        ..inputs
    };
    compare_inputs(case, random, &inputs, tally);
    let accepted = accepted_type(random);
    for under in [&any, &accepted, &accepted] {
        let document = generate::any_document(random, under);
        let inputs = Inputs {
            settings: given(random, longest),
            type_file: generate::stretched(&under.file, longest),
            document: Some(generate::stretched(&document, longest)),
            lists: false,
        };
        compare_inputs(case, random, &inputs, tally);
    }
}

/// The length to which names were stretched, now and then the one beside it or one that is refused; either edition, seldom
/// another.
fn given(random: &mut Random, longest: usize) -> Settings {
    let name_length = match random.below(100) {
        0..=3 => (longest - 1) as u32,
        4..=7 => (longest + 1) as u32,
        8..=10 => *random.pick(&[&0, &1, &7, &33, &64, &u32::MAX]),
        _ => longest as u32,
    };
    let edition = match random.below(100) {
        0 => *random.pick(&[&0, &3, &u32::MAX]),
        1..=45 => 1,
        _ => 2,
    };
    Settings {
        name_length,
        edition,
    }
}

/// Documents get further under a type that isn't refused.
fn accepted_type(random: &mut Random) -> generate::Type {
    loop {
        let sound = generate::sound_type(random);
        if oracle::judge(Settings::first(8), &sound.file, &mut [0; JUDGE_ROOM]).number == 0 {
            return sound;
        }
    }
}

/// One input with several buffers; the first difference is shown and ends it.
fn compare_inputs(case: u64, random: &mut Random, inputs: &Inputs, tally: &mut Tally) {
    let answer = answer_with_room(inputs);
    *tally.numbers.entry(answer.number).or_default() += 1;
    let sizes = buffer_sizes(random, inputs, answer.count as usize);
    for length in sizes {
        let pattern = random.between(1, 255) as u8;
        let lent = Lent {
            length,
            offset: random.below(4),
            pattern,
        };
        if differs(inputs, lent) {
            tally.failed += 1;
            if tally.failed <= SHOWN_DIFFERENCES {
                show(case, inputs, lent);
                show_smaller(inputs, lent);
            }
            return;
        }
    }
    tally.passed += 1;
}

/// Bytes per record of the call.
fn record_bytes(inputs: &Inputs) -> usize {
    if inputs.document.is_some() {
        4 * oracle::NUMBERS_PER_EVENT
    } else if inputs.lists {
        9 * 4
    } else {
        6 * 4
    }
}

/// The oracle's answer where the buffer is no limit.
fn answer_with_room(inputs: &Inputs) -> Answer {
    match &inputs.document {
        None if inputs.lists => {
            oracle::attributes(inputs.settings, &inputs.type_file, &mut [0; LIST_ROOM])
        }
        None => oracle::judge(inputs.settings, &inputs.type_file, &mut [0; JUDGE_ROOM]),
        // A token brings under 50 events without attributes, see the paper's limit of 24 open elements; with them more and
        // more room is tried.
        Some(document) => {
            let mut room = oracle::NUMBERS_PER_EVENT * 50 * (document.len().min(65_535) + 1);
            loop {
                let answer = oracle::read(
                    inputs.settings,
                    &inputs.type_file,
                    document,
                    &mut vec![0; room],
                );
                if answer.number != 19 {
                    return answer;
                }
                room *= 4;
            }
        }
    }
}

/// Enough, and two of: next to nothing, exactly enough, a little more or less, any.
fn buffer_sizes(random: &mut Random, inputs: &Inputs, count: usize) -> [usize; 3] {
    let enough = count * record_bytes(inputs);
    let mut size = || match random.below(6) {
        0 => random.below(8),
        1 => enough,
        2 => enough.saturating_sub(random.between(1, 4)),
        3 => enough + random.between(1, 3),
        4 => enough.saturating_sub(record_bytes(inputs)) + random.below(8),
        _ => random.below(64),
    };
    let (one, other) = (size(), size());
    [enough + 4 * random.below(20) + random.below(4), one, other]
}
