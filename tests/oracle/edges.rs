//! The vectors' inputs cut at every byte, and with every byte value at every place of the short
//! ones, held against the oracle through the C interface.
//!
//! rustc -O --edition 2021 edges.rs -L FOLDER -l static=NAME && ./edges VECTORS

mod folders;
mod held;
mod library;
mod oracle;

use folders::{cases_in, settings};
use held::{differs, show, show_smaller, Inputs, Lent};
use std::path::Path;
use std::{env, fs, io, process};

/// Of longer inputs only so many cuts at either end are tried.
const CUTS: usize = 300;
/// Every byte value is tried at every place of inputs up to this long.
const SHORT: usize = 24;
const SHOWN_DIFFERENCES: usize = 3;

fn main() -> io::Result<()> {
    let Some(folder) = env::args().nth(1) else {
        eprintln!("usage: edges VECTORS");
        process::exit(2);
    };
    let (mut passed, mut failed) = (0, 0);
    let mut try_one = |settings: oracle::Settings, type_file: &[u8], document: &[u8]| {
        let inputs = Inputs {
            settings,
            type_file: type_file.to_vec(),
            document: Some(document.to_vec()),
            lists: false,
        };
        let lent = Lent {
            length: 1023,
            offset: document.len() % 4,
            pattern: 7,
        };
        if differs(&inputs, lent) {
            failed += 1;
            if failed <= SHOWN_DIFFERENCES {
                show(failed as u64, &inputs, lent);
                show_smaller(&inputs, lent);
            }
        } else {
            passed += 1;
        }
    };
    for case in cases_in(Path::new(&folder))? {
        let given = settings(&case);
        let type_file = fs::read(case.join("type.sgm"))?;
        let document = fs::read(case.join("doc.sgm"))?;
        for cut in cuts(document.len()) {
            try_one(given, &type_file, &document[..cut]);
        }
        for cut in cuts(type_file.len()) {
            try_one(given, &type_file[..cut], &document);
        }
        if document.len() <= SHORT {
            for changed in every_byte(&document) {
                try_one(given, &type_file, &changed);
            }
        }
    }
    println!("{passed} passed, {failed} failed");
    // A folder without vectors proves nothing.
    process::exit((failed > 0 || passed == 0) as i32);
}

/// Where an input of this length is cut: everywhere, or near both ends of a long one.
fn cuts(length: usize) -> impl Iterator<Item = usize> {
    (0..length).filter(move |&cut| cut < CUTS || length - cut <= CUTS)
}

/// The input with each byte value at each place.
fn every_byte(input: &[u8]) -> impl Iterator<Item = Vec<u8>> + '_ {
    (0..input.len()).flat_map(move |at| {
        (0..=255u8).map(move |byte| {
            let mut changed = input.to_vec();
            changed[at] = byte;
            changed
        })
    })
}
