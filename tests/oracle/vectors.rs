//! Runs the oracle over a folder of vectors, each a folder GROUP/CASE with type.sgm, doc.sgm and
//! expected, and checks that the small program would print exactly what is expected; where a file `args`
//! gives another length of names than 8 or another edition than 1, that a program would which gives those. A file `numbers` has
//! the five numbers of each event.
//!
//! rustc -O --edition 2021 vectors.rs && ./vectors FOLDER

mod folders;
mod oracle;

use folders::{cases_in, settings};
use std::collections::BTreeMap;
use std::fmt::Write;
use std::path::Path;
use std::{env, fs, io, process};

/// What the small program lends.
const LENT: usize = 20_480;

fn main() -> io::Result<()> {
    let Some(folder) = env::args().nth(1) else {
        eprintln!("usage: vectors FOLDER");
        process::exit(2);
    };
    let (mut passed, mut failed) = (0, 0);
    for case in cases_in(Path::new(&folder))? {
        let (printed, numbers) = small_program(
            settings(&case),
            &fs::read(case.join("type.sgm"))?,
            &fs::read(case.join("doc.sgm"))?,
        );
        let expected = fs::read_to_string(case.join("expected"))?;
        let has_numbers = fs::read_to_string(case.join("numbers"));
        if printed == expected && has_numbers.map_or(true, |expected| numbers == expected) {
            passed += 1;
        } else {
            failed += 1;
            println!(
                "{}:\n  expected {expected:?}\n  printed  {printed:?}",
                case.display()
            );
        }
    }
    println!("{passed} passed, {failed} failed");
    // A folder without vectors proves nothing.
    process::exit((failed > 0 || passed == 0) as i32);
}

/// What it would print, and the numbers of the events, a line each.
fn small_program(settings: oracle::Settings, type_file: &[u8], document: &[u8]) -> (String, String) {
    let mut buffer = [0; LENT];
    let answer = oracle::read(settings, type_file, document, &mut buffer);
    if answer.number != 0 {
        let input = if answer.input == 1 {
            "type"
        } else {
            "document"
        };
        let refused = format!(
            "refused {} in {input} at {}\n",
            answer.number, answer.position
        );
        return (refused, String::new());
    }
    let names = element_names(settings, type_file);
    let attributes = attribute_names(settings, type_file);
    let mut printed = format!("events {}\n", answer.count);
    let mut numbers = String::new();
    let events: Vec<&[u32]> = buffer
        .chunks(oracle::NUMBERS_PER_EVENT)
        .take(answer.count as usize)
        .collect();
    for (index, event) in events.iter().enumerate() {
        let starts = |event: &&&[u32]| event[0] == 1 || event[0] == 2;
        let name = match event[0] {
            5 => "-",
            // The attribute's name, of the element that starts next.
            7 | 8 => {
                let element = events[index..]
                    .iter()
                    .find(starts)
                    .map_or(0, |start| start[1]);
                &attributes[&(element, event[1])]
            }
            _ => &names[event[1] as usize - 1],
        };
        let _ = writeln!(printed, "{} {name} {} {}", event[0], event[2], event[3]);
        let line: Vec<String> = event.iter().map(u32::to_string).collect();
        let _ = writeln!(numbers, "{}", line.join(" "));
    }
    (printed, numbers)
}

/// Upper case names of the declared elements, from the judge's records.
fn element_names(settings: oracle::Settings, type_file: &[u8]) -> Vec<String> {
    let mut buffer = [0; 6 * 64];
    let count = oracle::judge(settings, type_file, &mut buffer).count as usize;
    let name = |record: &[u32]| {
        let (offset, length) = (record[0] as usize, record[1] as usize);
        String::from_utf8_lossy(&type_file[offset..offset + length]).to_ascii_uppercase()
    };
    buffer.chunks(6).take(count).map(name).collect()
}

/// Upper case names of the declared attributes, by the numbers of element and attribute.
fn attribute_names(settings: oracle::Settings, type_file: &[u8]) -> BTreeMap<(u32, u32), String> {
    let mut buffer = [0; 9 * 40 * 64];
    let count = oracle::attributes(settings, type_file, &mut buffer).count as usize;
    let name = |record: &[u32]| {
        let (offset, length) = (record[2] as usize, record[3] as usize);
        let name = String::from_utf8_lossy(&type_file[offset..offset + length]);
        ((record[0], record[1]), name.to_ascii_uppercase())
    };
    buffer.chunks(9).take(count).map(name).collect()
}
