//! The library under test, through its C interface, held against the oracle: the whole answer, the
//! whole lent buffer and the bytes around it.

use crate::library;
use crate::oracle::{self, Answer};

/// Bytes on either side of the lent buffer that nobody may touch.
const GUARD: usize = 24;
/// Stands in the answer before the call, so that a number left unwritten shows.
const UNWRITTEN: u32 = 0xDEAD_BEEF;
/// What one call is given, but for the buffer. Without a document the judge is called, or the list of attributes.
#[derive(Clone)]
pub struct Inputs {
    pub settings: oracle::Settings,
    pub type_file: Vec<u8>,
    pub document: Option<Vec<u8>>,
    pub lists: bool,
}

/// What is lent: how many bytes, and how far off a number's alignment they begin.
#[derive(Clone, Copy)]
pub struct Lent {
    pub length: usize,
    pub offset: usize,
    pub pattern: u8,
}

/// What is left behind by a call: the number that it gives back, the answer, and the buffer with the
/// bytes around it.
#[derive(PartialEq)]
struct Outcome {
    given: u32,
    answer: [u32; 6],
    memory: Vec<u8>,
}

pub fn differs(inputs: &Inputs, lent: Lent) -> bool {
    expected(inputs, lent) != actual(inputs, lent)
}

/// Buffer and guards before the call, none of it alike its neighbour.
fn memory_before(lent: Lent) -> Vec<u8> {
    let length = 2 * GUARD + lent.offset + lent.length;
    (0..length)
        .map(|index| lent.pattern.wrapping_add((index as u8).wrapping_mul(37)))
        .collect()
}

fn expected(inputs: &Inputs, lent: Lent) -> Outcome {
    let mut memory = memory_before(lent);
    let start = GUARD + lent.offset;
    let buffer = &mut memory[start..start + lent.length];
    let number = |bytes: &[u8]| u32::from_le_bytes([bytes[0], bytes[1], bytes[2], bytes[3]]);
    let mut numbers: Vec<u32> = buffer.chunks_exact(4).map(number).collect();
    let answer = match &inputs.document {
        None if inputs.lists => {
            oracle::attributes(inputs.settings, &inputs.type_file, &mut numbers)
        }
        None => oracle::judge(inputs.settings, &inputs.type_file, &mut numbers),
        Some(document) => oracle::read(
            inputs.settings,
            &inputs.type_file,
            document,
            &mut numbers,
        ),
    };
    // One to three bytes over hold no number: a refusal zeroes them, acceptance leaves them.
    if answer.number != 0 {
        buffer.fill(0);
    }
    for (bytes, number) in buffer.chunks_exact_mut(4).zip(numbers) {
        bytes.copy_from_slice(&number.to_le_bytes());
    }
    let Answer {
        number,
        input,
        position,
        first,
        second,
        count,
    } = answer;
    Outcome {
        given: number,
        answer: [number, input, position, first, second, count],
        memory,
    }
}

fn actual(inputs: &Inputs, lent: Lent) -> Outcome {
    let mut memory = memory_before(lent);
    let start = GUARD + lent.offset;
    let buffer = &mut memory[start..start + lent.length];
    let mut answer = [UNWRITTEN; 6];
    let type_file = &inputs.type_file;
    let given = match &inputs.document {
        None if inputs.lists => {
            library::attributes(inputs.settings, type_file, buffer, &mut answer)
        }
        None => library::judge(inputs.settings, type_file, buffer, &mut answer),
        Some(document) => {
            library::read(inputs.settings, type_file, document, buffer, &mut answer)
        }
    };
    Outcome {
        given,
        answer,
        memory,
    }
}

pub fn show(case: u64, inputs: &Inputs, lent: Lent) {
    let Lent {
        length,
        offset,
        pattern,
    } = lent;
    println!(
        "difference in case {case}, buffer of {length} bytes at offset {offset}, pattern {pattern}"
    );
    println!("  names of at most {} bytes, edition {}", inputs.settings.name_length, inputs.settings.edition);
    show_input("type", &inputs.type_file);
    if let Some(document) = &inputs.document {
        show_input("document", document);
    }
    let (expected, actual) = (expected(inputs, lent), actual(inputs, lent));
    println!("  answer as number, input, position, first, second, count");
    println!("  oracle  {:?}", expected.answer);
    println!("  library {:?}", actual.answer);
    let mut bytes = expected.memory.iter().zip(&actual.memory);
    if let Some(index) = bytes.position(|(expected, actual)| expected != actual) {
        let (right, wrong) = (expected.memory[index], actual.memory[index]);
        let place = index as isize - (GUARD + offset) as isize;
        println!("  buffer byte {place}: oracle {right}, library {wrong}");
    }
}

fn show_input(which: &str, bytes: &[u8]) {
    let hex: String = bytes.iter().map(|byte| format!("{byte:02x}")).collect();
    println!(
        "  {which} of {} bytes: \"{}\"",
        bytes.len(),
        bytes.escape_ascii()
    );
    println!("  {which} in hex: {hex}");
}

/// Shows also the smallest inputs found that still differ, since the first may be long.
pub fn show_smaller(inputs: &Inputs, lent: Lent) {
    let mut smaller = inputs.clone();
    let with = |bytes: &[u8]| Inputs {
        type_file: bytes.to_vec(),
        ..inputs.clone()
    };
    shrink(|bytes| differs(&with(bytes), lent), &mut smaller.type_file);
    if let Some(mut document) = smaller.document.take() {
        let with = |bytes: &[u8]| Inputs {
            document: Some(bytes.to_vec()),
            ..smaller.clone()
        };
        shrink(|bytes| differs(&with(bytes), lent), &mut document);
        smaller.document = Some(document);
    }
    println!("smaller, with the same buffer:");
    show_input("type", &smaller.type_file);
    if let Some(document) = &smaller.document {
        show_input("document", document);
    }
    println!("  oracle  {:?}", expected(&smaller, lent).answer);
    println!("  library {:?}", actual(&smaller, lent).answer);
}

/// Takes out pieces, large ones first, as long as `still` holds.
fn shrink(still: impl Fn(&[u8]) -> bool, bytes: &mut Vec<u8>) {
    let mut piece = bytes.len();
    while piece > 0 {
        let mut at = 0;
        while at + piece <= bytes.len() {
            let without = [&bytes[..at], &bytes[at + piece..]].concat();
            if still(&without) {
                *bytes = without;
            } else {
                at += piece;
            }
        }
        piece /= 2;
    }
}
