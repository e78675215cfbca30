//! Holds the library's batch against the oracle: the whole answer, the answers and the whole lent buffer, for generated type
//! files and documents, and lists that are fit or damaged.
//!
//! rustc -O --edition 2021 batches.rs -L FOLDER -l static=NAME && ./batches COUNT SEED
//!
//! The oracle reads each document by itself. What makes lists unfit it finds by marking every byte of the buffer that is in a
//! stretch, with sums of 128 bits.

#![allow(dead_code)]

mod generate;
mod library;
mod oracle;

use generate::Random;
use library::Lists;
use oracle::{Answer, Settings};
use std::collections::BTreeMap;
use std::{env, process};

const MOST: usize = 200;
const TYPE_BYTES: usize = 32_768;

struct Batch {
    settings: Settings,
    type_file: Vec<u8>,
    string: Vec<u8>,
    lists: Lists,
    answers: usize,
    room: usize,
}

fn main() {
    let arguments: Vec<u64> = env::args().skip(1).filter_map(|text| text.parse().ok()).collect();
    let [count, seed] = arguments[..] else {
        eprintln!("usage: batches COUNT SEED");
        process::exit(2);
    };
    let (mut passed, mut failed, mut numbers) = (0, 0, BTreeMap::<u32, usize>::new());
    for case in 0..count {
        let mut random = Random::new(seed.wrapping_mul(1_000_000_009).wrapping_add(case));
        let batch = any_batch(&mut random);
        let pattern = random.between(1, 255) as u8;
        if differs(&batch, pattern, &mut numbers) {
            failed += 1;
            println!("case {case} differs");
        } else {
            passed += 1;
        }
    }
    println!("whole answers and documents' refusal numbers given: {numbers:?}");
    println!("{passed} passed, {failed} failed");
    process::exit((failed > 0) as i32);
}

/// Documents one behind the other, some over each other, in stretches that are shuffled; sometimes something is wrong with the lists.
fn any_batch(random: &mut Random) -> Batch {
    let under = if random.percent(70) { generate::sound_type(random) } else { generate::any_type(random) };
    let mut type_file = under.file.clone();
    match random.below(40) {
        0 => type_file.push(1),
        1 => generate::pad(&mut type_file, TYPE_BYTES + 1),
        _ => {}
    }
    let count = match random.below(30) {
        0 => 0,
        1 => MOST,
        2 => MOST + 1,
        _ => random.between(1, 12),
    };
    let (mut string, mut lists) = (Vec::new(), Lists { starts: vec![], lengths: vec![], froms: vec![], sizes: vec![] });
    for k in 0..count {
        let mut document = if k < 12 { generate::any_document(random, &under) } else { Vec::new() };
        if random.percent(2) {
            document.push(127);
        }
        lists.starts.push(string.len());
        lists.lengths.push(document.len());
        string.extend(document);
    }
    // The stretches, with or without gaps, handed out in any order.
    let (mut room, mut stretches) = (random.below(9), Vec::new());
    for k in 0..count {
        let enough = 20 * 3 * (lists.lengths[k] + 1);
        let size = match random.below(5) {
            0 => 0,
            1 => random.below(50),
            _ => enough.min(20_000) + random.below(4),
        };
        stretches.push((room, size));
        room += size + random.below(2) * random.below(30);
    }
    for k in (1..count).rev() {
        stretches.swap(k, random.below(k + 1));
    }
    lists.froms = stretches.iter().map(|stretch| stretch.0).collect();
    lists.sizes = stretches.iter().map(|stretch| stretch.1).collect();
    let mut answers = 6 * count;
    if count > 0 && random.percent(50) {
        let k = random.below(count);
        match random.below(16) {
            0 => lists.sizes[k] += 1,
            1 => lists.froms[k] = lists.froms[k].wrapping_sub(1),
            2 => lists.froms[k] = room,
            3 => lists.froms[k] = room + 1,
            4 => lists.sizes[k] = usize::MAX - random.below(3),
            5 => lists.froms[k] = usize::MAX - random.below(3),
            6 => lists.lengths[k] = string.len() - lists.starts[k] + random.below(2),
            7 => lists.lengths[k] = usize::MAX - random.below(20),
            8 => lists.starts[k] = string.len() + random.below(2),
            9 => lists.starts[k] = usize::MAX - random.below(3),
            10 => lists.starts[k] = 0,
            11 => drop(lists.starts.pop()),
            12 => lists.lengths.push(0),
            13 => drop(lists.froms.pop()),
            14 => lists.sizes.push(0),
            _ => answers = answers + 1 - 2 * random.below(2),
        }
    }
    let name_length = if random.percent(5) { *random.pick(&[&7, &33, &0]) } else { 8 };
    let edition = if random.percent(5) { *random.pick(&[&0, &3]) } else { 1 + random.below(2) as u32 };
    Batch { settings: Settings { name_length, edition }, type_file, string, lists, answers, room }
}

fn is_offered(batch: &Batch) -> bool {
    (8..=32).contains(&batch.settings.name_length) && (1..=2).contains(&batch.settings.edition)
}

fn is_unfit(batch: &Batch) -> bool {
    let (lists, count) = (&batch.lists, batch.lists.starts.len());
    if count > MOST || [lists.lengths.len(), lists.froms.len(), lists.sizes.len()].iter().any(|n| *n != count) || batch.answers != 6 * count {
        return true;
    }
    let mut marked = vec![false; batch.room];
    for (from, size) in lists.froms.iter().zip(&lists.sizes) {
        if *from as u128 + *size as u128 > batch.room as u128 {
            return true;
        }
        for mark in &mut marked[*from..*from + *size] {
            if *mark {
                return true;
            }
            *mark = true;
        }
    }
    false
}

fn numbers_of(answer: &Answer) -> [u32; 6] {
    [answer.number, answer.input, answer.position, answer.first, answer.second, answer.count]
}

/// The answer to a part that passes the string's end.
fn passing(batch: &Batch) -> [u32; 6] {
    if batch.type_file.len() > TYPE_BYTES {
        return [1, 1, 0, 0, 0, 0];
    }
    [1, 2, 0, 0, 0, 0]
}

/// One document by the oracle: its answer, and what its stretch holds after.
fn single(batch: &Batch, k: usize, before: &[u8]) -> ([u32; 6], Vec<u8>) {
    let (start, length) = (batch.lists.starts[k], batch.lists.lengths[k]);
    if start as u128 + length as u128 > batch.string.len() as u128 {
        return (passing(batch), vec![0; before.len()]);
    }
    let mut numbers = vec![0; before.len() / 4];
    let answer = oracle::read(batch.settings, &batch.type_file, &batch.string[start..start + length], &mut numbers);
    if answer.number != 0 {
        return (numbers_of(&answer), vec![0; before.len()]);
    }
    let mut after = before.to_vec();
    for (k, number) in numbers[..5 * answer.count as usize].iter().enumerate() {
        after[4 * k..4 * k + 4].copy_from_slice(&number.to_le_bytes());
    }
    (numbers_of(&answer), after)
}

fn differs(batch: &Batch, pattern: u8, numbers: &mut BTreeMap<u32, usize>) -> bool {
    let (mut buffer, mut answers, mut answer) = (vec![pattern; batch.room], vec![u32::MAX; batch.answers], [u32::MAX; 6]);
    let (mut expected, mut each) = (buffer.clone(), answers.clone());
    let returned = library::read_batch(batch.settings, &batch.type_file, &batch.string, &batch.lists, &mut buffer, &mut answers, &mut answer);
    let refusal = match (is_offered(batch), is_unfit(batch)) {
        (false, _) => Some(24),
        (true, true) => Some(23),
        (true, false) => None,
    };
    let whole = if let Some(number) = refusal {
        expected.fill(0);
        [number, 1, 0, 0, 0, 0]
    } else {
        for k in 0..batch.lists.starts.len() {
            let stretch = batch.lists.froms[k]..batch.lists.froms[k] + batch.lists.sizes[k];
            let (own, after) = single(batch, k, &expected[stretch.clone()]);
            *numbers.entry(own[0]).or_default() += 1;
            expected[stretch].copy_from_slice(&after);
            each[6 * k..6 * k + 6].copy_from_slice(&own);
        }
        [0, 0, 0, 0, 0, batch.lists.starts.len() as u32]
    };
    *numbers.entry(whole[0]).or_default() += 1;
    returned != whole[0] || answer != whole || answers != each || buffer != expected
}
