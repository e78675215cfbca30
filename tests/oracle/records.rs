//! Holds the library against the oracle on documents made of record ends, text, comments and tags, under
//! types with `#PCDATA` beside elements and with tags to be left out, in both editions.
//!
//! rustc -O --edition 2021 records.rs -L FOLDER -l static=NAME && ./records COUNT SEED

#[allow(dead_code)]
mod generate;
mod held;
mod library;
#[allow(dead_code)]
mod oracle;

use generate::Random;
use held::{differs, show, show_smaller, Inputs, Lent};
use std::{env, process};

const TYPES: [&str; 6] = [
    "<!ELEMENT P - O (#PCDATA|Q|E)*><!ELEMENT Q - O (#PCDATA)><!ELEMENT E - O EMPTY>",
    "<!ELEMENT D - O (R|E)*><!ELEMENT R O O (E?,#PCDATA)><!ELEMENT E - O EMPTY>",
    "<!ELEMENT P O O (#PCDATA,S)><!ELEMENT S O O (E*,Q?)><!ELEMENT E - O EMPTY><!ELEMENT Q O O (#PCDATA|P)*>",
    "<!ELEMENT R O O (S+)><!ELEMENT S O O (#PCDATA)>",
    "<!ELEMENT P O O (Q|R)*><!ELEMENT Q O O (#PCDATA)><!ELEMENT R - O (#PCDATA & E)><!ELEMENT E - O EMPTY>",
    "<!ELEMENT P O O ((Q|#PCDATA)*)><!ELEMENT Q - O (P|E|#PCDATA)*><!ELEMENT E - O EMPTY>",
];
const PIECES: [&str; 18] = [
    "\r", "\r", "\r", "\r\n", "\n", "x", "y", " ", "<!-- c -->", "<!>", "<P>", "<Q>", "<E>", "<S>", "<R>", "</Q>",
    "</P>", "</R>",
];

fn main() {
    let number = |index| env::args().nth(index).and_then(|text| text.parse::<u64>().ok());
    let (Some(count), Some(seed)) = (number(1), number(2)) else {
        eprintln!("usage: records COUNT SEED");
        process::exit(2);
    };
    let mut random = Random::new(seed);
    let (mut passed, mut failed, mut accepted) = (0, 0, 0);
    for case in 0..count {
        let type_file = random.pick(&TYPES).as_bytes().to_vec();
        let mut document = String::new();
        if random.below(2) == 0 {
            document = format!("<{}>", type_file[10] as char);
        }
        for _ in 0..random.between(1, 14) {
            document += random.pick(&PIECES);
        }
        for edition in 1..=2 {
            let inputs = Inputs {
                settings: oracle::Settings {
                    name_length: 8,
                    edition,
                },
                type_file: type_file.clone(),
                document: Some(document.clone().into_bytes()),
                lists: false,
            };
            let answer = oracle::read(inputs.settings, &type_file, document.as_bytes(), &mut [0; 5000]);
            accepted += (answer.number == 0) as usize;
            let enough = 4 * oracle::NUMBERS_PER_EVENT * answer.count as usize;
            let lent = |length| Lent {
                length,
                offset: case as usize % 4,
                pattern: 7,
            };
            let sizes = [4000, enough, enough.saturating_sub(1), enough + 20];
            match sizes.into_iter().find(|&length| differs(&inputs, lent(length))) {
                None => passed += 1,
                Some(length) => {
                    failed += 1;
                    if failed <= 3 {
                        show(case, &inputs, lent(length));
                        show_smaller(&inputs, lent(length));
                    }
                }
            }
        }
    }
    println!("{accepted} accepted");
    println!("{passed} passed, {failed} failed");
    process::exit((failed > 0 || passed == 0) as i32);
}
