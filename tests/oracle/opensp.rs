//! Holds the library beside OpenSP: generated documents without record ends are accepted by both or
//! by neither, with the same elements, attributes, tags left out and text, and so are documents of record ends in
//! edition 2; generated type files likewise, with the same first pair of places where a model is ambiguous. Where the paper departs from ISO 8879
//! (`departures.rs`), the inputs are written anew and compared once more. Names may have LENGTH bytes, in
//! the declaration that onsgmls is given too.
//!
//! rustc -O --edition 2021 opensp.rs -L FOLDER -l static=NAME && ./opensp FILE DOCUMENTS TYPES SEED LENGTH
//!
//! FILE is written anew for each case; onsgmls is to be found on the path.

mod departures;
mod generate;
mod library;
mod onsgmls;
#[allow(dead_code)] // Only what a separator is, is asked of it.
mod oracle;

use departures::{attributes_of, plain_document, plain_type, without_comments, Kind, Kinds};
use generate::Random;
use onsgmls::{add_data, clashes, Event, Onsgmls};
use oracle::Settings;
use std::collections::BTreeMap;
use std::{env, io, process};

/// Five numbers of four bytes.
const EVENT_BYTES: usize = 4 * oracle::NUMBERS_PER_EVENT;
const SHOWN_DIFFERENCES: usize = 3;

/// Of each kind of departure inputs that show it: type file and document, or a type file. (`long_examples` has others; of `House`
/// there is none.)
#[rustfmt::skip]
const EXAMPLES: [(Kind, &str, Option<&str>); 22] = [
    // Refused by onsgmls alone, by the reader alone, and accepted by both with other text.
    (Kind::Separator, "<!ELEMENT A - O (#PCDATA,B)><!ELEMENT B - O EMPTY>", Some("<A>x<B> </A>")),
    (Kind::Separator, "<!ELEMENT A - O (B,#PCDATA,A?)><!ELEMENT B O O (#PCDATA)>", Some("<A> <A>x")),
    (Kind::Separator, "<!ELEMENT A - O (B,#PCDATA)><!ELEMENT B O O (#PCDATA)>", Some("<A> x")),
    (Kind::LeftOut, "<!ELEMENT A - O (#PCDATA)>", Some("<A>&#65;")),
    (Kind::LeftOut, "<!ELEMENT A - O ANY>", None),
    (Kind::Value, "<!ELEMENT A O O (#PCDATA)><!ATTLIST A X CDATA #IMPLIED>", Some("<A X='a\tb'>x")),
    (Kind::Value, "<!ELEMENT A O O (#PCDATA)><!ATTLIST A X NUMBER #IMPLIED>", Some("<A X=' 4'>")),
    (Kind::Value, "<!ELEMENT A O O (#PCDATA)><!ATTLIST A X (a|b) ' a'>", None),
    (Kind::Later, "<!ELEMENT A O O (B)><!ATTLIST B X CDATA #IMPLIED><!ELEMENT B O O EMPTY>", None),
    (Kind::Net, "<!ELEMENT A - O (#PCDATA)>", Some("<A/x")),
    (Kind::Parted, "<!ELEMENT A -O EMPTY>", None),
    (Kind::Parted, "<!ELEMENT A O O EMPTY><!ATTLIST A X CDATA'a' Y NUMBER#IMPLIED>", None),
    (Kind::Parted, "<!ELEMENT A O O EMPTY><!ATTLIST A X CDATA 'a'Y CDATA 'b'>", None),
    (Kind::Unquoted, "<!ELEMENT A O O EMPTY><!ATTLIST A X NUMBER 40>", None),
    (Kind::Unquoted, "<!ELEMENT A O O EMPTY><!ATTLIST A X(a|b)b Y CDATA -a-- Z NAME #IMPLIED>", None),
    (Kind::OtherWord, "<!ELEMENT A O O EMPTY><!ATTLIST A X ID #IMPLIED>", None),
    (Kind::OtherWord, "<!ELEMENT A O O EMPTY><!ATTLIST A X CDATA#FIXED 'a'>", None),
    (Kind::Mixed, "<!ELEMENT A O O EMPTY><!ATTLIST A X (a|b,c&d) #IMPLIED>", None),
    (Kind::Twice, "<!ELEMENT A O O EMPTY><!ATTLIST A A0 NAME #IMPLIED X NAME 'a' X NUMBER '1'>", None),
    (Kind::Rank, "<!ELEMENT A - O EMPTY><!ELEMENT H 1 - O EMPTY>", None),
    (Kind::LastMember, "<!ELEMENT A - O (B&C)><!ELEMENT B - O EMPTY><!ELEMENT C O O (#PCDATA)>", Some("<A><B>x")),
    (Kind::Repeated, "<!ELEMENT A - O ((B&C)*,D)+>", None),
];

/// Of kinds that are about numbers: 41 names and name tokens in a list, 40 once its last group is none, and values of 239 bytes.
fn long_examples() -> [(Kind, String, Option<String>); 4] {
    let element = "<!ELEMENT A O O EMPTY>";
    let tokens: Vec<String> = (1..=32).map(|number| format!("T{number}")).collect();
    let tokens = tokens.join("|");
    let many = format!("{element}<!ATTLIST A X({tokens})'T1' Y(a|b|c|d|e)'a' Z(f)'f'>");
    let value = "a".repeat(239);
    let defaulted = format!("{element}<!ATTLIST A X CDATA '{value}'>");
    let written = format!("{element}<!ATTLIST A X CDATA #IMPLIED>");
    [
        (Kind::Tokens, many.clone(), None),
        (Kind::Tokens, many, Some("<A X='T32'>".to_string())),
        (Kind::Long, defaulted, None),
        (Kind::Long, written, Some(format!("<A X='{value}'>"))),
    ]
}

/// Types in which a byte 13 is data wherever an element has `#PCDATA`, so that no departure bears on record ends.
const RECORD_TYPES: [&str; 6] = [
    "<!ELEMENT P - O (#PCDATA|Q|E)*><!ELEMENT Q - O (#PCDATA)><!ELEMENT E - O EMPTY>",
    "<!ELEMENT P - O (Q|E)*><!ELEMENT Q - O (#PCDATA)><!ELEMENT E - O EMPTY>",
    "<!ELEMENT P O O (Q+)><!ELEMENT Q O O (#PCDATA)>",
    "<!ELEMENT P O O (Q|E)*><!ELEMENT Q O O (#PCDATA)><!ELEMENT E - O (#PCDATA|Q)*>",
    "<!ELEMENT P O O ((Q|#PCDATA)*)><!ELEMENT Q - O (P|E|#PCDATA)*><!ELEMENT E - O EMPTY>",
    "<!ELEMENT P - - (#PCDATA|Q|E)*><!ELEMENT Q - - (#PCDATA|E)*><!ELEMENT E - O EMPTY>",
];
const RECORD_PIECES: [&str; 18] = [
    "\r", "\r", "\r", "\r", "\r\n", "\r\n", "\n", "x", "y z", "<!-- c -->", "<!-- c -->", "<!-- \r\n -->", "<!>", "<!>", "<Q>", "<Q>", "<E>", "</Q>",
];

fn main() -> io::Result<()> {
    let arguments: Vec<String> = env::args().skip(1).collect();
    let number = |index: usize| arguments.get(index)?.parse::<u64>().ok();
    let (Some(file), Some(documents), Some(types), Some(seed), Some(length)) = (
        arguments.first().cloned(),
        number(1),
        number(2),
        number(3),
        number(4),
    ) else {
        eprintln!("usage: opensp FILE DOCUMENTS TYPES SEED LENGTH");
        process::exit(2);
    };
    let beside = Onsgmls {
        file,
        name_length: length as u32,
    };
    let (mut passed, mut failed) = (0, 0);
    let owned = |(kind, type_file, document): (Kind, &str, Option<&str>)| {
        (kind, type_file.to_string(), document.map(str::to_string))
    };
    for (kind, type_file, document) in EXAMPLES.map(owned).into_iter().chain(long_examples()) {
        match shows(&beside, kind, type_file, document)? {
            true => passed += 1,
            false => failed += 1,
        }
    }
    for (what, count, compare) in [
        ("documents", documents, any_document as Compare),
        ("documents under \"&\"", documents, any_order_document),
        ("documents of record ends", 2 * documents, any_records),
        ("type files", types, any_type),
        ("type files with \"&\"", types, any_order_type),
    ] {
        let mut tally = Tally::default();
        for case in 0..count {
            // Each case has its own stream, so that it is the same whatever came before it.
            let mut random = Random::new(seed.wrapping_mul(1_000_000_007).wrapping_add(case));
            tally.add(case, compare(&beside, &mut random)?);
        }
        tally.print(what);
        passed += count - tally.failed;
        failed += tally.failed;
    }
    println!("{passed} passed, {failed} failed");
    process::exit((failed > 0) as i32);
}

/// Whether the example differs by its kind and by no other.
fn shows(
    beside: &Onsgmls,
    kind: Kind,
    type_file: String,
    document: Option<String>,
) -> io::Result<bool> {
    let compared = match document {
        Some(document) => compare_document(beside, type_file.into(), document.into()),
        None => compare_type(beside, type_file.into()),
    }?;
    let alike_anew = compared.difference_anew.is_none();
    let shown = compared.difference.is_some() && alike_anew && compared.kinds == [kind].into();
    if !shown {
        println!("no example of {kind:?}:");
        compared.show(&compared.difference);
        compared.show(&compared.difference_anew);
    }
    Ok(shown)
}

type Compare = fn(&Onsgmls, &mut Random) -> io::Result<Compared>;

/// One case: what was given, the difference as it stands and once written anew, if there is one.
struct Compared {
    type_file: Vec<u8>,
    document: Vec<u8>,
    /// The library's refusal number.
    number: u32,
    difference: Option<String>,
    difference_anew: Option<String>,
    kinds: Kinds,
}

impl Compared {
    fn show(&self, difference: &Option<String>) {
        println!("  departures {:?}", self.kinds);
        println!("  type     {}", self.type_file.escape_ascii());
        println!("  document {}", self.document.escape_ascii());
        println!("{}", difference.as_deref().unwrap_or("  alike"));
    }
}

#[derive(Default)]
struct Tally {
    /// How many cases had each refusal number, 0 for acceptance.
    numbers: BTreeMap<u32, u64>,
    failed: u64,
    /// Cases that differ as they stand and not once written anew.
    departures: BTreeMap<Kinds, u64>,
}

impl Tally {
    fn add(&mut self, case: u64, compared: Compared) {
        *self.numbers.entry(compared.number).or_default() += 1;
        if compared.difference_anew.is_some() {
            self.failed += 1;
            if self.failed as usize <= SHOWN_DIFFERENCES {
                println!("difference in case {case}:");
                compared.show(&compared.difference_anew);
            }
        } else if compared.difference.is_some() {
            *self.departures.entry(compared.kinds).or_default() += 1;
        }
    }

    fn print(&self, what: &str) {
        let cases: u64 = self.numbers.values().sum();
        let explained: u64 = self.departures.values().sum();
        println!(
            "{cases} {what}, by refusal number, 0 for acceptance: {:?}",
            self.numbers
        );
        println!("  {} alike as they stand", cases - explained - self.failed);
        for (kinds, count) in &self.departures {
            println!("  {count} differ by {kinds:?}, alike once written anew");
        }
    }
}

fn any_document(beside: &Onsgmls, random: &mut Random) -> io::Result<Compared> {
    // Half of them with `#PCDATA` at many places.
    let any = match random.percent(50) {
        true => generate::sound_type,
        false => generate::mixed_type,
    };
    some_document(beside, random, any)
}

fn any_order_document(beside: &Onsgmls, random: &mut Random) -> io::Result<Compared> {
    some_document(beside, random, generate::any_order_layers)
}

fn some_document(
    beside: &Onsgmls,
    random: &mut Random,
    any: fn(&mut Random) -> generate::Type,
) -> io::Result<Compared> {
    let under = accepted_type(random, any);
    let document = generate::any_document(random, &under);
    let document = without_record_ends(random, &document);
    let longest = beside.name_length as usize;
    compare_document(
        beside,
        generate::stretched(&under.file, longest),
        generate::stretched(&document, longest),
    )
}

/// Record ends, text, comments and tags, in edition 2.
fn any_records(beside: &Onsgmls, random: &mut Random) -> io::Result<Compared> {
    let type_file = random.pick(&RECORD_TYPES).as_bytes().to_vec();
    let mut document = "<P>".to_string();
    for _ in 0..random.between(1, 14) {
        document += random.pick(&RECORD_PIECES);
    }
    // Not every end tag has its start; the last ones are left out or written.
    if random.percent(50) {
        document += random.pick(&["</P>", "</Q></P>"]);
    }
    let document = document.into_bytes();
    let settings = Settings {
        name_length: beside.name_length,
        edition: 2,
    };
    let difference = difference_under(settings, beside, &type_file, &document)?;
    Ok(Compared {
        number: reading(settings, &type_file, &document).err().unwrap_or(0),
        type_file,
        document,
        difference_anew: difference.clone(),
        difference,
        kinds: Kinds::new(),
    })
}

fn compare_document(
    beside: &Onsgmls,
    type_file: Vec<u8>,
    document: Vec<u8>,
) -> io::Result<Compared> {
    let difference = document_difference(beside, &type_file, &document)?;
    let (plain_type, plain, kinds) = plain_document(beside.name_length, &type_file, &document);
    let settings = Settings::first(beside.name_length);
    let read = |document: &[u8]| reading(settings, &type_file, document);
    let reading = read(&document);
    // Of some, or of a value in them, only the beginning is left.
    let cut = [Kind::LeftOut, Kind::Value, Kind::Net, Kind::House, Kind::Long]
        .iter()
        .any(|kind| kinds.contains(kind));
    let difference_anew = if kinds.is_empty() {
        difference.clone()
    } else if !cut && plain_type == type_file && !alike_anew(&kinds, &reading, &read(&plain)) {
        Some("  the library reads it otherwise once written anew".to_string())
    } else {
        document_difference(beside, &plain_type, &plain)?
    };
    Ok(Compared {
        type_file,
        document,
        number: reading.err().unwrap_or(0),
        difference,
        difference_anew,
        kinds,
    })
}

type Read = Result<Vec<Event>, u32>;

/// Written anew it is read as before, but that tags may now be written ones.
fn alike_anew(kinds: &Kinds, before: &Read, anew: &Read) -> bool {
    match (before, anew) {
        (Ok(before), Ok(anew)) if kinds.contains(&Kind::LastMember) => before
            .iter()
            .map(Event::written)
            .eq(anew.iter().map(Event::written)),
        _ => before == anew,
    }
}

fn accepted_type(random: &mut Random, any: fn(&mut Random) -> generate::Type) -> generate::Type {
    loop {
        let sound = any(random);
        if judged(8, &sound.file)[0] == 0 {
            return sound;
        }
    }
}

/// Spaces and tabs for record ends, and before some tags.
fn without_record_ends(random: &mut Random, document: &[u8]) -> Vec<u8> {
    let more = *random.pick(&[&0, &0, &15]);
    let mut changed = Vec::new();
    for &byte in document {
        if byte == b'<' && random.percent(more) {
            changed.push(*random.pick(&[&b' ', &b'\t']));
        }
        changed.push(match byte {
            b'\n' => b' ',
            b'\r' => b'\t',
            _ => byte,
        });
    }
    changed
}

/// The library's events, or its refusal number.
fn reading(settings: Settings, type_file: &[u8], document: &[u8]) -> Read {
    let (mut answer, mut records) = ([0; 6], [0; 6 * 4 * 64]);
    library::judge(settings, type_file, &mut records, &mut answer);
    let attributes = attributes_of(settings, type_file);
    // No token brings more than 50 events and 24 times 40 attributes, and a token has at least one byte.
    let mut buffer = vec![0; EVENT_BYTES * 1010 * (document.len() + 1)];
    library::read(settings, type_file, document, &mut buffer, &mut answer);
    if answer[0] != 0 {
        return Err(answer[0]);
    }
    let number = |bytes: &[u8], index: usize| -> usize {
        let four = bytes[4 * index..4 * index + 4].try_into().unwrap();
        u32::from_le_bytes(four) as usize
    };
    let mut events = Vec::new();
    let mut given = BTreeMap::new();
    for event in buffer.chunks_exact(EVENT_BYTES).take(answer[5] as usize) {
        let [kind, element, offset, length] = [0, 1, 2, 3].map(|index| number(event, index));
        if kind == 5 {
            add_data(&mut events, document[offset..offset + length].to_vec());
            continue;
        }
        if kind == 7 || kind == 8 {
            let text = if kind == 7 { document } else { type_file };
            given.insert(element, (kind == 7, &text[offset..offset + length]));
            continue;
        }
        if kind == 1 || kind == 2 {
            // All attributes of its list, an implied one too.
            for &[of, number, name, size, declared, ..] in &attributes {
                if of == element {
                    let name = &type_file[name..name + size];
                    let value = given.get(&number).copied();
                    events.push(attribute(name, declared == 0, value));
                }
            }
            given.clear();
        }
        let record = &records[24 * (element - 1)..];
        let name = &type_file[number(record, 0)..][..number(record, 1)];
        let name = String::from_utf8_lossy(name).to_uppercase();
        // The end of an EMPTY element is never written.
        let written = kind == 1 || kind == 3;
        events.push(match kind {
            1 | 2 => Event::Start { name, written },
            _ => Event::End { name, written },
        });
    }
    Ok(events)
}

/// An attribute as onsgmls writes it: CDATA as it stands, else folded, and with no value where it is implied.
fn attribute(name: &[u8], is_cdata: bool, value: Option<(bool, &[u8])>) -> Event {
    let name = String::from_utf8_lossy(name).to_uppercase();
    let text = value.map(|(_, bytes)| String::from_utf8_lossy(bytes).replace('\\', "\\\\"));
    let line = match text {
        None => format!("{name} IMPLIED"),
        Some(text) if is_cdata => format!("{name} CDATA {text}"),
        Some(text) => format!("{name} TOKEN {}", text.to_uppercase()),
    };
    Event::Attribute {
        line,
        written: value.is_some_and(|(written, _)| written),
    }
}

fn document_difference(
    beside: &Onsgmls,
    type_file: &[u8],
    document: &[u8],
) -> io::Result<Option<String>> {
    difference_under(Settings::first(beside.name_length), beside, type_file, document)
}

fn difference_under(
    settings: Settings,
    beside: &Onsgmls,
    type_file: &[u8],
    document: &[u8],
) -> io::Result<Option<String>> {
    let ours = reading(settings, type_file, document);
    let theirs = beside.read(&root(type_file), type_file, document)?;
    Ok(match (&ours, &theirs) {
        (Ok(ours), Ok(theirs)) if ours == theirs => None,
        (Err(_), Err(_)) => None,
        _ => Some(format!("  library {ours:?}\n  onsgmls {theirs:?}")),
    })
}

fn judged(name_length: u32, type_file: &[u8]) -> [u32; 6] {
    let mut answer = [0; 6];
    library::judge(Settings::first(name_length), type_file, &mut [0; 6 * 4 * 64], &mut answer);
    answer
}

/// The first element's name; any name where there is none.
fn root(type_file: &[u8]) -> String {
    let text = String::from_utf8_lossy(&without_comments(type_file)).to_uppercase();
    let after = text.split_once("<!ELEMENT").map_or("", |(_, after)| after);
    let name = after.split_whitespace().next().unwrap_or("");
    let is_name_char = |c: char| c.is_ascii_alphanumeric() || c == '.' || c == '-';
    match name.split(|c| !is_name_char(c)).next() {
        Some(name) if name.starts_with(char::is_alphabetic) => name.to_string(),
        _ => "A".to_string(),
    }
}

fn any_type(beside: &Onsgmls, random: &mut Random) -> io::Result<Compared> {
    loop {
        let type_file = generate::any_type(random).file;
        let type_file = generate::stretched(&type_file, beside.name_length as usize);
        // A "]" would end the subset in which onsgmls is given the declarations.
        if !without_comments(&type_file).contains(&b']') {
            return compare_type(beside, type_file);
        }
    }
}

/// Most models have an "&".
fn any_order_type(beside: &Onsgmls, random: &mut Random) -> io::Result<Compared> {
    let type_file = generate::any_order_type(random).file;
    compare_type(
        beside,
        generate::stretched(&type_file, beside.name_length as usize),
    )
}

fn compare_type(beside: &Onsgmls, type_file: Vec<u8>) -> io::Result<Compared> {
    let difference = type_difference(beside, &type_file)?;
    let (plain, kinds) = plain_type(beside.name_length, &type_file);
    let difference_anew = match kinds.is_empty() {
        true => difference.clone(),
        false => type_difference(beside, &plain)?,
    };
    Ok(Compared {
        number: judged(beside.name_length, &type_file)[0],
        type_file,
        document: Vec::new(),
        difference,
        difference_anew,
        kinds,
    })
}

fn type_difference(beside: &Onsgmls, type_file: &[u8]) -> io::Result<Option<String>> {
    let answer = judged(beside.name_length, type_file);
    let theirs = beside.judge(&root(type_file), type_file)?;
    let alike = match (answer[0], &theirs) {
        (0, theirs) => theirs.is_ok(),
        (9, Err(messages)) => {
            let places = places_of_model(type_file, answer[2] as usize);
            first_pair(&places, messages) == Some([answer[3], answer[4], answer[2]])
        }
        (_, theirs) => theirs.is_err(),
    };
    Ok((!alike).then(|| format!("  library {answer:?}\n  onsgmls {theirs:?}")))
}

/// Names and offsets of the places of the model around a byte, which runs from the first "(" of its
/// declaration up to ">".
fn places_of_model(type_file: &[u8], at: usize) -> Vec<(String, usize)> {
    let text = String::from_utf8_lossy(&without_comments(type_file)).to_uppercase();
    let declaration = text[..at].rfind("<!").unwrap_or(0);
    let mut at = text[declaration..]
        .find('(')
        .map_or(at, |group| declaration + group);
    let model = text[at..].split('>').next().unwrap_or("");
    let mut places = Vec::new();
    for name in model.split(|c: char| !c.is_ascii_alphanumeric() && !"#.-".contains(c)) {
        if !name.is_empty() {
            places.push((name.to_string(), at));
        }
        at += name.len() + 1;
    }
    places
}

/// The first of all pairs that onsgmls calls possible at once, and the offset of its second place.
fn first_pair(places: &[(String, usize)], messages: &str) -> Option<[u32; 3]> {
    let mut pairs = Vec::new();
    for (name, occurrences) in clashes(messages) {
        let named: Vec<usize> = (0..places.len()).filter(|&k| places[k].0 == name).collect();
        let mut found = occurrences
            .iter()
            .map(|occurrence| named.get(occurrence - 1));
        let (first, second) = (*found.next()??, *found.next()??);
        pairs.push([first as u32 + 1, second as u32 + 1, places[second].1 as u32]);
    }
    pairs.into_iter().min()
}
