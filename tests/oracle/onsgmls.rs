//! onsgmls, the program of OpenSP: what it is given for a type file and a document, and what it
//! says of them.

use std::collections::{BTreeMap, BTreeSet};
use std::process::{Command, Output};
use std::{fs, io};

/// The declaration of source document 003 with OMITTAG YES, up to its syntax. That is the reference
/// concrete syntax written out, since its quantity set, which is that of the paper, gets another NAMELEN.
const DECLARATION: &str = r#"<!SGML "ISO 8879:1986"
CHARSET
  BASESET "ISO 646-1983//CHARSET International Reference Version (IRV)//ESC 2/5 4/0"
  DESCSET 0 9 UNUSED 9 2 9 11 2 UNUSED 13 1 13 14 18 UNUSED 32 95 32 127 1 UNUSED
CAPACITY PUBLIC "ISO 8879-1986//CAPACITY Reference//EN"
SCOPE DOCUMENT
SYNTAX
  SHUNCHAR CONTROLS 0 1 2 3 4 5 6 7 8 9 10 11 12 13 14 15 16 17 18 19 20 21 22 23 24 25 26 27 28 29 30 31 127 255
  BASESET "ISO 646-1983//CHARSET International Reference Version (IRV)//ESC 2/5 4/0"
  DESCSET 0 128 0
  FUNCTION RE 13 RS 10 SPACE 32 TAB SEPCHAR 9
  NAMING LCNMSTRT "" UCNMSTRT "" LCNMCHAR "-." UCNMCHAR "-." NAMECASE GENERAL YES ENTITY NO
  DELIM GENERAL SGMLREF SHORTREF SGMLREF
  NAMES SGMLREF
  QUANTITY SGMLREF NAMELEN "#;

const FEATURES: &str = r#"
FEATURES
  MINIMIZE DATATAG NO OMITTAG YES RANK NO SHORTTAG NO
  LINK SIMPLE NO IMPLICIT NO EXPLICIT NO
  OTHER CONCUR NO SUBDOC NO FORMAL NO
APPINFO NONE>
"#;

/// What both readers say of an accepted document; neighbouring data is one event.
#[derive(Clone, Debug, PartialEq)]
pub enum Event {
    Start {
        name: String,
        written: bool,
    },
    End {
        name: String,
        written: bool,
    },
    Data(Vec<u8>),
    /// An attribute of the element that starts next: what its line says behind the "A".
    Attribute {
        line: String,
        written: bool,
    },
    /// Any other line of onsgmls' output.
    Other(String),
}

impl Event {
    /// The same with its tag written.
    pub fn written(&self) -> Event {
        let mut event = self.clone();
        if let Event::Start { written, .. } | Event::End { written, .. } = &mut event {
            *written = true;
        }
        event
    }
}

/// Adds data to the data before it, if there is any.
pub fn add_data(events: &mut Vec<Event>, bytes: Vec<u8>) {
    match events.last_mut() {
        Some(Event::Data(before)) => before.extend(bytes),
        _ => events.push(Event::Data(bytes)),
    }
}

pub struct Onsgmls {
    /// A file to write each case to.
    pub file: String,
    /// How long a name may be.
    pub name_length: u32,
}

impl Onsgmls {
    /// The events of the document, or the messages where it isn't a conforming one.
    pub fn read(
        &self,
        root: &str,
        type_file: &[u8],
        document: &[u8],
    ) -> io::Result<Result<Vec<Event>, String>> {
        let output = self.run("-oomitted", root, type_file, document)?;
        let messages = String::from_utf8_lossy(&output.stderr).into_owned();
        // The last line, `C`, is there if the document is a conforming one.
        Ok(match output.stdout.ends_with(b"\nC\n") {
            true => Ok(events_of(&output.stdout)),
            false => Err(messages),
        })
    }

    /// Nothing where the type file is without error, else the messages.
    pub fn judge(&self, root: &str, type_file: &[u8]) -> io::Result<Result<(), String>> {
        let output = self.run("-p", root, type_file, b"")?;
        let messages = String::from_utf8_lossy(&output.stderr).into_owned();
        Ok(match output.status.success() {
            true => Ok(()),
            false => Err(messages),
        })
    }

    fn run(
        &self,
        option: &str,
        root: &str,
        type_file: &[u8],
        document: &[u8],
    ) -> io::Result<Output> {
        let longest = self.name_length;
        let doctype = format!("{DECLARATION}{longest}{FEATURES}<!DOCTYPE {root} [");
        fs::write(
            &self.file,
            [doctype.as_bytes(), type_file, b"]>", document].concat(),
        )?;
        // -E0: all messages, however many. Bytes 10 and 13 are given as they are, a record start and a record end.
        let file = format!("<OSFILE RECORDS=ASIS>{}", self.file);
        Command::new("onsgmls")
            .args(["-E0", option, &file])
            .env("LC_ALL", "C")
            .output()
    }
}

/// `o` says that the tag on the next line was omitted; the last line is `C`.
fn events_of(output: &[u8]) -> Vec<Event> {
    let mut events = Vec::new();
    let mut written = true;
    for line in output.split(|&byte| byte == b'\n') {
        let Some((&command, rest)) = line.split_first() else {
            continue;
        };
        let name = || String::from_utf8_lossy(rest).into_owned();
        match command {
            b'(' => events.push(Event::Start {
                name: name(),
                written,
            }),
            b')' => events.push(Event::End {
                name: name(),
                written,
            }),
            b'A' => events.push(Event::Attribute {
                line: name(),
                written,
            }),
            b'-' => add_data(&mut events, unescaped(rest)),
            b'o' | b'C' => {}
            _ => events.push(Event::Other(String::from_utf8_lossy(line).into_owned())),
        }
        written = command != b'o';
    }
    events
}

/// Data with `\\`, `\n`, which is a record end, and `\nnn` undone; the other escapes stand for what no case here has.
fn unescaped(mut text: &[u8]) -> Vec<u8> {
    let mut bytes = Vec::new();
    loop {
        let (byte, after) = match text {
            [b'\\', b'\\', after @ ..] => (b'\\', after),
            [b'\\', b'n', after @ ..] => (b'\r', after),
            [b'\\', a @ b'0'..=b'3', b @ b'0'..=b'7', c @ b'0'..=b'7', after @ ..] => {
                (64 * (a - b'0') + 8 * (b - b'0') + (c - b'0'), after)
            }
            [byte, after @ ..] => (*byte, after),
            [] => return bytes,
        };
        bytes.push(byte);
        text = after;
    }
}

/// Of the first model that onsgmls calls ambiguous: each name that is possible at several places at
/// once, with the numbers of those among its occurrences. onsgmls names them by twos, each with its
/// neighbour in a list of its own.
pub fn clashes(messages: &str) -> Vec<(String, BTreeSet<usize>)> {
    let mut clashes: BTreeMap<(&str, &str), BTreeSet<usize>> = BTreeMap::new();
    let mut first_location = None;
    for (location, state, name, pair) in messages.lines().filter_map(ambiguity) {
        if *first_location.get_or_insert(location) == location {
            clashes.entry((state, name)).or_default().extend(pair);
        }
    }
    let named = |((_, name), occurrences): ((&str, &str), _)| (name.to_string(), occurrences);
    clashes.into_iter().map(named).collect()
}

/// Where the message stands, the state of the model, the name and two of its occurrences.
fn ambiguity(line: &str) -> Option<(&str, &str, &str, [usize; 2])> {
    let (location, rest) = line.split_once("content model is ambiguous: when ")?;
    let (state, rest) = rest.split_once(", both the ")?;
    let (one, rest) = rest.split_once(" and ")?;
    let (other, rest) = rest.split_once(" occurrences of \"")?;
    let (name, _) = rest.split_once('"')?;
    let number = |ordinal: &str| ordinal.trim_end_matches(char::is_alphabetic).parse().ok();
    Some((location, state, name, [number(one)?, number(other)?]))
}
