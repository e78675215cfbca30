//! Where the paper departs from ISO 8879: each kind of departure, and inputs written anew so that
//! both say the same of them.

use crate::oracle::Settings;
use crate::{library, oracle};
use std::collections::BTreeSet;
use std::ops::Range;

/// Kinds of departure; DECISIONS.md has the sentence of the paper for each ("Beside OpenSP").
#[derive(Clone, Copy, Debug, PartialEq, Eq, PartialOrd, Ord)]
pub enum Kind {
    /// A separator is ignored in an element with `#PCDATA` where `#PCDATA` may not come next.
    Separator,
    /// Number 5: a form of ISO 8879 left out.
    LeftOut,
    /// `<A/` is no start tag. Nor is it one by ISO 8879 under SHORTTAG NO (7.4.1), but onsgmls takes
    /// it as a NET-enabling one.
    Net,
    /// Parameters are parted: `-O`, `CDATA"a"` and `"a"Y` are refused. By ISO 8879 (10.1.1) a delimiter parts too.
    Parted,
    /// An element has no rank suffix: `<!ELEMENT H 1`.
    Rank,
    /// The last member left of an "&" group is required; by ISO 8879 (4.62) a member of one never is.
    LastMember,
    /// Number 25: an "&" group in what carries "+" or "*". ISO 8879 has no such rule.
    Repeated,
    /// Number 22 for a value that holds a separator: a tab or line end fits no declared value, a space CDATA only. By ISO 8879
    /// (7.9.3) they are replaced by spaces, and around a token left out.
    Value,
    /// "Defaults `#REQUIRED`, `#IMPLIED` or a literal": `NUMBER 40` is refused. Nor has ISO 8879 (7.9.3.1) a value without quotes
    /// under SHORTTAG NO, but onsgmls takes one in an attribute list.
    Unquoted,
    /// "Declared values CDATA .., NUMBER and NAME .., and name token group", and the defaults above: ISO 8879 (11.3.3, 11.3.4) has
    /// others, as ID and `#FIXED`.
    OtherWord,
    /// "Name token group (one connector; ..)": `(a|b,c)` is refused. By ISO 8879 (10.1.3) it only should have one.
    Mixed,
    /// "7 holds for a list's attributes too". So it is by ISO 8879 (11.3.2), but onsgmls takes a name twice.
    Twice,
    /// "At most 40 attributes to an element". By ISO 8879 (11.3.1) the tokens of their groups count as well.
    Tokens,
    /// "CDATA (any length)". By ISO 8879 (7.9.4.5) a value has at most as many bytes as LITLEN less NORMSEP.
    Long,
    /// Number 10 of a type file: an attribute list stands behind the declaration of its element. By ISO 8879 it may stand before.
    Later,
    /// House figures: 32,768 bytes of type file, 65,535 of document, 64 elements.
    House,
}

pub type Kinds = BTreeSet<Kind>;

const NUMBER: usize = 0;
const INPUT: usize = 1;
const POSITION: usize = 2;
const IN_DOCUMENT: u32 = 2;
const TYPE_BYTES: usize = 32_768;
const DOCUMENT_BYTES: usize = 65_535;

/// ATTCNT of the reference quantity set: attribute names and name tokens of a list.
const ATTCNT: usize = 40;
/// LITLEN less NORMSEP of it: bytes of a value.
const LONGEST_VALUE: usize = 238;

/// Declared values of ISO 8879 that the paper does not have; onsgmls knows all of these.
#[rustfmt::skip]
const OTHER_VALUES: [&str; 12] = [
    "ENTITY", "ENTITIES", "ID", "IDREF", "IDREFS", "NAMES", "NMTOKEN", "NMTOKENS", "NOTATION", "NUMBERS", "NUTOKEN", "NUTOKENS",
];
/// What may stand behind the `#` of a default besides.
const OTHER_DEFAULTS: [&str; 3] = ["FIXED", "CURRENT", "CONREF"];

/// The type file without what a departure bears on, the document likewise and with the tags written that the reader alone
/// infers. Of a document with a form that the reader refuses and onsgmls takes, only the part before that form stays.
pub fn plain_document(
    name_length: u32,
    type_file: &[u8],
    document: &[u8],
) -> (Vec<u8>, Vec<u8>, Kinds) {
    let (type_file, mut kinds) = plain_type(name_length, type_file);
    let mut document = document.to_vec();
    if let Some((kind, start)) = form_refused(name_length, &type_file, &document) {
        document.truncate(start);
        kinds.insert(kind);
    }
    let noted = oracle::noted(Settings::first(name_length), &type_file, &document);
    let mut changes: Vec<(Range<usize>, String, Kind)> = Vec::new();
    for at in noted.ignored {
        changes.push((at..at + 1, String::new(), Kind::Separator));
    }
    for (at, tags) in noted.last_members {
        changes.push((at..at, tags, Kind::LastMember));
    }
    for (offset, length) in noted.values {
        if length > LONGEST_VALUE {
            let over = offset + LONGEST_VALUE..offset + length;
            changes.push((over, String::new(), Kind::Long));
        }
    }
    // From the end on, so that those before stay where they are.
    changes.sort_by_key(|(range, ..)| range.start);
    for (range, text, kind) in changes.into_iter().rev() {
        document.splice(range, text.into_bytes());
        kinds.insert(kind);
    }
    (type_file, document, kinds)
}

/// Where a form begins that the reader refuses and onsgmls takes.
fn form_refused(name_length: u32, type_file: &[u8], document: &[u8]) -> Option<(Kind, usize)> {
    let answer = read(name_length, type_file, document);
    if answer[INPUT] != IN_DOCUMENT {
        return None;
    }
    let at = answer[POSITION] as usize;
    let is_misfit = |anew: &[u8]| is_refused(22, at, read(name_length, type_file, anew));
    match answer[NUMBER] {
        1 => Some((Kind::House, DOCUMENT_BYTES)),
        5 => Some((
            Kind::LeftOut,
            within_tag(name_length, type_file, document, at).unwrap_or(at),
        )),
        22 if is_replaced(document, at, is_misfit) => {
            let tag = within_tag(name_length, type_file, document, at)?;
            Some((Kind::Value, tag))
        }
        4 if document.get(at) == Some(&b'/') => {
            let tag = within_tag(name_length, type_file, document, at)?;
            letter_at(document, tag + 1).then_some((Kind::Net, tag))
        }
        _ => None,
    }
}

/// ISO 8879 has other bytes for some of the value whose literal opens here: a tab or line end stands in it, or a space and it is not one of
/// CDATA. That alone takes "="; `is_misfit` says whether an input is refused with 22 at that literal.
fn is_replaced(bytes: &[u8], quote: usize, is_misfit: impl Fn(&[u8]) -> bool) -> bool {
    let start = quote + 1;
    let rest = &bytes[start..];
    let length = rest
        .iter()
        .take_while(|&&byte| byte != bytes[quote])
        .count();
    let holds = |wanted: &[u8]| rest[..length].iter().any(|byte| wanted.contains(byte));
    holds(b"\t\n\r") || holds(b" ") && is_misfit(&put(bytes, start..start + length, b"="))
}

/// Where the tag begins within which a byte stands: before it the document is not refused for ending within a form.
fn within_tag(name_length: u32, type_file: &[u8], document: &[u8], at: usize) -> Option<usize> {
    let ends_within =
        |end: usize| is_refused(4, end, read(name_length, type_file, &document[..end]));
    let mut starts = (0..at).rev().filter(|&start| document[start] == b'<');
    match ends_within(at) {
        true => starts.find(|&start| !ends_within(start)),
        false => None,
    }
}

/// The type file likewise: of one with a form left out, or an element too many, the declarations before it stay.
pub fn plain_type(name_length: u32, type_file: &[u8]) -> (Vec<u8>, Kinds) {
    let mut kinds = Kinds::new();
    let mut file = type_file.to_vec();
    while let Some((kind, anew)) = without_departure(name_length, &file) {
        kinds.insert(kind);
        file = anew;
    }
    (file, kinds)
}

/// The departure for which the type file is refused, or that bears on an accepted one, and the file without it.
fn without_departure(name_length: u32, file: &[u8]) -> Option<(Kind, Vec<u8>)> {
    let answer = judged(name_length, file);
    let at = answer[POSITION] as usize;
    let before = |kind: Kind| {
        let start = declaration_start(name_length, file, at)?;
        Some((kind, file[..start].to_vec()))
    };
    let is_misfit = |anew: &[u8]| is_refused(22, at, judged(name_length, anew));
    match answer[NUMBER] {
        0 => within_quantities(name_length, file),
        1 => Some((Kind::House, file[..TYPE_BYTES].to_vec())),
        4 if is_other_word(name_length, file, at) => before(Kind::OtherWord),
        4 => mended(name_length, file, at),
        5 => before(Kind::LeftOut),
        7 => named_anew(name_length, file, at),
        8 if at < file.len() => before(Kind::House),
        10 => before(Kind::Later),
        22 if is_replaced(file, at, is_misfit) => before(Kind::Value),
        25 => {
            let mark = repeating_mark(file, at)?;
            let text: &[u8] = if file[mark] == b'*' { b"?" } else { b"" };
            Some((Kind::Repeated, put(file, mark..mark + 1, text)))
        }
        _ => None,
    }
}

/// The departure for which number 4 stands at a byte, and the file without it: it is one if that 4 is gone then.
fn mended(name_length: u32, file: &[u8], at: usize) -> Option<(Kind, Vec<u8>)> {
    // Where something parts them, a space is not what is missing.
    if at > 0 && !without_comments(file)[at - 1].is_ascii_whitespace() {
        if let Some(anew) = fit_anew(name_length, file, at..at, b" ") {
            return Some((Kind::Parted, anew));
        }
    }
    if is_rank_suffix(file, at) {
        // One digit of it; the next, if there is one, is as unfit.
        return Some((Kind::Rank, put(file, at..at + 1, b"")));
    }
    let value = at..at + name_bytes(&file[at..]);
    if !value.is_empty() {
        let quoted = [b"\"", &file[value.clone()], b"\""].concat();
        let anew = fit_anew(name_length, file, value, &quoted)?;
        return Some((Kind::Unquoted, anew));
    }
    let anew = joined_anew(name_length, file, at)?;
    Some((Kind::Mixed, anew))
}

/// The file with the connector before it for another one in a name token group. In a model ISO 8879 has one kind of connector too.
fn joined_anew(name_length: u32, file: &[u8], at: usize) -> Option<Vec<u8>> {
    let list = &file[list_start(name_length, file, at)?..at];
    let before = *list
        .iter()
        .rfind(|&&byte| is_connector(byte) || byte == b'(')?;
    let other = *file.get(at)?;
    match is_connector(before) && is_connector(other) && before != other {
        true => fit_anew(name_length, file, at..at + 1, &[before]),
        false => None,
    }
}

/// The file with another name for an attribute whose name stands in its list before.
fn named_anew(name_length: u32, file: &[u8], at: usize) -> Option<(Kind, Vec<u8>)> {
    let list = &file[list_start(name_length, file, at)?..at];
    let name = at..at + name_bytes(&file[at..]);
    let stands_in_list = |name: &[u8]| {
        list.split(|&byte| !is_name_byte(byte))
            .any(|word| word.eq_ignore_ascii_case(name))
    };
    let mut others = (0..).map(|number| format!("A{number}"));
    let other = others.find(|other| !stands_in_list(other.as_bytes()))?;
    stands_in_list(&file[name.clone()]).then(|| (Kind::Twice, put(file, name, other.as_bytes())))
}

/// The file with a text in place of some of its bytes, if what stands there then is fit: the first byte of the text that is
/// no space, or the one behind it.
fn fit_anew(name_length: u32, file: &[u8], bytes: Range<usize>, text: &[u8]) -> Option<Vec<u8>> {
    let spaces = text.iter().take_while(|&&byte| byte == b' ').count();
    let first = bytes.start + spaces;
    let mut anew = put(file, bytes, text);
    // What the change moves beyond the house figure would be number 1.
    anew.truncate(TYPE_BYTES);
    let answer = judged(name_length, &anew);
    let is_unfit = answer[NUMBER] == 4 && answer[POSITION] as usize <= first;
    (!is_unfit).then_some(anew)
}

fn put(file: &[u8], bytes: Range<usize>, text: &[u8]) -> Vec<u8> {
    [&file[..bytes.start], text, &file[bytes.end..]].concat()
}

/// A word of ISO 8879 stands where a word of the paper would be fit, as declared value or, behind `#`, as default; also where
/// nothing parts it from the parameter before. (CDATA would be number 5 as content of an element, NUMBER is 4.)
fn is_other_word(name_length: u32, file: &[u8], at: usize) -> bool {
    let is_default = file.get(at) == Some(&b'#');
    let start = at + is_default as usize;
    let word = start..start + file.get(start..).map_or(0, name_bytes);
    let (others, fitting): (&[&str], &[u8]) = match is_default {
        true => (&OTHER_DEFAULTS, b" #IMPLIED "),
        false => (&OTHER_VALUES, b" NUMBER "),
    };
    let is_other = |other: &&str| file[word.clone()].eq_ignore_ascii_case(other.as_bytes());
    others.iter().any(is_other) && fit_anew(name_length, file, at..word.end, fitting).is_some()
}

/// An accepted file with a list that ISO 8879 has too many tokens or too long a value in: the same with CDATA for the last group of
/// the list, or with the value cut short.
fn within_quantities(name_length: u32, file: &[u8]) -> Option<(Kind, Vec<u8>)> {
    let attributes = attributes_of(Settings::first(name_length), file);
    for &[.., offset, length] in &attributes {
        if length > LONGEST_VALUE {
            let over = offset + LONGEST_VALUE..offset + length;
            return Some((Kind::Long, put(file, over, b"")));
        }
    }
    for list in attributes.chunk_by(|one, other| one[0] == other[0]) {
        let groups: Vec<Range<usize>> = list
            .iter()
            .filter(|attribute| attribute[4] == TOKENS)
            .map(|attribute| group_at(file, attribute[5]))
            .collect();
        let tokens = |group: &Range<usize>| {
            let connectors = file[group.clone()]
                .iter()
                .filter(|&&byte| is_connector(byte));
            connectors.count() + 1
        };
        if list.len() + groups.iter().map(tokens).sum::<usize>() > ATTCNT {
            let last = groups.last()?.clone();
            return Some((Kind::Tokens, put(file, last, b" CDATA ")));
        }
    }
    None
}

/// From "(" to ")". In a name token group no other stands.
fn group_at(file: &[u8], start: usize) -> Range<usize> {
    let inside = file[start..].iter().take_while(|&&byte| byte != b')');
    start..start + inside.count() + 1
}

/// How the library says that the declared value is a name token group.
const TOKENS: usize = 3;
const NUMBERS_PER_ATTRIBUTE: usize = 9;
/// 64 elements with 40 attributes each, of nine numbers of four bytes.
const LIST_BYTES: usize = 64 * 40 * 4 * NUMBERS_PER_ATTRIBUTE;

/// Of each attribute: element, number in its list, offset and length of its name, declared value, its group, default, offset and length
/// of the default. None of a refused file.
pub fn attributes_of(settings: Settings, type_file: &[u8]) -> Vec<[usize; NUMBERS_PER_ATTRIBUTE]> {
    let (mut buffer, mut answer) = (vec![0; LIST_BYTES], [0; 6]);
    library::attributes(settings, type_file, &mut buffer, &mut answer);
    buffer
        .chunks_exact(4 * NUMBERS_PER_ATTRIBUTE)
        .take(answer[5] as usize)
        .map(|record| {
            let mut numbers = [0; NUMBERS_PER_ATTRIBUTE];
            for (number, bytes) in numbers.iter_mut().zip(record.chunks_exact(4)) {
                *number = u32::from_le_bytes(bytes.try_into().unwrap()) as usize;
            }
            numbers
        })
        .collect()
}

/// The "+" or "*" of the innermost group around a byte that carries one.
fn repeating_mark(file: &[u8], at: usize) -> Option<usize> {
    let mut inner = 0;
    for index in at..file.len() {
        match file[index] {
            b'(' => inner += 1,
            b')' if inner > 0 => inner -= 1,
            b')' if matches!(file.get(index + 1), Some(b'+' | b'*')) => return Some(index + 1),
            b'>' => return None,
            _ => {}
        }
    }
    None
}

/// Where the declaration begins in which a byte stands, or the byte itself between declarations: before it the file is not refused
/// for ending within a form.
fn declaration_start(name_length: u32, file: &[u8], at: usize) -> Option<usize> {
    let ends_within = |end: usize| is_refused(4, end, judged(name_length, &file[..end]));
    let mut starts = (0..=at)
        .rev()
        .filter(|&start| start == at || file[start] == b'<');
    starts.find(|&start| !ends_within(start))
}

/// Where the attribute list begins in which a byte stands.
fn list_start(name_length: u32, file: &[u8], at: usize) -> Option<usize> {
    let start = declaration_start(name_length, file, at)?;
    let keyword = file.get(start + 2..start + 9)?;
    keyword.eq_ignore_ascii_case(b"ATTLIST").then_some(start)
}

/// The answer is this number at this byte.
fn is_refused(number: u32, at: usize, answer: [u32; 6]) -> bool {
    answer[NUMBER] == number && answer[POSITION] as usize == at
}

fn read(name_length: u32, type_file: &[u8], document: &[u8]) -> [u32; 6] {
    let mut answer = [0; 6];
    let settings = Settings::first(name_length);
    library::read(settings, type_file, document, &mut [], &mut answer);
    answer
}

fn judged(name_length: u32, type_file: &[u8]) -> [u32; 6] {
    let mut answer = [0; 6];
    let settings = Settings::first(name_length);
    library::judge(settings, type_file, &mut [0; 6 * 64 * 4], &mut answer);
    answer
}

fn letter_at(bytes: &[u8], at: usize) -> bool {
    bytes.get(at).is_some_and(u8::is_ascii_alphabetic)
}

/// A number after `<!ELEMENT` and a name.
fn is_rank_suffix(file: &[u8], at: usize) -> bool {
    if !file.get(at).is_some_and(u8::is_ascii_digit) {
        return false;
    }
    let before = without_comments(&file[..at]).to_ascii_uppercase();
    let name_end = before.trim_ascii_end();
    let name_start = name_end.iter().rposition(|&byte| !is_name_byte(byte));
    name_start.is_some_and(|at| name_end[..=at].trim_ascii_end().ends_with(b"<!ELEMENT"))
}

fn is_name_byte(byte: u8) -> bool {
    byte.is_ascii_alphanumeric() || byte == b'.' || byte == b'-'
}

/// How many bytes of a name stand at the beginning.
fn name_bytes(text: &[u8]) -> usize {
    text.iter().take_while(|&&byte| is_name_byte(byte)).count()
}

fn is_connector(byte: u8) -> bool {
    matches!(byte, b',' | b'|' | b'&')
}

/// The type file with spaces for its comments, every other byte where it was. Within declarations of
/// any kind a comment runs from `--` to the next `--`; one without an end goes to the input's. In a group and in a literal
/// there is none; that a literal's quote has no partner is as if it were no quote.
pub fn without_comments(type_file: &[u8]) -> Vec<u8> {
    let mut plain = type_file.to_vec();
    let (mut at, mut in_group) = (0, false);
    while at < plain.len() {
        in_group = (in_group || plain[at] == b'(') && !b")<>".contains(&plain[at]);
        if b"\"'".contains(&plain[at]) {
            let length = plain[at + 1..].iter().position(|&byte| byte == plain[at]);
            at += length.map_or(1, |length| length + 2);
        } else if in_group {
            at += 1;
        } else if letter_at(&plain, at) {
            // A "-" may belong to a name.
            at += name_bytes(&plain[at..]);
        } else if plain[at..].starts_with(b"--") {
            let inside = &plain[at + 2..];
            let close = inside.windows(2).position(|window| window == b"--");
            let end = close.map_or(plain.len(), |close| at + 2 + close + 2);
            plain[at..end].fill(b' ');
            at = end;
        } else {
            at += 1;
        }
    }
    plain
}
