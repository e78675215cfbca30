//! Second implementation of the type judge and the document reader, written from the papers alone
//! and as plainly as we could, to be held against the first. NOTES.md numbers the open points.

use std::collections::{BTreeMap, BTreeSet};

/// The numbers that a caller may give for the length of names.
const NAME_LENGTHS: std::ops::RangeInclusive<u32> = 8..=32;
/// The editions of the record rule that a caller may give.
const EDITIONS: std::ops::RangeInclusive<u32> = 1..=2;
const GRPCNT: usize = 32;
const GRPLVL: usize = 16;
const GRPGTCNT: usize = 96;
/// Attributes to an element.
const ATTCNT: usize = 40;
const TAGLVL: usize = 24;
const TYPE_BYTES: usize = 32_768;
const DOCUMENT_BYTES: usize = 65_535;
const ELEMENTS: usize = 64;

const IN_TYPE: u32 = 1;
const IN_DOCUMENT: u32 = 2;

const NUMBERS_PER_ELEMENT: usize = 6;
const NUMBERS_PER_ATTRIBUTE: usize = 9;
pub const NUMBERS_PER_EVENT: usize = 5;

/// What the caller chooses.
#[derive(Clone, Copy, Debug, PartialEq, Eq)]
pub struct Settings {
    /// Bytes that a name may have.
    pub name_length: u32,
    /// By which rule record ends are read.
    pub edition: u32,
}

impl Settings {
    /// The first edition. (Not every program that has this file asks for it.)
    #[allow(dead_code)]
    pub fn first(name_length: u32) -> Self {
        Settings {
            name_length,
            edition: 1,
        }
    }
}

/// The full answer of either call; number 0 is acceptance.
#[derive(Clone, Copy, Debug, Default, PartialEq, Eq)]
pub struct Answer {
    pub number: u32,
    pub input: u32,
    pub position: u32,
    /// The pair at fault under number 9, else 0 and 0.
    pub first: u32,
    pub second: u32,
    /// Records written: elements for the judge, events for the reader.
    pub count: u32,
}

/// Judges the type file, whose names may be so long; an accepted one leaves six numbers per element in
/// `buffer`.
pub fn judge(settings: Settings, type_file: &[u8], buffer: &mut [u32]) -> Answer {
    let elements = check_settings(settings)
        .and_then(|()| check_length(type_file, TYPE_BYTES, IN_TYPE))
        .and_then(|()| check_bytes(type_file, IN_TYPE))
        .and_then(|()| judged(settings, type_file));
    let numbers = elements.map(|elements| elements.iter().flat_map(Element::record).collect());
    hand_over(numbers, NUMBERS_PER_ELEMENT, IN_TYPE, buffer)
}

/// The attributes of the type file, refused as it is; an accepted one leaves nine numbers per attribute: element, number
/// in its list, offset and length of its name, declared value, its group, default, offset and length of the default.
pub fn attributes(settings: Settings, type_file: &[u8], buffer: &mut [u32]) -> Answer {
    let elements = check_settings(settings)
        .and_then(|()| check_length(type_file, TYPE_BYTES, IN_TYPE))
        .and_then(|()| check_bytes(type_file, IN_TYPE))
        .and_then(|()| judged(settings, type_file));
    let numbers = elements.map(|elements| {
        let mut numbers = Vec::new();
        for (element, number) in elements.iter().zip(1..) {
            for (attribute, place) in element.attributes().iter().zip(1..) {
                numbers.extend(attribute.record(number, place));
            }
        }
        numbers
    });
    hand_over(numbers, NUMBERS_PER_ATTRIBUTE, IN_TYPE, buffer)
}

/// Reads the document under the type file; an accepted one leaves five numbers per event.
pub fn read(settings: Settings, type_file: &[u8], document: &[u8], buffer: &mut [u32]) -> Answer {
    let numbers = events(settings, type_file, document).map(|events| events.concat());
    hand_over(numbers, NUMBERS_PER_EVENT, IN_DOCUMENT, buffer)
}

/// What was read otherwise than ISO 8879 has it, up to the refusal.
#[derive(Default)]
pub struct Noted {
    /// Where separators were ignored in an element that has `#PCDATA` in its model.
    pub ignored: Vec<usize>,
    /// Starts that were inferred in a member of an "&" group that had not begun, where another had:
    /// the token's offset, and the tags as they could have been written there.
    pub last_members: Vec<(usize, String)>,
    /// Offset and length of each value that a tag gave: "CDATA (any length)".
    pub values: Vec<(usize, usize)>,
}

/// The type file is an accepted one. (`opensp.rs` alone asks for this.)
#[allow(dead_code)]
pub fn noted(settings: Settings, type_file: &[u8], document: &[u8]) -> Noted {
    let mut noted = Noted::default();
    if let Ok(elements) = judged(settings, type_file) {
        // A refusal ends the lists; what it is doesn't matter here.
        let _ = read_document(settings, &elements, document, &mut noted);
    }
    noted
}

/// A refusal, in the order of the answer's numbers.
struct Refusal {
    number: u32,
    input: u32,
    position: usize,
    pair: (usize, usize),
}

impl Refusal {
    fn new(number: u32, input: u32, position: usize) -> Self {
        Refusal {
            number,
            input,
            position,
            pair: (0, 0),
        }
    }

    fn answer(&self) -> Answer {
        Answer {
            number: self.number,
            input: self.input,
            position: self.position as u32,
            first: self.pair.0 as u32,
            second: self.pair.1 as u32,
            count: 0,
        }
    }
}

/// Puts the numbers in the lent buffer, or zeroes it: number 19 comes after everything else.
fn hand_over(
    numbers: Result<Vec<u32>, Refusal>,
    per_record: usize,
    input_of_19: u32,
    buffer: &mut [u32],
) -> Answer {
    let fitting = numbers.and_then(|numbers| match numbers.len() <= buffer.len() {
        true => Ok(numbers),
        false => Err(Refusal::new(19, input_of_19, 0)),
    });
    match fitting {
        Ok(numbers) => {
            buffer[..numbers.len()].copy_from_slice(&numbers);
            Answer {
                count: (numbers.len() / per_record) as u32,
                ..Answer::default()
            }
        }
        Err(refusal) => {
            buffer.fill(0);
            refusal.answer()
        }
    }
}

/// Order of the papers: 24, 1 type, 1 document, 2 type, 2 document, the type's 3 to 9, the document.
fn events(
    settings: Settings,
    type_file: &[u8],
    document: &[u8],
) -> Result<Vec<[u32; NUMBERS_PER_EVENT]>, Refusal> {
    check_settings(settings)?;
    check_length(type_file, TYPE_BYTES, IN_TYPE)?;
    check_length(document, DOCUMENT_BYTES, IN_DOCUMENT)?;
    check_bytes(type_file, IN_TYPE)?;
    check_bytes(document, IN_DOCUMENT)?;
    let elements = judged(settings, type_file)?;
    read_document(settings, &elements, document, &mut Noted::default())
        .map_err(|(position, number)| Refusal::new(number, IN_DOCUMENT, position))
}

/// Number 24, in the type at 0, before everything else.
fn check_settings(settings: Settings) -> Result<(), Refusal> {
    match NAME_LENGTHS.contains(&settings.name_length) && EDITIONS.contains(&settings.edition) {
        true => Ok(()),
        false => Err(Refusal::new(24, IN_TYPE, 0)),
    }
}

/// Number 1.
fn check_length(bytes: &[u8], limit: usize, input: u32) -> Result<(), Refusal> {
    match bytes.len() > limit {
        true => Err(Refusal::new(1, input, 0)),
        false => Ok(()),
    }
}

/// Number 2.
fn check_bytes(bytes: &[u8], input: u32) -> Result<(), Refusal> {
    match bytes
        .iter()
        .position(|&byte| !is_separator(byte) && !(32..=126).contains(&byte))
    {
        Some(position) => Err(Refusal::new(2, input, position)),
        None => Ok(()),
    }
}

/// Numbers 3 to 8 over the whole type file, then 25, then 9 over its models in turn.
fn judged(settings: Settings, type_file: &[u8]) -> Result<Vec<Element>, Refusal> {
    let elements = TypeReader {
        longest: settings.name_length as usize,
        bytes: type_file,
        at: 0,
        elements: Vec::new(),
    }
    .elements()
    .map_err(|(position, number)| Refusal::new(number, IN_TYPE, position))?;
    let models = || elements.iter().filter_map(|element| element.model.as_ref());
    if let Some(position) = models().filter_map(|model| model.repeated).min() {
        return Err(Refusal::new(25, IN_TYPE, position));
    }
    for model in models() {
        if let Some((first, second)) = model.pair_at_fault() {
            let position = model.places[second].position;
            let pair = (first + 1, second + 1);
            return Err(Refusal {
                number: 9,
                input: IN_TYPE,
                position,
                pair,
            });
        }
    }
    Ok(elements)
}

fn is_separator(byte: u8) -> bool {
    matches!(byte, 9 | 10 | 13 | 32)
}

fn is_name_byte(byte: u8) -> bool {
    byte.is_ascii_alphanumeric() || byte == b'.' || byte == b'-'
}

/// Position and number. Ordered as the paper orders 3 to 8: earliest position, then lower number.
type Fault = (usize, u32);

/// Folded text of the longest name at `start`.
fn longest_name(bytes: &[u8], start: usize) -> String {
    let name = bytes[start..]
        .iter()
        .take_while(|&&byte| is_name_byte(byte));
    name.map(|byte| byte.to_ascii_uppercase() as char).collect()
}

/// Offset after the first `end` that stands whole in `bytes` at or after `from`.
fn after_first(bytes: &[u8], from: usize, end: &[u8]) -> Option<usize> {
    let found = bytes[from..]
        .windows(end.len())
        .position(|window| window == end)?;
    Some(from + found + end.len())
}

/// How far a comment declaration has come.
enum Comments {
    /// So many "-" are due, of a `--` that opens a comment.
    Due { dashes: usize },
    /// Within a comment, behind so many "-" in a row, none or one.
    Within { dashes: usize },
    /// Behind a comment, where a separator, a further comment or the `>` may stand.
    Between,
}

/// Offset after the comment declaration whose `<!` ends at `start`: comments each from `--` to the
/// next `--`, the first at once, separators or further comments between, then `>`. `percent` is the
/// number of a `%` where a separator may stand (open point 9).
fn comment_declaration(bytes: &[u8], start: usize, percent: u32) -> Result<usize, Fault> {
    let mut state = Comments::Due { dashes: 2 };
    for (at, &byte) in bytes.iter().enumerate().skip(start) {
        state = match (state, byte) {
            (Comments::Due { dashes: 2 }, b'-') => Comments::Due { dashes: 1 },
            (Comments::Due { .. }, b'-') => Comments::Within { dashes: 0 },
            (Comments::Due { .. }, _) => return Err((at, 4)),
            (Comments::Within { dashes: 0 }, b'-') => Comments::Within { dashes: 1 },
            (Comments::Within { .. }, b'-') => Comments::Between,
            (Comments::Within { .. }, _) => Comments::Within { dashes: 0 },
            (Comments::Between, b'-') => Comments::Due { dashes: 1 },
            (Comments::Between, b'>') => return Ok(at + 1),
            (Comments::Between, b'%') => return Err((at, percent)),
            (Comments::Between, _) if is_separator(byte) => Comments::Between,
            (Comments::Between, _) => return Err((at, 4)),
        };
    }
    Err((bytes.len(), 4))
}

// ---------------------------------------------------------------------------------------------
// Content models and their walks

const PCDATA: &str = "#PCDATA";

#[derive(Clone, Copy, PartialEq)]
enum Occurrence {
    One,
    Optional,
    OneOrMore,
    AnyNumber,
}

#[derive(Clone, Copy, PartialEq)]
enum Connector {
    Sequence,
    Choice,
    AnyOrder,
}

/// A content token, or the outermost group, without its occurrence indicator.
#[derive(Clone)]
enum Form {
    Place(usize),
    Group(Connector, Vec<usize>),
}

#[derive(Clone)]
struct ContentToken {
    form: Form,
    occurrence: Occurrence,
}

/// A name or `#PCDATA` of a model; places count from 0 here and from 1 in answers.
struct Place {
    name: String,
    position: usize,
}

/// A content model. Tokens refer to each other by number; the outermost group is the last.
struct Model {
    tokens: Vec<ContentToken>,
    places: Vec<Place>,
    /// Where each "&" stands.
    ands: Vec<usize>,
    /// The first of them in something that carries "+" or "*".
    repeated: Option<usize>,
}

/// One thing still to be walked.
#[derive(Clone, Copy, PartialEq, Eq, PartialOrd, Ord)]
enum Due {
    /// A token with its occurrence indicator.
    Token(usize),
    /// Any number of further walks through a token without its indicator.
    Again(usize),
    /// The members of a sequence group from a given one on.
    Members(usize, usize),
    /// The members of an "&" group that are left, as bits, in any order.
    Left(usize, u32),
}

/// All that is still to be walked, in turn, the next thing last.
type Stack = Vec<Due>;

/// What may follow the places taken: any one of the stacks, walked to its end. This is the
/// derivative of the model by the places taken, in parts as by Antimirov.
type Remainder = BTreeSet<Stack>;

impl Model {
    fn start(&self) -> Remainder {
        BTreeSet::from([vec![Due::Token(self.tokens.len() - 1)]])
    }

    /// The places that may come next, each with what remains once it is taken.
    fn next(&self, remainder: &Remainder) -> BTreeMap<usize, Remainder> {
        let mut next: BTreeMap<usize, Remainder> = BTreeMap::new();
        for stack in remainder {
            let mut below = stack.clone();
            while let Some(due) = below.pop() {
                self.enter(due, &mut below, &mut next);
                if !self.can_be_empty(due) {
                    break;
                }
            }
        }
        next
    }

    /// Adds each place that may come first in `due`, with what remains above `below` after it.
    fn enter(&self, due: Due, below: &mut Stack, next: &mut BTreeMap<usize, Remainder>) {
        let depth = below.len();
        match due {
            Due::Token(token) => {
                if self.repeats(token) {
                    below.push(Due::Again(token));
                }
                self.enter_form(token, below, next);
            }
            Due::Again(token) => {
                below.push(Due::Again(token));
                self.enter_form(token, below, next);
            }
            Due::Members(group, from) => {
                let members = self.members(group);
                for (index, &member) in members.iter().enumerate().skip(from) {
                    if index + 1 < members.len() {
                        below.push(Due::Members(group, index + 1));
                    }
                    self.enter(Due::Token(member), below, next);
                    below.truncate(depth);
                    if !self.can_be_empty(Due::Token(member)) {
                        break;
                    }
                }
            }
            Due::Left(group, left) => {
                for (index, member) in self.those_left(group, left) {
                    let others = left & !(1 << index);
                    if others != 0 {
                        below.push(Due::Left(group, others));
                    }
                    self.enter(Due::Token(member), below, next);
                    below.truncate(depth);
                }
            }
        }
        below.truncate(depth);
    }

    /// The members of an "&" group that are left, with their indexes.
    fn those_left(&self, group: usize, left: u32) -> Vec<(usize, usize)> {
        let members = self.members(group).iter().copied().enumerate();
        members.filter(|(index, _)| left >> index & 1 == 1).collect()
    }

    /// All members of an "&" group are left.
    fn all_left(&self, group: usize) -> Due {
        let left = (1u64 << self.members(group).len()) - 1;
        Due::Left(group, left as u32)
    }

    fn enter_form(&self, token: usize, below: &mut Stack, next: &mut BTreeMap<usize, Remainder>) {
        match &self.tokens[token].form {
            Form::Place(place) => {
                next.entry(*place).or_default().insert(below.clone());
            }
            Form::Group(Connector::Sequence, _) => self.enter(Due::Members(token, 0), below, next),
            Form::Group(Connector::Choice, members) => {
                for &member in members {
                    self.enter(Due::Token(member), below, next);
                }
            }
            Form::Group(Connector::AnyOrder, _) => self.enter(self.all_left(token), below, next),
        }
    }

    fn repeats(&self, token: usize) -> bool {
        matches!(
            self.tokens[token].occurrence,
            Occurrence::OneOrMore | Occurrence::AnyNumber
        )
    }

    fn members(&self, group: usize) -> &[usize] {
        match &self.tokens[group].form {
            Form::Group(_, members) => members,
            Form::Place(_) => &[],
        }
    }

    fn can_be_empty(&self, due: Due) -> bool {
        self.can_avoid(due, |_| true)
    }

    /// Whether some walk through `due` passes no place of those `avoided`.
    fn can_avoid(&self, due: Due, avoided: impl Fn(usize) -> bool + Copy) -> bool {
        match due {
            Due::Again(_) => true,
            Due::Members(group, from) => self.members(group)[from..]
                .iter()
                .all(|&member| self.can_avoid(Due::Token(member), avoided)),
            Due::Left(group, left) => self
                .those_left(group, left)
                .iter()
                .all(|&(_, member)| self.can_avoid(Due::Token(member), avoided)),
            Due::Token(token) => match (self.tokens[token].occurrence, &self.tokens[token].form) {
                (Occurrence::Optional | Occurrence::AnyNumber, _) => true,
                (_, Form::Place(place)) => !avoided(*place),
                (_, Form::Group(Connector::Sequence, _)) => {
                    self.can_avoid(Due::Members(token, 0), avoided)
                }
                (_, Form::Group(Connector::Choice, members)) => members
                    .iter()
                    .any(|&member| self.can_avoid(Due::Token(member), avoided)),
                (_, Form::Group(Connector::AnyOrder, _)) => {
                    self.can_avoid(self.all_left(token), avoided)
                }
            },
        }
    }

    /// Whether some walk through the remainder passes no place of those `avoided`.
    fn can_end_avoiding(
        &self,
        remainder: &Remainder,
        avoided: impl Fn(usize) -> bool + Copy,
    ) -> bool {
        remainder
            .iter()
            .any(|stack| stack.iter().all(|&due| self.can_avoid(due, avoided)))
    }

    /// The places taken are a walk.
    fn complete(&self, remainder: &Remainder) -> bool {
        self.can_end_avoiding(remainder, |_| true)
    }

    /// The place that may come next and that no walk from here on can do without. There is at
    /// most one: of two, the walk that takes the one first would have to come round again for
    /// the other, and "+" and "*" never force a second round. In an "&" group none is while
    /// another member may still begin (open point 16).
    fn required(&self, remainder: &Remainder, taken: &BTreeSet<usize>) -> Option<usize> {
        let next: Vec<usize> = self.next(remainder).into_keys().collect();
        let may_begin = |places: &Vec<usize>| {
            !places.iter().any(|place| taken.contains(place))
                && places.iter().any(|place| next.contains(place))
        };
        let alone = |place: usize| {
            self.others(place)
                .iter()
                .all(|places| !may_begin(places))
        };
        let without = |place: usize| self.can_end_avoiding(remainder, |other| other == place);
        next.iter()
            .copied()
            .find(|&place| !without(place) && alone(place))
    }

    /// The places of a token.
    fn places_of(&self, token: usize) -> Vec<usize> {
        match &self.tokens[token].form {
            Form::Place(place) => vec![*place],
            Form::Group(_, members) => members
                .iter()
                .flat_map(|&member| self.places_of(member))
                .collect(),
        }
    }

    /// The other members of each "&" group around a place, by their places.
    fn others(&self, place: usize) -> Vec<Vec<usize>> {
        let mut others = Vec::new();
        for token in &self.tokens {
            if let Form::Group(Connector::AnyOrder, members) = &token.form {
                let all: Vec<Vec<usize>> =
                    members.iter().map(|&member| self.places_of(member)).collect();
                if all.iter().any(|places| places.contains(&place)) {
                    others.extend(all.into_iter().filter(|places| !places.contains(&place)));
                }
            }
        }
        others
    }

    /// The first pair of different places with one name that may both come next after some
    /// sequence of places. In a model with "&" each pair is looked for by itself, in a smaller model.
    fn pair_at_fault(&self) -> Option<(usize, usize)> {
        if self.ands.is_empty() {
            return self.pairs_found().into_iter().next();
        }
        self.pairs_of_one_name((0..self.places.len()).collect())
            .into_iter()
            .find(|pair| self.only_for(*pair).pairs_found().contains(pair))
    }

    /// The model for a pair of places: in each "&" group the members that have neither are one
    /// place, which can be left out if all of them can. They could have come before or could be
    /// left for later, whatever is in them.
    fn only_for(&self, pair: (usize, usize)) -> Model {
        let name_of = |place: &Place| Place {
            name: place.name.clone(),
            position: place.position,
        };
        let mut model = Model {
            tokens: self.tokens.clone(),
            places: self.places.iter().map(name_of).collect(),
            ands: Vec::new(),
            repeated: None,
        };
        for token in 0..self.tokens.len() {
            let Form::Group(Connector::AnyOrder, members) = &self.tokens[token].form else {
                continue;
            };
            let (mut kept, rest): (Vec<usize>, Vec<usize>) = members.iter().partition(|&&member| {
                let places = self.places_of(member);
                places.contains(&pair.0) || places.contains(&pair.1)
            });
            if !rest.is_empty() {
                let can_go = |&member: &usize| self.can_be_empty(Due::Token(member));
                model.places.push(Place {
                    name: format!("{token}"),
                    position: 0,
                });
                // Any token of the group's is as good: a member that is dropped holds the place.
                model.tokens[rest[0]] = ContentToken {
                    form: Form::Place(model.places.len() - 1),
                    occurrence: match rest.iter().all(can_go) {
                        true => Occurrence::Optional,
                        false => Occurrence::One,
                    },
                };
                kept.push(rest[0]);
            }
            model.tokens[token].form = Form::Group(Connector::AnyOrder, kept);
        }
        model
    }

    /// All pairs at fault: looked for in every remainder that any sequence leaves.
    fn pairs_found(&self) -> BTreeSet<(usize, usize)> {
        let mut pairs = BTreeSet::new();
        let mut seen = BTreeSet::new();
        let mut waiting = vec![self.start()];
        while let Some(remainder) = waiting.pop() {
            if !seen.contains(&remainder) {
                let next = self.next(&remainder);
                pairs.extend(self.pairs_of_one_name(next.keys().copied().collect()));
                waiting.extend(next.into_values());
                seen.insert(remainder);
            }
        }
        pairs
    }

    /// Pairs of one name among places in rising order.
    fn pairs_of_one_name(&self, places: Vec<usize>) -> Vec<(usize, usize)> {
        let mut pairs = Vec::new();
        for (index, &first) in places.iter().enumerate() {
            for &second in &places[index + 1..] {
                if self.places[first].name == self.places[second].name {
                    pairs.push((first, second));
                }
            }
        }
        pairs
    }
}

// ---------------------------------------------------------------------------------------------
// The type file

struct Element {
    name: String,
    position: usize,
    start_omissible: bool,
    end_omissible: bool,
    /// None is EMPTY.
    model: Option<Model>,
    /// None where it has no list.
    list: Option<Vec<Attribute>>,
}

/// What may stand as the value of an attribute.
enum Declared {
    Cdata,
    Number,
    Name,
    /// A name token group and where its "(" stands.
    Tokens(Vec<String>, usize),
}

enum Default {
    Required,
    Implied,
    /// Offset and length of the value in the type file.
    Value(usize, usize),
}

struct Attribute {
    name: String,
    position: usize,
    declared: Declared,
    default: Default,
}

impl Attribute {
    fn record(&self, element: u32, number: u32) -> [u32; NUMBERS_PER_ATTRIBUTE] {
        let (declared, group) = match self.declared {
            Declared::Cdata => (0, 0),
            Declared::Number => (1, 0),
            Declared::Name => (2, 0),
            Declared::Tokens(_, position) => (3, position as u32),
        };
        let (default, offset, length) = match self.default {
            Default::Required => (0, 0, 0),
            Default::Implied => (1, 0, 0),
            Default::Value(offset, length) => (2, offset as u32, length as u32),
        };
        [
            element,
            number,
            self.position as u32,
            self.name.len() as u32,
            declared,
            group,
            default,
            offset,
            length,
        ]
    }

    fn is_required(&self) -> bool {
        matches!(self.default, Default::Required)
    }
}

impl Declared {
    /// Whether number 22 is not for this value.
    fn takes(&self, value: &[u8], longest: usize) -> bool {
        let short = (1..=longest).contains(&value.len());
        match self {
            Declared::Cdata => !value.iter().any(|byte| matches!(byte, 9 | 10 | 13)),
            Declared::Number => short && value.iter().all(u8::is_ascii_digit),
            Declared::Name => {
                short
                    && value[0].is_ascii_alphabetic()
                    && value.iter().all(|&byte| is_name_byte(byte))
            }
            Declared::Tokens(tokens, _) => tokens
                .iter()
                .any(|token| token.as_bytes().eq_ignore_ascii_case(value)),
        }
    }
}

/// The value of the literal whose opening quote stands at `quote`, as offset and length. Number 5 for a reference as in
/// content, and 4 if the input ends before the closing quote, whichever comes first.
fn literal(bytes: &[u8], quote: usize) -> Result<(usize, usize), Fault> {
    let start = quote + 1;
    let closing = bytes[start..].iter().position(|&byte| byte == bytes[quote]);
    let end = closing.map_or(bytes.len(), |length| start + length);
    match (start..end).find(|&at| is_reference(bytes, at)) {
        Some(reference) => Err((reference, 5)),
        None if closing.is_none() => Err((bytes.len(), 4)),
        None => Ok((start, end - start)),
    }
}

/// "&" and a letter, or `&#` and a letter or digit.
fn is_reference(bytes: &[u8], at: usize) -> bool {
    let after = |distance: usize| bytes.get(at + distance).copied().unwrap_or(0);
    bytes[at] == b'&'
        && (after(1).is_ascii_alphabetic() || after(1) == b'#' && after(2).is_ascii_alphanumeric())
}

impl Element {
    fn attributes(&self) -> &[Attribute] {
        self.list.as_deref().unwrap_or_default()
    }

    /// "An element with a required attribute never has its start inferred."
    fn start_inferable(&self) -> bool {
        self.start_omissible && !self.attributes().iter().any(Attribute::is_required)
    }

    fn record(&self) -> [u32; NUMBERS_PER_ELEMENT] {
        // The outermost group is among the tokens of a model but isn't counted.
        let tokens = self
            .model
            .as_ref()
            .map_or(0, |model| model.tokens.len() - 1);
        [
            self.position as u32,
            self.name.len() as u32,
            self.start_omissible as u32,
            self.end_omissible as u32,
            self.model.is_some() as u32,
            tokens as u32,
        ]
    }
}

struct TypeReader<'a> {
    /// Bytes that a name may have.
    longest: usize,
    bytes: &'a [u8],
    at: usize,
    elements: Vec<Element>,
}

impl TypeReader<'_> {
    fn elements(mut self) -> Result<Vec<Element>, Fault> {
        loop {
            self.skip_separators();
            if self.at == self.bytes.len() {
                break;
            }
            match self.bytes[self.at] {
                b'<' => self.declaration()?,
                b'%' => return Err((self.at, 5)),
                _ => return Err((self.at, 4)),
            }
        }
        match self.elements.is_empty() {
            true => Err((self.bytes.len(), 8)),
            false => Ok(self.elements),
        }
    }

    /// The byte at hand; the input may not end here.
    fn byte(&self) -> Result<u8, Fault> {
        self.byte_after(0)
    }

    fn byte_after(&self, distance: usize) -> Result<u8, Fault> {
        self.bytes
            .get(self.at + distance)
            .copied()
            .ok_or((self.bytes.len(), 4))
    }

    fn skip_separators(&mut self) {
        while self.at < self.bytes.len() && is_separator(self.bytes[self.at]) {
            self.at += 1;
        }
    }

    /// Goes past the longest name at hand, which begins with a letter. Number 3 is left to the
    /// caller, since another fault may stand before it.
    fn word(&mut self) -> String {
        let word = longest_name(self.bytes, self.at);
        self.at += word.len();
        word
    }

    /// A word that begins with a letter and is no longer than a name may be.
    fn short_word(&mut self) -> Result<String, Fault> {
        let start = self.at;
        let word = self.word();
        match word.len() > self.longest {
            true => Err((start, 3)),
            false => Ok(word),
        }
    }

    /// Position of number 4 for a word just read that isn't the one that `fits`: where it stands,
    /// but the end of input if that cut it short (open point 1).
    fn wrong_word(&self, stands_at: usize, word: &str, fits: &str) -> Fault {
        let cut_short = self.at == self.bytes.len() && fits.starts_with(word);
        (if cut_short { self.at } else { stands_at }, 4)
    }

    /// From "<" to ">": a declaration, a comment declaration or `<!>`.
    fn declaration(&mut self) -> Result<(), Fault> {
        let start = self.at;
        self.at += 1;
        match self.byte()? {
            b'!' => self.at += 1,
            b'?' => return Err((start, 5)),
            _ => return Err((self.at, 4)),
        }
        match self.byte()? {
            b'>' => self.at += 1,
            b'[' => return Err((start, 5)),
            b'-' => self.at = comment_declaration(self.bytes, self.at, 5)?,
            byte if byte.is_ascii_alphabetic() => match self.short_word()?.as_str() {
                "ELEMENT" => self.element_declaration()?,
                "ATTLIST" => self.list_declaration()?,
                // Also where the input ends within the keyword (open point 2).
                _ => return Err((start, 5)),
            },
            _ => return Err((self.at, 4)),
        }
        Ok(())
    }

    /// Separators and comments between parameters; says whether there were any.
    fn parted(&mut self) -> Result<bool, Fault> {
        let start = self.at;
        loop {
            self.skip_separators();
            if self.bytes[self.at..].starts_with(b"--") {
                let after = after_first(self.bytes, self.at + 2, b"--");
                self.at = after.ok_or((self.bytes.len(), 4))?;
            } else if self.bytes[self.at..].starts_with(b"%") {
                return Err((self.at, 5));
            } else {
                return Ok(self.at > start);
            }
        }
    }

    /// What follows `<!ELEMENT`, up to and with ">".
    fn element_declaration(&mut self) -> Result<(), Fault> {
        self.parted()?;
        let position = self.at;
        let name = self.element_name()?;
        let start_omissible = self.omission()?;
        let end_omissible = self.omission()?;
        let model = self.content()?;
        self.declaration_close()?;
        self.elements.push(Element {
            name,
            position,
            start_omissible,
            end_omissible,
            model,
            list: None,
        });
        Ok(())
    }

    /// What follows `<!ATTLIST`, up to and with ">".
    fn list_declaration(&mut self) -> Result<(), Fault> {
        self.parted()?;
        let position = self.at;
        match self.byte()? {
            b'(' => return Err((position, 5)),
            byte if byte.is_ascii_alphabetic() => {}
            _ => return Err(self.no_parameter()),
        }
        let name = self.short_word()?;
        let Some(number) = self
            .elements
            .iter()
            .position(|element| element.name == name)
        else {
            return Err((position, 10));
        };
        if self.elements[number].list.is_some() {
            return Err((position, 20));
        }
        let mut list: Vec<Attribute> = Vec::new();
        loop {
            let parted = self.parted()?;
            match self.byte()? {
                b'>' if !list.is_empty() => break,
                byte if byte.is_ascii_alphabetic() => {}
                _ => return Err(self.no_parameter()),
            }
            let attribute = self.definition(&list, parted)?;
            list.push(attribute);
        }
        self.at += 1;
        self.elements[number].list = Some(list);
        Ok(())
    }

    /// An attribute definition, from its name on, behind those of the list so far.
    fn definition(&mut self, list: &[Attribute], parted: bool) -> Result<Attribute, Fault> {
        let position = self.at;
        let name = self.short_word()?;
        // At the name, the lower number first.
        if !parted {
            return Err((position, 4));
        }
        if list.iter().any(|attribute| attribute.name == name) {
            return Err((position, 7));
        }
        if list.len() == ATTCNT {
            return Err((position, 20));
        }
        self.parted()?;
        let declared = self.declared_value(list)?;
        let parted = self.parted()? || matches!(declared, Declared::Tokens(..));
        let default = match self.byte()? {
            b'#' | b'"' | b'\'' if !parted => return Err((self.at, 4)),
            b'#' => self.default_word()?,
            b'"' | b'\'' => self.default_literal(&declared)?,
            _ => return Err(self.no_parameter()),
        };
        Ok(Attribute {
            name,
            position,
            declared,
            default,
        })
    }

    fn declared_value(&mut self, list: &[Attribute]) -> Result<Declared, Fault> {
        let position = self.at;
        match self.byte()? {
            b'(' => {
                let tokens = self.name_tokens(list)?;
                Ok(Declared::Tokens(tokens, position))
            }
            byte if byte.is_ascii_alphabetic() => match self.short_word()?.as_str() {
                "CDATA" => Ok(Declared::Cdata),
                "NUMBER" => Ok(Declared::Number),
                "NAME" => Ok(Declared::Name),
                word => Err(self.wrong_word_of(position, word, &["CDATA", "NUMBER", "NAME"])),
            },
            _ => Err(self.no_parameter()),
        }
    }

    /// As `wrong_word` where several words fit.
    fn wrong_word_of(&self, stands_at: usize, word: &str, fit: &[&str]) -> Fault {
        let faults = fit
            .iter()
            .map(|fits| self.wrong_word(stands_at, word, fits));
        faults.max().unwrap_or((stands_at, 4))
    }

    /// A name token group from its "(" on. In it only separators part, and `--` is a token.
    fn name_tokens(&mut self, list: &[Attribute]) -> Result<Vec<String>, Fault> {
        let mut tokens: Vec<String> = Vec::new();
        let mut joined = None;
        loop {
            self.at += 1;
            self.skip_separators();
            let position = self.at;
            match self.byte()? {
                b'%' | b'[' => return Err((position, 5)),
                byte if is_name_byte(byte) => {}
                _ => return Err((position, 4)),
            }
            let token = self.short_word()?;
            if tokens.len() == GRPCNT {
                return Err((position, 6));
            }
            let in_list = list.iter().any(|attribute| match &attribute.declared {
                Declared::Tokens(others, _) => others.contains(&token),
                _ => false,
            });
            if in_list || tokens.contains(&token) {
                return Err((position, 20));
            }
            tokens.push(token);
            self.skip_separators();
            match self.byte()? {
                b')' => break,
                b'%' => return Err((self.at, 5)),
                byte @ (b',' | b'|' | b'&') if joined.is_none() || joined == Some(byte) => {
                    joined = Some(byte)
                }
                _ => return Err((self.at, 4)),
            }
        }
        self.at += 1;
        Ok(tokens)
    }

    fn default_word(&mut self) -> Result<Default, Fault> {
        let hash = self.at;
        self.at += 1;
        if !self.byte()?.is_ascii_alphabetic() {
            return Err((self.at, 4));
        }
        match self.word().as_str() {
            "REQUIRED" => Ok(Default::Required),
            "IMPLIED" => Ok(Default::Implied),
            word => Err(self.wrong_word_of(hash, word, &["REQUIRED", "IMPLIED"])),
        }
    }

    fn default_literal(&mut self, declared: &Declared) -> Result<Default, Fault> {
        let quote = self.at;
        let (offset, length) = literal(self.bytes, quote)?;
        if !declared.takes(&self.bytes[offset..offset + length], self.longest) {
            return Err((quote, 22));
        }
        self.at = offset + length + 1;
        Ok(Default::Value(offset, length))
    }

    fn element_name(&mut self) -> Result<String, Fault> {
        match self.byte()? {
            b'(' => return Err((self.at, 5)),
            byte if byte.is_ascii_alphabetic() => {}
            _ => return Err(self.no_parameter()),
        }
        let position = self.at;
        let name = self.short_word()?;
        if self.elements.iter().any(|element| element.name == name) {
            return Err((position, 7));
        }
        if self.elements.len() == ELEMENTS {
            return Err((position, 8));
        }
        Ok(name)
    }

    /// The fault of a byte that begins neither a parameter due here nor, as `--`, a comment.
    fn no_parameter(&self) -> Fault {
        match &self.bytes[self.at..] {
            // A second "-" could still follow and open a comment (open point 1).
            b"-" => (self.bytes.len(), 4),
            // A "-" by itself is a wrong word, so its own byte counts, not the next (open point 3).
            _ => (self.at, 4),
        }
    }

    /// A word "-" or "O"; true for "O".
    fn omission(&mut self) -> Result<bool, Fault> {
        let parted = self.parted()?;
        let position = self.at;
        let omissible = match self.byte()? {
            b'-' => {
                self.at += 1;
                false
            }
            byte if byte.is_ascii_alphabetic() => match self.short_word()?.as_str() {
                "O" => true,
                _ => return Err((position, 4)),
            },
            _ => return Err((position, 4)),
        };
        match parted {
            true => Ok(omissible),
            false => Err((position, 4)),
        }
    }

    /// EMPTY, which is None, or a group with or without an indicator.
    fn content(&mut self) -> Result<Option<Model>, Fault> {
        let parted = self.parted()?;
        let position = self.at;
        match self.byte()? {
            b'(' => {
                let mut model = Model {
                    tokens: Vec::new(),
                    places: Vec::new(),
                    ands: Vec::new(),
                    repeated: None,
                };
                let outermost = self.group(&mut model, 1, &mut 0)?;
                model.tokens.push(outermost);
                Ok(Some(model))
            }
            byte if byte.is_ascii_alphabetic() => match self.short_word()?.as_str() {
                // What 5 names isn't 4 as well, so even where it isn't parted (open point 4).
                "ANY" | "CDATA" | "RCDATA" => Err((position, 5)),
                _ if !parted => Err((position, 4)),
                "EMPTY" => Ok(None),
                word => Err(self.wrong_word(position, word, "EMPTY")),
            },
            _ => Err(self.no_parameter()),
        }
    }

    /// What follows the content: ">" and nothing else, but `-(` and `+(` are number 5. Any other
    /// "+" is unfit by itself (open point 7).
    fn declaration_close(&mut self) -> Result<(), Fault> {
        self.parted()?;
        match (self.byte()?, self.byte_after(1)) {
            (b'>', _) => {
                self.at += 1;
                Ok(())
            }
            (b'-' | b'+', Ok(b'(')) => Err((self.at, 5)),
            _ => Err(self.no_parameter()),
        }
    }

    /// A group with its indicator, from its "(" on. `counted` is how many content tokens the model
    /// has so far; it runs ahead of the tokens kept, since a group is kept after its members.
    fn group(
        &mut self,
        model: &mut Model,
        level: usize,
        counted: &mut usize,
    ) -> Result<ContentToken, Fault> {
        if level > GRPLVL {
            return Err((self.at, 6));
        }
        let opened = self.at;
        self.at += 1;
        let mut members = Vec::new();
        let mut connector = None;
        loop {
            let token = self.content_token(model, level, members.len(), counted)?;
            model.tokens.push(token);
            members.push(model.tokens.len() - 1);
            match self.after_token(connector, model)? {
                None => break,
                joined => connector = joined,
            }
        }
        let form = Form::Group(connector.unwrap_or(Connector::Sequence), members);
        let occurrence = self.indicator();
        if let Occurrence::OneOrMore | Occurrence::AnyNumber = occurrence {
            let inside = model.ands.iter().copied().filter(|&and| and > opened);
            model.repeated = model.repeated.into_iter().chain(inside).min();
        }
        Ok(ContentToken { form, occurrence })
    }

    /// A content token of a group that has `before` tokens already.
    fn content_token(
        &mut self,
        model: &mut Model,
        level: usize,
        before: usize,
        counted: &mut usize,
    ) -> Result<ContentToken, Fault> {
        self.skip_separators();
        let position = self.at;
        let too_many = before == GRPCNT || *counted == GRPGTCNT;
        let first = self.byte()?;
        *counted += 1;
        let name = match first {
            b'(' if too_many => return Err((position, 6)),
            b'(' => return self.group(model, level + 1, counted),
            b'#' => self.pcdata()?,
            b'%' | b'[' => return Err((position, 5)),
            byte if byte.is_ascii_alphabetic() => self.short_word()?,
            _ => return Err((position, 4)),
        };
        // Only now: a name over 8 and a wrong word after "#" stand at the same byte with a lower
        // number, and a "#" without a word is no token yet (open point 5).
        if too_many {
            return Err((position, 6));
        }
        // 11.2.4.2: `#PCDATA` counts as "*", and takes no indicator of its own.
        let occurrence = if name == PCDATA {
            Occurrence::AnyNumber
        } else {
            self.indicator()
        };
        model.places.push(Place { name, position });
        Ok(ContentToken {
            form: Form::Place(model.places.len() - 1),
            occurrence,
        })
    }

    /// `#PCDATA`, from its "#" on. A wrong word stands at the "#", also one over 8 long, whose
    /// number 3 would stand one byte later (open point 6).
    fn pcdata(&mut self) -> Result<String, Fault> {
        let hash = self.at;
        self.at += 1;
        if !self.byte()?.is_ascii_alphabetic() {
            return Err((self.at, 4));
        }
        match self.word().as_str() {
            "PCDATA" => Ok(PCDATA.to_string()),
            word => Err(self.wrong_word(hash, word, "PCDATA")),
        }
    }

    /// The connector after a token, or None for ")". One kind of connector in a group.
    fn after_token(
        &mut self,
        so_far: Option<Connector>,
        model: &mut Model,
    ) -> Result<Option<Connector>, Fault> {
        self.skip_separators();
        let position = self.at;
        let found = match self.byte()? {
            b')' => None,
            b',' => Some(Connector::Sequence),
            b'|' => Some(Connector::Choice),
            b'&' => Some(Connector::AnyOrder),
            b'%' => return Err((position, 5)),
            // A name has no place here, so one over 8 isn't number 3 either (open point 8).
            _ => return Err((position, 4)),
        };
        if found.is_some() && so_far.is_some() && found != so_far {
            return Err((position, 4));
        }
        if found == Some(Connector::AnyOrder) {
            model.ands.push(position);
        }
        self.at += 1;
        Ok(found)
    }

    /// The occurrence indicator at hand, if there is one.
    fn indicator(&mut self) -> Occurrence {
        let occurrence = match self.bytes.get(self.at) {
            Some(b'?') => Occurrence::Optional,
            Some(b'+') => Occurrence::OneOrMore,
            Some(b'*') => Occurrence::AnyNumber,
            _ => return Occurrence::One,
        };
        self.at += 1;
        occurrence
    }
}

// ---------------------------------------------------------------------------------------------
// The document

const START_WRITTEN: u32 = 1;
const START_INFERRED: u32 = 2;
const END_WRITTEN: u32 = 3;
const END_INFERRED: u32 = 4;
const DATA: u32 = 5;
const END_OF_EMPTY: u32 = 6;
const ATTRIBUTE: u32 = 7;
const ATTRIBUTE_DEFAULTED: u32 = 8;

/// An attribute as a start tag gives it.
struct Given {
    name: String,
    position: usize,
    quote: usize,
    /// Offset and length of the value.
    value: (usize, usize),
}

/// What is settled by steps 1 to 4.
#[derive(Clone, Copy)]
enum Token {
    Start(usize),
    Data,
}

/// What the content of an element consists of, for the record rule of edition 2: "A subelement counts as
/// one thing within its record; bytes 10 and 13 within markup don't count."
#[derive(Clone, Copy, PartialEq)]
enum Thing {
    Markup,
    /// A byte 10, or a byte 13 that wouldn't be data (open point 18).
    Boundary,
    /// A byte 13 that would be data, at its offset.
    RecordEnd(usize),
    Data,
    Subelement,
}

impl Thing {
    fn is_record(self) -> bool {
        matches!(self, Thing::Boundary | Thing::RecordEnd(_))
    }
}

/// "It is the first in its element and no byte 10, data or subelement came before."
fn is_first(before: &[Thing]) -> bool {
    before.iter().all(|&thing| thing == Thing::Markup)
}

/// "It doesn't stand directly after a byte 10 or 13 and nothing but markup came since the last of these."
fn is_after_markup(before: &[Thing]) -> bool {
    match before.iter().rposition(|thing| thing.is_record()) {
        Some(record) => {
            let since = &before[record + 1..];
            !since.is_empty() && since.iter().all(|&thing| thing == Thing::Markup)
        }
        None => false,
    }
}

/// "It is the last and no data or subelement follows": a byte 13 that is ignored by what came before it is
/// not there for this (open point 17).
fn last(content: &[Thing]) -> Option<usize> {
    for (index, thing) in content.iter().enumerate().rev() {
        let before = &content[..index];
        match thing {
            Thing::Markup | Thing::Boundary => {}
            Thing::RecordEnd(_) if is_first(before) || is_after_markup(before) => {}
            Thing::RecordEnd(at) => return Some(*at),
            Thing::Data | Thing::Subelement => return None,
        }
    }
    None
}

/// An open element; at the very bottom the document itself, whose model is the document element.
struct Open<'a> {
    element: usize,
    model: &'a Model,
    remainder: Remainder,
    taken: BTreeSet<usize>,
    /// All that came in it.
    content: Vec<Thing>,
}

struct DocumentReader<'a> {
    /// Bytes that a name may have.
    longest: usize,
    edition: u32,
    elements: &'a [Element],
    bytes: &'a [u8],
    open: Vec<Open<'a>>,
    /// Each data byte by itself; a byte 13 that turns out to be ignored as the last too.
    events: Vec<[u32; NUMBERS_PER_EVENT]>,
    /// The offsets of those.
    last: BTreeSet<usize>,
    noted: &'a mut Noted,
}

fn read_document(
    settings: Settings,
    elements: &[Element],
    bytes: &[u8],
    noted: &mut Noted,
) -> Result<Vec<[u32; NUMBERS_PER_EVENT]>, Fault> {
    // "With nothing open yet, only the document element may come next, and it is required."
    let token = ContentToken {
        form: Form::Place(0),
        occurrence: Occurrence::One,
    };
    let place = Place {
        name: elements[0].name.clone(),
        position: 0,
    };
    let model = Model {
        tokens: vec![token],
        places: vec![place],
        ands: Vec::new(),
        repeated: None,
    };
    let document = Open {
        element: usize::MAX,
        model: &model,
        remainder: model.start(),
        taken: BTreeSet::new(),
        content: Vec::new(),
    };
    let mut reader = DocumentReader {
        longest: settings.name_length as usize,
        edition: settings.edition,
        elements,
        bytes,
        open: vec![document],
        events: Vec::new(),
        last: BTreeSet::new(),
        noted,
    };
    let mut at = 0;
    while at < bytes.len() {
        at = reader.piece(at)?;
    }
    reader.document_end()?;
    Ok(reader.joined_events())
}

impl<'a> DocumentReader<'a> {
    /// Reads the tag, comment, skipped form or single byte at `at`; gives the offset after it.
    fn piece(&mut self, at: usize) -> Result<usize, Fault> {
        let letter = |distance| self.holds(at + distance, |byte| byte.is_ascii_alphabetic());
        let rest = &self.bytes[at..];
        if rest.starts_with(b"<!--") {
            let after = comment_declaration(self.bytes, at + 2, 4)?;
            self.came(Thing::Markup);
            Ok(after)
        } else if rest.starts_with(b"<!>") {
            self.came(Thing::Markup);
            Ok(at + 3)
        } else if self.is_left_out(at) {
            Err((at, 5))
        } else if rest.starts_with(b"]]>") {
            Err((at, 17))
        } else if rest[0] == b'<' && letter(1) {
            self.start_tag(at)
        } else if rest.starts_with(b"</") && letter(2) {
            self.end_tag(at)
        } else {
            self.single_byte(at)
        }
    }

    fn holds(&self, at: usize, wanted: impl Fn(u8) -> bool) -> bool {
        self.bytes.get(at).is_some_and(|&byte| wanted(byte))
    }

    /// Number 5 in a document.
    fn is_left_out(&self, at: usize) -> bool {
        let rest = &self.bytes[at..];
        rest.starts_with(b"<?")
            || rest.starts_with(b"<!")
                && self.holds(at + 2, |byte| byte.is_ascii_alphabetic() || byte == b'[')
            || is_reference(self.bytes, at)
    }

    /// One thing more in the current element.
    fn came(&mut self, thing: Thing) {
        self.open
            .last_mut()
            .expect("the document itself is never popped")
            .content
            .push(thing);
    }

    /// A byte that is data or ignored.
    fn single_byte(&mut self, at: usize) -> Result<usize, Fault> {
        let byte = self.bytes[at];
        let is_separator = matches!(byte, 9 | 13 | 32);
        if byte == 10 || is_separator && self.fitting(Token::Data).is_none() {
            if byte == 10 || byte == 13 {
                self.came(Thing::Boundary);
            }
            let places = &self.current().model.places;
            if places.iter().any(|place| place.name == PCDATA) {
                self.noted.ignored.push(at);
            }
            return Ok(at + 1);
        }
        let mut thing = Thing::Data;
        if self.edition == 2 && byte == 13 {
            thing = Thing::RecordEnd(at);
            // "The other two kinds take no place."
            let before = &self.current().content;
            if is_first(before) || is_after_markup(before) {
                self.came(thing);
                return Ok(at + 1);
            }
        }
        self.settle(Token::Data, at)?;
        self.came(thing);
        self.event(DATA, None, at, 1, None);
        Ok(at + 1)
    }

    /// The current element ends, and all of its content is known.
    fn close(&mut self) {
        let closed = self.open.pop().expect("an element is open");
        self.last.extend(last(&closed.content));
    }

    /// Without the bytes ignored as the last, and neighbouring data bytes as one run.
    fn joined_events(&self) -> Vec<[u32; NUMBERS_PER_EVENT]> {
        let mut joined: Vec<[u32; NUMBERS_PER_EVENT]> = Vec::new();
        for event in &self.events {
            if event[0] == DATA && self.last.contains(&(event[2] as usize)) {
                continue;
            }
            match joined.last_mut() {
                Some([DATA, _, offset, length, _])
                    if event[0] == DATA && *offset + *length == event[2] =>
                {
                    *length += 1
                }
                _ => joined.push(*event),
            }
        }
        joined
    }

    /// A name at `at` and where it ends. Number 3.
    fn name(&self, at: usize) -> Result<(String, usize), Fault> {
        let name = longest_name(self.bytes, at);
        let end = at + name.len();
        match name.len() > self.longest {
            true => Err((at, 3)),
            false => Ok((name, end)),
        }
    }

    /// Where the separators at `at` end; past the end of input that is its length.
    fn behind_separators(&self, mut at: usize) -> usize {
        while self.holds(at, is_separator) {
            at += 1;
        }
        at
    }

    /// Name, attributes if it may have any, separators, ">": gives the element, the attributes and the offset after the
    /// tag. Numbers 3, 4, 5 by position, then 10.
    fn tag(
        &self,
        tag: usize,
        name_at: usize,
        is_start: bool,
    ) -> Result<(usize, Vec<Given>, usize), Fault> {
        let (name, end) = self.name(name_at)?;
        let mut given = Vec::new();
        let mut at = self.behind_separators(end);
        while is_start && self.holds(at, |byte| byte.is_ascii_alphabetic()) {
            let (name, end) = self.name(at)?;
            let sign = self.behind_separators(end);
            if !self.holds(sign, |byte| byte == b'=') {
                return Err((sign, 4));
            }
            let quote = self.behind_separators(sign + 1);
            if !self.holds(quote, |byte| byte == b'"' || byte == b'\'') {
                return Err((quote, 4));
            }
            let value = literal(self.bytes, quote)?;
            given.push(Given {
                name,
                position: at,
                quote,
                value,
            });
            at = self.behind_separators(value.0 + value.1 + 1);
        }
        if !self.holds(at, |byte| byte == b'>') {
            return Err((at, 4));
        }
        let element = self.declared(&name).ok_or((tag, 10))?;
        Ok((element, given, at + 1))
    }

    /// Numbers 20, 22 and 21 of a start tag, in this order.
    fn check_attributes(&self, tag: usize, element: usize, given: &[Given]) -> Result<(), Fault> {
        let list = self.elements[element].attributes();
        let declared = |one: &Given| list.iter().find(|attribute| attribute.name == one.name);
        for (index, one) in given.iter().enumerate() {
            let twice = given[..index].iter().any(|other| other.name == one.name);
            if twice || declared(one).is_none() {
                return Err((one.position, 20));
            }
        }
        for one in given {
            let value = &self.bytes[one.value.0..one.value.0 + one.value.1];
            if declared(one).is_some_and(|attribute| !attribute.declared.takes(value, self.longest))
            {
                return Err((one.quote, 22));
            }
        }
        let is_there = |attribute: &Attribute| given.iter().any(|one| one.name == attribute.name);
        match list
            .iter()
            .all(|attribute| !attribute.is_required() || is_there(attribute))
        {
            true => Ok(()),
            false => Err((tag, 21)),
        }
    }

    /// The attribute events before a start, in declaration order.
    fn attribute_events(&mut self, element: usize, given: &[Given]) {
        let elements = self.elements;
        for (number, attribute) in elements[element].attributes().iter().enumerate() {
            let written = given.iter().find(|one| one.name == attribute.name);
            match (written, &attribute.default) {
                (Some(one), _) => {
                    self.event(ATTRIBUTE, Some(number), one.value.0, one.value.1, None)
                }
                (None, Default::Value(offset, length)) => {
                    self.event(ATTRIBUTE_DEFAULTED, Some(number), *offset, *length, None)
                }
                (None, _) => {}
            }
        }
    }

    fn declared(&self, name: &str) -> Option<usize> {
        self.elements
            .iter()
            .position(|element| element.name == name)
    }

    fn start_tag(&mut self, at: usize) -> Result<usize, Fault> {
        let (element, given, after) = self.tag(at, at + 1, true)?;
        self.check_attributes(at, element, &given)?;
        self.noted.values.extend(given.iter().map(|one| one.value));
        let place = self.settle(Token::Start(element), at)?;
        // This element counts too, an EMPTY one as well: it is open for an instant.
        if self.open_elements() + 1 > TAGLVL {
            return Err((at, 15));
        }
        self.attribute_events(element, &given);
        self.event(START_WRITTEN, Some(element), at, after - at, place);
        self.came(Thing::Subelement);
        let elements = self.elements;
        match &elements[element].model {
            Some(model) => self.push(element, model),
            None => self.event(END_OF_EMPTY, Some(element), after, 0, None),
        }
        Ok(after)
    }

    fn end_tag(&mut self, at: usize) -> Result<usize, Fault> {
        let (element, _, after) = self.tag(at, at + 2, false)?;
        if !self.open.iter().any(|open| open.element == element) {
            return Err((at, 11));
        }
        while self.current().element != element {
            self.infer_end_at_close(at)?;
        }
        if !self.current_complete() {
            return Err((at, 13));
        }
        self.close();
        self.event(END_WRITTEN, Some(element), at, after - at, None);
        Ok(after)
    }

    fn document_end(&mut self) -> Result<(), Fault> {
        let end = self.bytes.len();
        while self.open_elements() > 0 {
            self.infer_end_at_close(end)?;
        }
        match self.current_complete() {
            true => Ok(()),
            false => Err((end, 18)),
        }
    }

    /// Infers the current element's end because of an end tag or the document's end.
    fn infer_end_at_close(&mut self, at: usize) -> Result<(), Fault> {
        if !self.current_complete() {
            return Err((at, 13));
        }
        if !self.end_omissible() {
            return Err((at, 14));
        }
        self.infer_end(at);
        Ok(())
    }

    fn infer_end(&mut self, at: usize) {
        let element = self.current().element;
        self.close();
        self.event(END_INFERRED, Some(element), at, 0, None);
    }

    fn current(&self) -> &Open<'a> {
        self.open
            .last()
            .expect("the document itself is never popped")
    }

    fn open_elements(&self) -> usize {
        self.open.len() - 1
    }

    /// Of the current element, which isn't the document itself.
    fn end_omissible(&self) -> bool {
        self.elements[self.current().element].end_omissible
    }

    fn current_complete(&self) -> bool {
        self.current().model.complete(&self.current().remainder)
    }

    /// Steps 1 to 4. Afterwards the token's place is taken; its element isn't pushed yet. Gives the
    /// place, if it is one of an element's model.
    fn settle(&mut self, token: Token, at: usize) -> Result<Option<usize>, Fault> {
        // The document element was there and has ended.
        if self.open_elements() == 0 && self.current_complete() {
            return Err((at, 16));
        }
        loop {
            if self.fitting(token).is_some() {
                break;
            }
            if let Some(chain) = self.chain(token) {
                self.infer_starts(&chain, at);
                break;
            }
            // Step 3 is for neither the document element nor the document around it.
            if self.open_elements() <= 1 || !self.current_complete() || !self.end_omissible() {
                return Err((at, 12));
            }
            self.infer_end(at);
        }
        let place = self.take(token);
        // Inferred starts alone can pass the limit.
        match self.open_elements() > TAGLVL {
            true => Err((at, 15)),
            false => Ok(place),
        }
    }

    fn token_name(&self, token: Token) -> &str {
        match token {
            Token::Start(element) => &self.elements[element].name,
            Token::Data => PCDATA,
        }
    }

    /// The place as which the token may be taken next in the current element, and what remains of the
    /// model then.
    fn fitting(&self, token: Token) -> Option<(usize, Remainder)> {
        let current = self.current();
        self.fitting_in(token, current.model, &current.remainder)
    }

    fn fitting_in(
        &self,
        token: Token,
        model: &Model,
        taken: &Remainder,
    ) -> Option<(usize, Remainder)> {
        let name = self.token_name(token);
        let mut next = model.next(taken).into_iter();
        next.find(|(place, _)| model.places[*place].name == name)
    }

    /// Gives the place taken, unless it is that of the document element, which stands in no model.
    fn take(&mut self, token: Token) -> Option<usize> {
        let (place, remainder) = self
            .fitting(token)
            .expect("only a token that fits is taken");
        let current = self
            .open
            .last_mut()
            .expect("the document itself is never popped");
        current.remainder = remainder;
        current.taken.insert(place);
        (self.open_elements() > 0).then_some(place)
    }

    /// Step 2: the elements to infer, outermost first, with their models. The way is forced, for
    /// there is at most one required place, so the chain found is the shortest.
    fn chain(&self, token: Token) -> Option<Vec<(usize, &'a Model)>> {
        let elements = self.elements;
        let mut chain: Vec<(usize, &'a Model)> = Vec::new();
        let mut model = self.current().model;
        let mut remainder = self.current().remainder.clone();
        let mut taken = self.current().taken.clone();
        loop {
            let place = model.required(&remainder, &taken)?;
            let element = self.declared(&model.places[place].name)?;
            // Round in a circle: the token fits at none of these starts.
            let seen = chain.iter().any(|&(earlier, _)| earlier == element);
            if seen || !elements[element].start_inferable() {
                return None;
            }
            model = elements[element].model.as_ref()?;
            remainder = model.start();
            taken = BTreeSet::new();
            chain.push((element, model));
            if self.fitting_in(token, model, &remainder).is_some() {
                return Some(chain);
            }
        }
    }

    fn infer_starts(&mut self, chain: &[(usize, &'a Model)], at: usize) {
        for &(element, model) in chain {
            if self.begins_a_member_after_another(Token::Start(element)) {
                let tags = self.tags_for(element, at);
                self.noted.last_members.push((at, tags));
            }
            let place = self.take(Token::Start(element));
            self.attribute_events(element, &[]);
            self.event(START_INFERRED, Some(element), at, 0, place);
            self.came(Thing::Subelement);
            self.push(element, model);
        }
    }

    /// The end tags inferred for the token at `at`, and the element's start tag.
    fn tags_for(&self, element: usize, at: usize) -> String {
        let name = |element: usize| &self.elements[element].name;
        let ends = self.events.iter().rev();
        let ends = ends.take_while(|event| event[0] == END_INFERRED && event[2] == at as u32);
        let mut tags: Vec<String> = ends
            .map(|event| format!("</{}>", name(event[1] as usize - 1)))
            .collect();
        tags.reverse();
        tags.concat() + &format!("<{}>", name(element))
    }

    /// The token's place is in a member of an "&" group of which no place was taken, but one of
    /// another member was.
    fn begins_a_member_after_another(&self, token: Token) -> bool {
        let Some((place, _)) = self.fitting(token) else {
            return false;
        };
        let (model, taken) = (self.current().model, &self.current().taken);
        let has_begun = |places: &Vec<usize>| places.iter().any(|place| taken.contains(place));
        model.tokens.iter().any(|token| {
            let Form::Group(Connector::AnyOrder, members) = &token.form else {
                return false;
            };
            let members: Vec<_> = members.iter().map(|&member| model.places_of(member)).collect();
            let begins = |places: &Vec<usize>| places.contains(&place) && !has_begun(places);
            members.iter().any(begins) && members.iter().any(has_begun)
        })
    }

    fn push(&mut self, element: usize, model: &'a Model) {
        self.open.push(Open {
            element,
            model,
            remainder: model.start(),
            taken: BTreeSet::new(),
            content: Vec::new(),
        });
    }

    /// Elements and places count from 0 here and from 1 in events, where 0 is none.
    fn event(
        &mut self,
        kind: u32,
        element: Option<usize>,
        offset: usize,
        length: usize,
        place: Option<usize>,
    ) {
        let number = |index: Option<usize>| index.map_or(0, |index| index as u32 + 1);
        self.events.push([
            kind,
            number(element),
            offset as u32,
            length as u32,
            number(place),
        ]);
    }
}
