//! Checks the oracle itself on small random models against the paper's definitions read to the
//! letter: all walks up to a length are listed, and the pair at fault, what may come next, what is
//! complete and what is required are looked up in that list.
//!
//! rustc -O --edition 2021 walks.rs && ./walks COUNT SEED

#[allow(dead_code)]
mod generate;
mod oracle;

use generate::Random;
use std::collections::BTreeSet;
use std::{env, process};

/// Places in a model. A beginning one longer than this shows every pair, and a walk that ends it
/// is longer by no more than this again.
const PLACES: usize = 4;
const BEGINNING: usize = PLACES + 1;
const WALK: usize = BEGINNING + PLACES;
/// A model with more walks than this takes too long to list; another is drawn instead.
const LISTED: usize = 3_000;

/// Places count from 0.
type Walk = Vec<usize>;

/// A blank stands for no indicator.
enum Token {
    Place(usize, char),
    Group(char, Vec<Token>, char),
}

/// A random model as text, with the walks that the paper gives it.
struct Model {
    text: String,
    names: Vec<&'static str>,
    positions: Vec<usize>,
    walks: BTreeSet<Walk>,
    beginnings: BTreeSet<Walk>,
    /// Of each "&" group the places of its members.
    ands: Vec<Vec<Vec<usize>>>,
}

fn main() {
    let arguments: Vec<u64> = env::args()
        .skip(1)
        .filter_map(|text| text.parse().ok())
        .collect();
    let [count, seed] = arguments[..] else {
        eprintln!("usage: walks COUNT SEED");
        process::exit(2);
    };
    let (mut passed, mut failed, mut ambiguous) = (0, 0, 0);
    for case in 0..count {
        let mut random = Random::new(seed.wrapping_mul(1_000_000_007).wrapping_add(case));
        let model = loop {
            if let Some(model) = random_model(&mut random) {
                break model;
            }
        };
        ambiguous += pair_at_fault(&model).is_some() as u64;
        match check(&model) {
            Ok(()) => passed += 1,
            Err(difference) => {
                failed += 1;
                println!("{}: {difference}", model.text);
            }
        }
    }
    println!("{ambiguous} of them ambiguous");
    println!("{passed} passed, {failed} failed");
    process::exit((failed > 0) as i32);
}

// ---------------------------------------------------------------------------------------------
// Models and their walks

fn random_model(random: &mut Random) -> Option<Model> {
    let mut names = Vec::new();
    let outermost = random_group(random, 1, &mut names);
    let mut ands = Vec::new();
    // Number 25: other tests have it.
    if places_of(&outermost, false, &mut ands).is_none() {
        return None;
    }
    let walks = walks(&outermost, &names)?;
    let mut model = Model {
        ands,
        text: "<!ELEMENT X O O ".to_string(),
        positions: Vec::new(),
        walks,
        beginnings: BTreeSet::new(),
        names,
    };
    write(&outermost, &mut model);
    model.text.push('>');
    for walk in &model.walks {
        let lengths = 0..=walk.len().min(BEGINNING);
        model
            .beginnings
            .extend(lengths.map(|length| walk[..length].to_vec()));
    }
    Some(model)
}

fn random_group(random: &mut Random, level: usize, names: &mut Vec<&'static str>) -> Token {
    let mut members = Vec::new();
    while members.is_empty() || names.len() < PLACES && random.percent(60) {
        if level < 4 && random.percent(30) && names.len() < PLACES {
            members.push(random_group(random, level + 1, names));
        } else if names.len() < PLACES {
            let name = random.pick(&["A", "A", "B", "C", "D", "#PCDATA"]);
            let mark = if name == "#PCDATA" {
                ' '
            } else {
                indicator(random)
            };
            members.push(Token::Place(names.len(), mark));
            names.push(name);
        }
    }
    Token::Group(
        [',', '|', '&'][random.below(3)],
        members,
        indicator(random),
    )
}

/// The places of a token, and the "&" groups in it; None if one of these is repeated.
fn places_of(token: &Token, repeated: bool, ands: &mut Vec<Vec<Vec<usize>>>) -> Option<Vec<usize>> {
    match token {
        Token::Place(place, _) => Some(vec![*place]),
        Token::Group(connector, members, indicator) => {
            let repeated = repeated || *indicator == '+' || *indicator == '*';
            let mut each = Vec::new();
            for member in members {
                each.push(places_of(member, repeated, ands)?);
            }
            if *connector == '&' && each.len() > 1 {
                if repeated {
                    return None;
                }
                ands.push(each.clone());
            }
            Some(each.concat())
        }
    }
}

fn indicator(random: &mut Random) -> char {
    [' ', ' ', ' ', '?', '+', '*'][random.below(6)]
}

fn write(token: &Token, model: &mut Model) {
    let indicator = match token {
        Token::Group(connector, members, indicator) => {
            model.text.push('(');
            for (index, member) in members.iter().enumerate() {
                if index > 0 {
                    model.text.push(*connector);
                }
                write(member, model);
            }
            model.text.push(')');
            *indicator
        }
        Token::Place(place, indicator) => {
            model.positions.push(model.text.len());
            model.text.push_str(model.names[*place]);
            *indicator
        }
    };
    if indicator != ' ' {
        model.text.push(indicator);
    }
}

/// All walks of a token up to the length listed, or None if there are too many.
fn walks(token: &Token, names: &[&str]) -> Option<BTreeSet<Walk>> {
    match token {
        // 11.2.4.2
        Token::Place(place, _) if names[*place] == "#PCDATA" => marked(single(*place), '*'),
        Token::Place(place, indicator) => marked(single(*place), *indicator),
        Token::Group(connector, members, indicator) => {
            let mut each = Vec::new();
            for member in members {
                each.push(walks(member, names)?);
            }
            let group = match connector {
                ',' => in_turn(&each),
                '|' => each.into_iter().flatten().collect(),
                // 02, twelve: all of them once, in any order
                _ => orders(each.len())
                    .iter()
                    .flat_map(|order| {
                        let ordered: Vec<_> = order.iter().map(|&k| each[k].clone()).collect();
                        in_turn(&ordered)
                    })
                    .collect(),
            };
            marked(group, *indicator)
        }
    }
}

fn in_turn(each: &[BTreeSet<Walk>]) -> BTreeSet<Walk> {
    let nothing = BTreeSet::from([vec![]]);
    each.iter()
        .fold(nothing, |before, next| joined(&before, next))
}

/// All orders of so many things.
fn orders(count: usize) -> Vec<Vec<usize>> {
    if count == 0 {
        return vec![vec![]];
    }
    let mut all = Vec::new();
    for before in orders(count - 1) {
        for at in 0..count {
            let mut order = before.clone();
            order.insert(at, count - 1);
            all.push(order);
        }
    }
    all
}

fn single(place: usize) -> BTreeSet<Walk> {
    BTreeSet::from([vec![place]])
}

fn marked(once: BTreeSet<Walk>, indicator: char) -> Option<BTreeSet<Walk>> {
    let mut all = once.clone();
    if indicator == '+' || indicator == '*' {
        let mut before = 0;
        while before < all.len() && all.len() <= LISTED {
            before = all.len();
            all.extend(joined(&all, &once));
        }
    }
    if indicator == '?' || indicator == '*' {
        all.insert(vec![]);
    }
    (all.len() <= LISTED).then_some(all)
}

fn joined(before: &BTreeSet<Walk>, next: &BTreeSet<Walk>) -> BTreeSet<Walk> {
    let mut joined = BTreeSet::new();
    for first in before {
        let fitting = next
            .iter()
            .filter(|second| first.len() + second.len() <= WALK);
        joined.extend(fitting.map(|second| [&first[..], &second[..]].concat()));
    }
    joined
}

// ---------------------------------------------------------------------------------------------
// The definitions, over the list

fn begins(model: &Model, taken: &[usize], place: usize) -> bool {
    model.beginnings.contains(&[taken, &[place]].concat())
}

fn pair_at_fault(model: &Model) -> Option<(usize, usize)> {
    let mut pairs = BTreeSet::new();
    for taken in model
        .beginnings
        .iter()
        .filter(|taken| taken.len() < BEGINNING)
    {
        for second in 0..model.names.len() {
            for first in 0..second {
                let same_name = model.names[first] == model.names[second];
                if same_name && begins(model, taken, first) && begins(model, taken, second) {
                    pairs.insert((first, second));
                }
            }
        }
    }
    pairs.into_iter().next()
}

fn required(model: &Model, taken: &[usize]) -> Option<usize> {
    let passed_by_all = |place: usize| {
        let mut continuing = model.walks.iter().filter(|walk| walk.starts_with(taken));
        continuing.all(|walk| walk[taken.len()..].contains(&place))
    };
    // 02, twelve: none in a member of an "&" group while another member may still begin
    let may_begin = |member: &Vec<usize>| {
        !member.iter().any(|place| taken.contains(place))
            && member.iter().any(|&place| begins(model, taken, place))
    };
    let alone = |place: usize| {
        let around = model
            .ands
            .iter()
            .filter(|and| and.iter().any(|member| member.contains(&place)));
        around
            .flatten()
            .all(|member| member.contains(&place) || !may_begin(member))
    };
    let mut found = (0..model.names.len())
        .filter(|&place| begins(model, taken, place) && passed_by_all(place) && alone(place));
    let place = found.next();
    assert!(
        found.next().is_none(),
        "two required places in {}",
        model.text
    );
    place
}

// ---------------------------------------------------------------------------------------------
// The oracle's answers held against them

fn check(model: &Model) -> Result<(), String> {
    let answer = oracle::judge(oracle::Settings::first(8), model.text.as_bytes(), &mut [0; 6]);
    let judged =
        [answer.number, answer.position, answer.first, answer.second].map(|number| number as usize);
    let expected = match pair_at_fault(model) {
        Some((first, second)) => [9, model.positions[second], first + 1, second + 1],
        None => [0; 4],
    };
    if judged != expected {
        return Err(format!("judged {judged:?}, expected {expected:?}"));
    }
    if expected[0] == 0 {
        // One less than listed, so that the next place is listed too.
        for taken in model
            .beginnings
            .iter()
            .filter(|taken| taken.len() < BEGINNING - 1)
        {
            check_reading(model, taken)?;
        }
    }
    Ok(())
}

/// After the places taken: the document's end, each tag, and data.
fn check_reading(model: &Model, taken: &[usize]) -> Result<(), String> {
    let mut document = "<X>".to_string();
    for &place in taken {
        document.push_str(&text_of(model.names[place]));
    }
    let at = document.len();
    let complete = model.walks.contains(taken);
    expect(
        model,
        &document,
        if complete {
            Expected::Accepted
        } else {
            Expected::Refused(13, at)
        },
    )?;
    let may_come = |name: &str| {
        (0..model.names.len())
            .any(|place| model.names[place] == name && begins(model, taken, place))
    };
    for name in ["A", "B", "C", "D"] {
        let expected = if may_come(name) {
            Expected::Taken
        } else {
            Expected::Refused(12, at)
        };
        expect(model, &format!("{document}{}", text_of(name)), expected)?;
    }
    let expected = match required(model, taken) {
        _ if may_come("#PCDATA") => Expected::Taken,
        Some(place) => Expected::Inferred(model.names[place]),
        None => Expected::Refused(12, at),
    };
    expect(model, &format!("{document}x"), expected)
}

/// Children have both tags, so that only X's model decides.
fn text_of(name: &str) -> String {
    if name == "#PCDATA" {
        "x".to_string()
    } else {
        format!("<{name}></{name}>")
    }
}

#[derive(Debug)]
enum Expected {
    Accepted,
    Refused(u32, usize),
    /// Accepted, or refused only as incomplete at the document's end.
    Taken,
    /// As above, and an end tag after it finds this element open, though no tag opened it.
    Inferred(&'static str),
}

fn expect(model: &Model, document: &str, expected: Expected) -> Result<(), String> {
    let child = |name| format!("<!ELEMENT {name} O O (#PCDATA)>");
    let type_file = model.text.clone() + &["A", "B", "C", "D"].map(child).concat();
    let read = |document: &str| {
        let answer = oracle::read(
            oracle::Settings::first(8),
            type_file.as_bytes(),
            document.as_bytes(),
            &mut [0; 1_000],
        );
        (answer.number, answer.position as usize)
    };
    let taken =
        |document: &str| matches!(read(document), (0, _)) || read(document) == (13, document.len());
    let right = match expected {
        Expected::Accepted => read(document) == (0, 0),
        Expected::Refused(number, at) => read(document) == (number, at),
        Expected::Taken => taken(document),
        Expected::Inferred(name) => taken(document) && taken(&format!("{document}</{name}>")),
    };
    match right {
        true => Ok(()),
        false => Err(format!(
            "{document}: {expected:?}, but {:?}",
            read(document)
        )),
    }
}
