//! Deterministic generator of type files and documents for tests: sound ones, ones at the limits,
//! damaged ones and random strings of fragments. The same seed gives the same inputs everywhere.

/// xorshift64*, spread out first so that neighbouring seeds part ways.
pub struct Random(u64);

impl Random {
    pub fn new(seed: u64) -> Self {
        let mut state = seed.wrapping_add(0x9E37_79B9_7F4A_7C15);
        state = (state ^ (state >> 30)).wrapping_mul(0xBF58_476D_1CE4_E5B9);
        state = (state ^ (state >> 27)).wrapping_mul(0x94D0_49BB_1331_11EB);
        Random((state ^ (state >> 31)) | 1)
    }

    fn next(&mut self) -> u64 {
        self.0 ^= self.0 >> 12;
        self.0 ^= self.0 << 25;
        self.0 ^= self.0 >> 27;
        self.0.wrapping_mul(0x2545_F491_4F6C_DD1D)
    }

    /// A number under `limit`, which isn't 0.
    pub fn below(&mut self, limit: usize) -> usize {
        ((self.next() >> 32) as usize) % limit
    }

    pub fn between(&mut self, least: usize, most: usize) -> usize {
        least + self.below(most - least + 1)
    }

    pub fn percent(&mut self, chance: usize) -> bool {
        self.below(100) < chance
    }

    pub fn pick<'a, T: ?Sized>(&mut self, choices: &[&'a T]) -> &'a T {
        choices[self.below(choices.len())]
    }
}

// ---------------------------------------------------------------------------------------------
// What a generated type says, kept so that documents can follow it

/// A content token of a generated model; `text` is None for a group.
struct Token {
    text: Option<String>,
    connector: char,
    members: Vec<Token>,
    indicator: &'static str,
}

struct Element {
    name: String,
    start_omissible: bool,
    end_omissible: bool,
    /// None is EMPTY.
    model: Option<Token>,
    attributes: Vec<Attribute>,
}

/// An attribute of a generated list.
struct Attribute {
    name: String,
    declared: Declared,
    is_required: bool,
    /// None is `#REQUIRED` or `#IMPLIED`.
    default: Option<String>,
}

enum Declared {
    Cdata,
    Number,
    Name,
    Tokens(Vec<String>),
}

/// A generated type file with what it declares; damage to the file leaves the latter as it was.
pub struct Type {
    pub file: Vec<u8>,
    elements: Vec<Element>,
}

#[rustfmt::skip]
const NAMES: [&str; 12] = [
    "A", "B", "C", "D", "LIST", "ITEM", "NAME", "QTY", "P.1", "X-Y", "ABCDEFGH", "Z9-.",
];
/// Names that are never declared, one with the length of the limit.
const UNDECLARED: [&str; 3] = ["U", "U2", "UVWXYZ12"];
const TOO_LONG: &str = "ABCDEFGHI";

const SEPARATORS: [&str; 4] = [" ", "\n", "\r", "\t"];
/// Insides of comments: none holds `--` or ends in "-".
const COMMENTS: [&str; 11] = [
    "", " c ", ">", "<x", "%", "&", "- ", "a-b", "(", "->", "]]>",
];
/// What makes comment declarations, whole and faulty ones.
const COMMENT_FRAGMENTS: [&str; 13] = [
    "-", "--", "--", "---", " ", "\n", "\t", ">", "-->", "%", "b", "<", "x",
];

/// A type file of any kind: mostly small, now and then at the limits.
pub fn any_type(random: &mut Random) -> Type {
    match random.below(100) {
        0..=19 => sound_type(random),
        20..=34 => repetitive_type(random, SOME),
        35..=39 => limit_type(random),
        40..=63 => {
            let mut damaged = sound_type(random);
            damage(random, &mut damaged.file, &TYPE_FRAGMENTS);
            damaged
        }
        64..=69 => {
            let mut commented = sound_type(random);
            let at = random.below(2) * commented.file.len();
            let mut comment = Vec::new();
            nearly_a_comment(random, &mut comment);
            commented.file.splice(at..at, comment);
            commented
        }
        70..=71 => {
            let mut damaged = limit_type(random);
            damage(random, &mut damaged.file, &TYPE_FRAGMENTS);
            damaged
        }
        _ => random_type(random),
    }
}

/// Chances in a hundred that a token is `#PCDATA`, and that a group is joined by "&".
#[derive(Clone, Copy)]
struct Shares {
    data: usize,
    ands: usize,
}

/// In most models, in those of `mixed_type` and in those of `any_order_type`.
const SOME: Shares = Shares { data: 8, ands: 25 };
const MUCH_DATA: Shares = Shares { data: 35, ands: 25 };
const MANY_ANDS: Shares = Shares { data: 8, ands: 60 };

/// A well-formed type file within the limits; its models may be ambiguous.
pub fn sound_type(random: &mut Random) -> Type {
    if random.percent(20) {
        return chained_type(random);
    }
    layered_type(random, SOME)
}

/// A well-formed type file with `#PCDATA` in many models, beside names and more than once. (`opensp.rs`
/// alone asks for this.)
#[allow(dead_code)]
pub fn mixed_type(random: &mut Random) -> Type {
    layered_type(random, MUCH_DATA)
}

/// A well-formed type file with "&" in most models; half of them have one model, with few names, so
/// that ambiguous and unambiguous lie close together. (`opensp.rs` alone asks for this.)
#[allow(dead_code)]
pub fn any_order_type(random: &mut Random) -> Type {
    match random.percent(50) {
        true => repetitive_type(random, MANY_ANDS),
        false => layered_type(random, MANY_ANDS),
    }
}

/// The same, for documents.
#[allow(dead_code)]
pub fn any_order_layers(random: &mut Random) -> Type {
    layered_type(random, MANY_ANDS)
}

fn layered_type(random: &mut Random, shares: Shares) -> Type {
    let count = random.between(1, 6);
    let names = some_of(random, &NAMES, count);
    // In layers, where a model has only names declared later, documents come to an end more often.
    let in_layers = random.percent(60);
    let mut elements = Vec::new();
    for (index, name) in names.iter().enumerate() {
        let usable = if in_layers {
            &names[index + 1..]
        } else {
            &names[..]
        };
        elements.push(sound_element(random, name, usable, shares));
    }
    written_type(random, elements)
}

/// A model over few names, each likely to stand in it more than once, so that ambiguous and
/// unambiguous lie close together.
fn repetitive_type(random: &mut Random, shares: Shares) -> Type {
    let count = random.between(2, 4);
    let names = NAMES[..count].iter().map(|name| name.to_string()).collect();
    let mut bag = Bag {
        names,
        put_back: true,
        shares,
    };
    let mut element = empty_element(random, 1);
    element.model = Some(sound_group(random, &mut bag, 1));
    written_type(random, vec![element])
}

/// Each element requires the next, down to data, so that whole chains of starts can be inferred,
/// now and then about as many as may be open.
fn chained_type(random: &mut Random) -> Type {
    let count = if random.percent(5) {
        random.between(23, 26)
    } else {
        random.between(2, 5)
    };
    let names: Vec<String> = (1..=count).map(|number| format!("L{number}")).collect();
    let mut elements = Vec::new();
    for (index, name) in names.iter().enumerate() {
        elements.push(Element {
            name: name.clone(),
            start_omissible: random.percent(95),
            end_omissible: random.percent(90),
            model: Some(chained_model(random, &names[index + 1..])),
            attributes: Vec::new(),
        });
    }
    written_type(random, elements)
}

/// The first of the names required, some of the others optional before or after it.
fn chained_model(random: &mut Random, later: &[String]) -> Token {
    let Some((next, others)) = later.split_first() else {
        return group(vec![pcdata()], ',', "");
    };
    let mut members = vec![named(next, random.pick(&["", "", "+"]))];
    for other in others.iter().take(3) {
        if random.percent(30) {
            let at = random.below(members.len() + 1);
            members.insert(at, named(other, random.pick(&["?", "*", ""])));
        }
    }
    group(members, ',', random.pick(&["", "", "+"]))
}

/// `count` different ones, in random order.
fn some_of(random: &mut Random, choices: &[&str], count: usize) -> Vec<String> {
    let mut left: Vec<&str> = choices.to_vec();
    (0..count.min(choices.len()))
        .map(|_| left.remove(random.below(left.len())).to_string())
        .collect()
}

fn sound_element(random: &mut Random, name: &str, usable: &[String], shares: Shares) -> Element {
    let mut names = usable.to_vec();
    if random.percent(12) {
        names.push(random.pick(&UNDECLARED).to_string());
    }
    let only_data = names.is_empty() || random.percent(20);
    // Names drawn without putting back make most models unambiguous.
    let mut bag = Bag {
        names,
        put_back: random.percent(30),
        shares,
    };
    let model = if random.percent(8) {
        None
    } else if only_data {
        let indicator = random.pick(&["", "", "", "*", "+", "?"]);
        Some(group(vec![pcdata()], ',', indicator))
    } else {
        Some(sound_group(random, &mut bag, 1))
    };
    let (start_omissible, end_omissible) = (random.percent(75), random.percent(80));
    Element {
        name: name.to_string(),
        start_omissible,
        end_omissible,
        model,
        attributes: Vec::new(),
    }
}

/// Names left to draw from for one model.
struct Bag {
    names: Vec<String>,
    put_back: bool,
    shares: Shares,
}

impl Bag {
    fn draw(&mut self, random: &mut Random) -> Option<String> {
        if self.names.is_empty() {
            return None;
        }
        let index = random.below(self.names.len());
        Some(if self.put_back {
            self.names[index].clone()
        } else {
            self.names.swap_remove(index)
        })
    }
}

fn pcdata() -> Token {
    named("#PCDATA", "")
}

fn named(text: &str, indicator: &'static str) -> Token {
    Token {
        text: Some(text.to_string()),
        connector: ',',
        members: Vec::new(),
        indicator,
    }
}

fn group(members: Vec<Token>, connector: char, indicator: &'static str) -> Token {
    Token {
        text: None,
        connector,
        members,
        indicator,
    }
}

fn sound_group(random: &mut Random, bag: &mut Bag, level: usize) -> Token {
    let connector = match random.percent(bag.shares.ands) {
        true => '&',
        false => [',', ',', '|'][random.below(3)],
    };
    let count = *random.pick(&[&1, &2, &2, &3, &4]);
    let mut members = vec![sound_token(random, bag, level)];
    while members.len() < count && !bag.names.is_empty() {
        members.push(sound_token(random, bag, level));
    }
    let mut group = group(members, connector, "");
    // Where it would be number 25 it is now and then written all the same.
    group.indicator = if has_and(&group) && random.percent(95) {
        random.pick(&["", "", "?"])
    } else {
        random.pick(&["", "", "", "?", "*", "+"])
    };
    group
}

/// There is an "&" in the token.
fn has_and(token: &Token) -> bool {
    token.connector == '&' && token.members.len() > 1 || token.members.iter().any(has_and)
}

fn sound_token(random: &mut Random, bag: &mut Bag, level: usize) -> Token {
    if level < 5 && random.percent(22) {
        return sound_group(random, bag, level + 1);
    }
    if random.percent(bag.shares.data) {
        return pcdata();
    }
    let indicator = random.pick(&["", "", "", "?", "*", "+"]);
    match bag.draw(random) {
        Some(name) => named(&name, indicator),
        None => pcdata(),
    }
}

// ---------------------------------------------------------------------------------------------
// Limits, from both sides

fn limit_type(random: &mut Random) -> Type {
    let mut elements = vec![sound_element(
        random,
        "A",
        &["A".to_string(), "B".to_string()],
        SOME,
    )];
    match random.below(7) {
        0 => {
            let mut wide = wide_group(random.between(31, 33), "N");
            wide.connector = *random.pick(&[&'|', &'&']);
            elements[0].model = Some(wide)
        }
        1 => elements[0].model = Some(deep_group(random, 15)),
        2 => elements[0].model = Some(many_tokens(random)),
        3 => {
            let count = random.between(63, 66);
            elements = (0..count)
                .map(|number| empty_element(random, number))
                .collect();
        }
        4 => elements.push(sound_element(random, "A", &["B".to_string()], SOME)),
        _ => put_long_name(random, &mut elements[0]),
    }
    let mut written = written_type(random, elements);
    // Large files are few, for they take long.
    if random.percent(4) {
        let length = random.between(32_767, 32_769);
        pad(&mut written.file, length);
    }
    written
}

fn wide_group(count: usize, prefix: &str) -> Token {
    let members = (0..count)
        .map(|number| named(&format!("{prefix}{number}"), ""))
        .collect();
    group(members, '|', "")
}

/// Levels from `least` to two more, with random company on the way.
fn deep_group(random: &mut Random, least: usize) -> Token {
    let levels = random.between(least, least + 2);
    let mut inner = group(vec![named("B", "?")], ',', "");
    for level in 1..levels {
        let mut members = vec![inner];
        if random.percent(20) {
            let name = named(&format!("L{level}"), "");
            members.insert(random.below(2), name);
        }
        inner = group(members, ',', random.pick(&["", "", "", "?", "*", "+"]));
    }
    inner
}

/// 95 to 97 content tokens, three or four groups among them.
fn many_tokens(random: &mut Random) -> Token {
    let total = random.between(95, 97);
    let indicator = random.pick(&["", "?", "+", "*"]);
    let mut members: Vec<Token> = ["J", "K", "L"].map(|prefix| wide_group(30, prefix)).into();
    for member in &mut members {
        member.indicator = indicator;
    }
    let left = total - 93;
    match random.percent(50) {
        true => members.push(wide_group(left - 1, "M")),
        false => members.extend((0..left).map(|number| named(&format!("M{number}"), ""))),
    }
    group(members, ',', "")
}

fn empty_element(random: &mut Random, number: usize) -> Element {
    let name = format!("E{number}");
    Element {
        name,
        start_omissible: random.percent(50),
        end_omissible: true,
        model: None,
        attributes: Vec::new(),
    }
}

/// A name of 9 as declared name or as the first token.
fn put_long_name(random: &mut Random, element: &mut Element) {
    match element
        .model
        .as_mut()
        .and_then(|model| model.members.first_mut())
    {
        Some(token) if token.text.is_some() && random.percent(60) => {
            token.text = Some(TOO_LONG.to_string())
        }
        _ => element.name = TOO_LONG.to_string(),
    }
}

/// A length of names: 8 in half of the cases, else more, mostly one that the tests name. (`compare.rs`
/// alone asks for this.)
#[allow(dead_code)]
pub fn name_length(random: &mut Random) -> usize {
    match random.below(4) {
        0 | 1 => 8,
        2 => *random.pick(&[&9, &12, &31, &32]),
        _ => random.between(9, 32),
    }
}

/// The text with some names made longer, for readers that allow `longest` bytes to a name: those of 8 come
/// to just that, the one of 9 to one more, others to a length between. What is a name goes by its bytes
/// alone, so that a type file and a document go on together, damaged or not; NAME, which is a declared value too, stays.
pub fn stretched(text: &[u8], longest: usize) -> Vec<u8> {
    let is_name_byte = |byte: &u8| byte.is_ascii_alphanumeric() || b".-".contains(byte);
    let mut changed = Vec::new();
    let mut rest = text;
    while let Some(&byte) = rest.first() {
        // A comment's dashes belong to no name.
        if byte == b'-' {
            changed.push(byte);
            rest = &rest[1..];
            continue;
        }
        let name = &rest[..rest.iter().take_while(|byte| is_name_byte(byte)).count()];
        let length = match name.to_ascii_uppercase().as_slice() {
            _ if longest == 8 => name.len(),
            b"ABCDEFGH" | b"UVWXYZ12" => longest,
            b"ABCDEFGHI" => longest + 1,
            b"LIST" => longest - 1,
            b"ITEM" => 9,
            b"X-Y" => (8 + longest) / 2,
            _ => name.len(),
        };
        if name.is_empty() {
            changed.push(byte);
        }
        changed.extend_from_slice(name);
        changed.extend(b"-a.B7".iter().cycle().take(length - name.len()));
        rest = &rest[name.len().max(1)..];
    }
    changed
}

/// Lengthens the input to `length` by separators at its end.
pub fn pad(bytes: &mut Vec<u8>, length: usize) {
    if bytes.len() < length {
        bytes.resize(length, b' ');
    }
}

// ---------------------------------------------------------------------------------------------
// Writing a type down, with separators, comments and either case

/// Attributes have lists, after their element, in half of the types.
fn written_type(random: &mut Random, mut elements: Vec<Element>) -> Type {
    if random.percent(50) {
        for element in &mut elements {
            if random.percent(40) {
                element.attributes = some_attributes(random);
            }
        }
    }
    let mut file = String::new();
    let mut later = Vec::new();
    for element in &elements {
        between_declarations(random, &mut file);
        write_element(random, &mut file, element);
        match random.percent(50) {
            true => write_list(random, &mut file, element),
            false => later.push(element),
        }
    }
    for element in later {
        write_list(random, &mut file, element);
    }
    between_declarations(random, &mut file);
    Type {
        file: file.into_bytes(),
        elements,
    }
}

const ATTRIBUTE_NAMES: [&str; 12] = [
    "PAR", "UNIT", "ID", "KIND", "A", "B", "X-Y", "N.1", "ABCDEFGH", "QTY", "SIZE", "Z",
];
#[rustfmt::skip]
const TOKENS: [&str; 14] = [
    "A", "B", "EA", "BX", "1", "40", ".", "-", "--", "X.Y-Z", "ABCDEFGH", "0", "T0", "Z9",
];
/// Values that fit CDATA, some of them also another declared value.
#[rustfmt::skip]
const VALUES: [&str; 20] = [
    "", " ", "40", "007", "x", "a b", "it's", "<A>", ">", "--", "]]>", "&", "&#", "& b", "&;", "a=b", "%x;", "11111111", "111111111",
    "ABCDEFGH",
];
/// Values that are refused whatever is declared.
const BAD_VALUES: [&str; 6] = ["a\tb", "\n", "a\rb", "&a;", "&#6", "x&#y;"];

/// A list: few attributes, now and then about as many as there may be. No token stands in it twice, mostly.
fn some_attributes(random: &mut Random) -> Vec<Attribute> {
    let many = random.percent(2);
    let count = match many {
        true => random.between(39, 41),
        false => random.between(1, 4),
    };
    let mut names = some_of(random, &ATTRIBUTE_NAMES, 12);
    if many {
        names = (0..count).map(|number| format!("Q{number}")).collect();
    }
    let mut tokens: Vec<&str> = TOKENS.to_vec();
    let mut attributes = Vec::new();
    for name in names.into_iter().take(count) {
        let declared = match random.below(5) {
            0 | 1 => Declared::Cdata,
            2 => Declared::Number,
            3 => Declared::Name,
            _ => Declared::Tokens(some_tokens(random, &mut tokens)),
        };
        let default = random.percent(45).then(|| a_value(random, &declared));
        let is_required = default.is_none() && random.percent(30);
        attributes.push(Attribute {
            name,
            declared,
            is_required,
            default,
        });
    }
    attributes
}

fn some_tokens(random: &mut Random, left: &mut Vec<&str>) -> Vec<String> {
    if random.percent(2) {
        let count = random.between(31, 33);
        return (0..count).map(|number| format!("G{number}")).collect();
    }
    let count = random.between(1, 3).min(left.len());
    let mut tokens: Vec<String> = (0..count)
        .map(|_| left.remove(random.below(left.len())).to_string())
        .collect();
    if tokens.is_empty() || random.percent(3) {
        tokens.push(random.pick(&["A", "EA", "ABCDEFGHI"]).to_string());
    }
    tokens
}

/// A value, mostly one that fits.
fn a_value(random: &mut Random, declared: &Declared) -> String {
    if random.percent(3) {
        return random.pick(&BAD_VALUES).to_string();
    }
    if random.percent(5) {
        return random.pick(&VALUES).to_string();
    }
    match declared {
        Declared::Cdata => random.pick(&VALUES).to_string(),
        Declared::Number => random.pick(&["0", "40", "007", "11111111"]).to_string(),
        Declared::Name => random.pick(&["x", "A.1", "ABCDEFGH", "N-"]).to_string(),
        Declared::Tokens(tokens) => tokens[random.below(tokens.len())].clone(),
    }
}

/// In the quotes that the value does not have.
fn write_literal(random: &mut Random, file: &mut String, value: &str) {
    let quote = match (value.contains('"'), value.contains('\'')) {
        (true, _) => '\'',
        (_, true) => '"',
        _ => *random.pick(&[&'"', &'\'']),
    };
    file.push(quote);
    file.push_str(value);
    file.push(quote);
}

fn write_list(random: &mut Random, file: &mut String, element: &Element) {
    if element.attributes.is_empty() {
        return;
    }
    file.push_str("<!");
    write_in_any_case(random, file, "ATTLIST");
    gap(random, file);
    write_in_any_case(random, file, &element.name);
    for attribute in &element.attributes {
        gap(random, file);
        write_in_any_case(random, file, &attribute.name);
        let mut word = "";
        match &attribute.declared {
            Declared::Cdata => word = "CDATA",
            Declared::Number => word = "NUMBER",
            Declared::Name => word = "NAME",
            Declared::Tokens(tokens) => {
                loose_gap(random, file, 60);
                write_tokens(random, file, tokens);
                loose_gap(random, file, 60);
            }
        }
        if !word.is_empty() {
            gap(random, file);
            write_in_any_case(random, file, word);
            gap(random, file);
        }
        match &attribute.default {
            Some(value) => write_literal(random, file, value),
            None => {
                file.push('#');
                let word = ["IMPLIED", "REQUIRED"][attribute.is_required as usize];
                write_in_any_case(random, file, word);
            }
        }
    }
    loose_gap(random, file, 15);
    file.push('>');
}

fn write_tokens(random: &mut Random, file: &mut String, tokens: &[String]) {
    let connector = *random.pick(&[&'|', &',', &'&']);
    file.push('(');
    for (index, token) in tokens.iter().enumerate() {
        if index > 0 {
            separators(random, file);
            file.push(connector);
        }
        separators(random, file);
        write_in_any_case(random, file, token);
    }
    separators(random, file);
    file.push(')');
}

fn between_declarations(random: &mut Random, file: &mut String) {
    while random.percent(35) {
        match random.below(4) {
            0 => file.push_str("<!>"),
            1 => comment_declaration(random, file),
            _ => file.push_str(random.pick(&SEPARATORS)),
        }
    }
}

/// A whole comment declaration: comments, with separators or none between.
fn comment_declaration(random: &mut Random, text: &mut String) {
    text.push_str("<!");
    loop {
        text.push_str("--");
        text.push_str(random.pick(&COMMENTS));
        text.push_str("--");
        while random.percent(35) {
            text.push_str(random.pick(&SEPARATORS));
        }
        if random.percent(60) {
            break;
        }
    }
    text.push('>');
}

/// What begins as a comment declaration; some of these are whole.
fn nearly_a_comment(random: &mut Random, bytes: &mut Vec<u8>) {
    let start = random.pick(&["<!--", "<!-- a --", "<!----", "<!-", "<! --"]);
    bytes.extend(start.bytes());
    for _ in 0..random.below(8) {
        bytes.extend(random.pick(&COMMENT_FRAGMENTS).bytes());
    }
    if random.percent(60) {
        bytes.extend(random.pick(&["-->", ">", "-- >"]).bytes());
    }
}

fn write_element(random: &mut Random, file: &mut String, element: &Element) {
    file.push_str("<!");
    write_in_any_case(random, file, "ELEMENT");
    gap(random, file);
    write_in_any_case(random, file, &element.name);
    for omissible in [element.start_omissible, element.end_omissible] {
        gap(random, file);
        write_in_any_case(random, file, if omissible { "O" } else { "-" });
    }
    match &element.model {
        None => {
            gap(random, file);
            write_in_any_case(random, file, "EMPTY");
            if random.percent(20) {
                gap(random, file);
            }
        }
        Some(model) => {
            if random.percent(70) {
                gap(random, file);
            }
            write_token(random, file, model);
            loose_gap(random, file, 15);
        }
    }
    file.push('>');
}

fn write_in_any_case(random: &mut Random, file: &mut String, text: &str) {
    let lower_case = if random.percent(60) { 0 } else { 50 };
    for letter in text.chars() {
        let lower = random.percent(lower_case);
        file.push(if lower {
            letter.to_ascii_lowercase()
        } else {
            letter
        });
    }
}

/// Parts two parameters. A separator comes first, since "-" belongs to a word before it.
fn gap(random: &mut Random, file: &mut String) {
    file.push_str(random.pick(&SEPARATORS));
    loose_gap(random, file, 12);
}

/// Separators and comments, or nothing.
fn loose_gap(random: &mut Random, file: &mut String, chance: usize) {
    while random.percent(chance) {
        if random.percent(50) {
            file.push_str(random.pick(&SEPARATORS));
        } else {
            file.push_str("--");
            file.push_str(random.pick(&COMMENTS));
            file.push_str("--");
        }
    }
}

fn write_token(random: &mut Random, file: &mut String, token: &Token) {
    match &token.text {
        Some(text) => write_in_any_case(random, file, text),
        None => {
            file.push('(');
            for (index, member) in token.members.iter().enumerate() {
                if index > 0 {
                    separators(random, file);
                    file.push(token.connector);
                }
                separators(random, file);
                write_token(random, file, member);
            }
            separators(random, file);
            file.push(')');
        }
    }
    file.push_str(token.indicator);
}

fn separators(random: &mut Random, file: &mut String) {
    while random.percent(12) {
        file.push_str(random.pick(&SEPARATORS));
    }
}

// ---------------------------------------------------------------------------------------------
// Random type files and damage

#[rustfmt::skip]
const TYPE_FRAGMENTS: [&str; 83] = [
    "<!ELEMENT ", "<!ELEMENT", "<!element A - O ", "A", "B", "a.-9", "ABCDEFGH", "ABCDEFGHI", " ",
    "\n", "\r", "\t", "-", "O", "o", "(", ")", ",", "|", "&", "?", "*", "+", "#PCDATA", "#PCDAT",
    "#pcdataX", "#ABCDEFGHI", "#", "EMPTY", "EMPTYX", "ANY", "CDATA", "RCDATA", ">", "--", "%", "<!",
    "<", "<!--", "-->", "<!>", "<!ATTLIST", "<![", "<?", "[", "-(", "+(", " -O", "-- x --", "()", "9",
    "- - ANY", "<!-- a -- ", "<!-- a -- -- b -- >", "<!-- a -- b -->", "---", "-- %", "-- -",
    "<!ATTLIST A ", "<!ATTLIST A X ", "<!ATTLIST A X CDATA ", "NUMBER", "NAME", "NUMB", "#REQUIRED", "#IMPLIED", "#REQ", "#FIXED", "\"", "'",
    "\"a\"", "'40'", "\"&a\"", "\"& \"", "\"a\tb\"", " X CDATA #IMPLIED", " Y(a|b)'a'", "(a,b)", "(a&b)", "(--)", "(a", "X", "ID",
];

/// Fragments in a row, alone or where the inside of a declaration or of a group is due.
fn random_type(random: &mut Random) -> Type {
    let start = random.pick(&[
        "",
        "",
        "<!",
        "<!ELEMENT",
        "<!ELEMENT ",
        "<!ELEMENT A ",
        "<!ELEMENT A -",
        "<!ELEMENT A - O",
        "<!ELEMENT A - -",
        "<!ELEMENT A - O ",
        "<!ELEMENT A - O (",
        "<!ELEMENT A - O (B",
        "<!ELEMENT A - O (B)",
        "<!ELEMENT A - O EMPTY",
        "<!ELEMENT A O O (#PCDATA)>",
        "<!ELEMENT A O O (#PCDATA)><!ATTLIST",
        "<!ELEMENT A O O (#PCDATA)><!ATTLIST A",
        "<!ELEMENT A O O (#PCDATA)><!ATTLIST A X",
        "<!ELEMENT A O O (#PCDATA)><!ATTLIST A X ",
        "<!ELEMENT A O O (#PCDATA)><!ATTLIST A X(",
        "<!ELEMENT A O O (#PCDATA)><!ATTLIST A X(a",
        "<!ELEMENT A O O (#PCDATA)><!ATTLIST A X(a|b)",
        "<!ELEMENT A O O (#PCDATA)><!ATTLIST A X CDATA",
        "<!ELEMENT A O O (#PCDATA)><!ATTLIST A X NUMBER ",
        "<!ELEMENT A O O (#PCDATA)><!ATTLIST A X CDATA '",
        "<!ELEMENT A O O (#PCDATA)><!ATTLIST A X CDATA #IMPLIED",
        "<!ELEMENT A O O (#PCDATA)><!ATTLIST A X NAME \"a\"",
    ]);
    let mut file = start.as_bytes().to_vec();
    if start.ends_with('(') && random.percent(40) {
        file.extend(nearly_full_group(random).into_bytes());
    }
    for _ in 0..random.below(12) {
        if random.percent(5) {
            nearly_a_comment(random, &mut file);
        }
        file.extend(random.pick(&TYPE_FRAGMENTS).as_bytes());
    }
    if random.percent(30) {
        file.extend(random.pick(&[")>", ">", "A)>", " >", ")"]).as_bytes());
    }
    Type {
        file,
        elements: Vec::new(),
    }
}

/// The inside of a group up to where its next token is the last that fits or the first too many,
/// so that all that may stand there is tried at the limit.
fn nearly_full_group(random: &mut Random) -> String {
    let tokens = |prefix: &str, count: usize| -> String {
        (0..count)
            .map(|number| format!("{prefix}{number}|"))
            .collect()
    };
    match random.below(3) {
        0 => tokens("N", random.between(31, 32)),
        1 => "(".repeat(random.between(14, 15)),
        _ => {
            let groups = ["J", "K", "L"].map(|prefix| format!("({}A)|", tokens(prefix, 29)));
            groups.concat() + &tokens("M", random.between(2, 3))
        }
    }
}

/// One to four faults: bytes changed, taken out, put in, doubled, or the end cut off.
fn damage(random: &mut Random, bytes: &mut Vec<u8>, fragments: &[&str]) {
    for _ in 0..random.pick(&[&1, &1, &2, &4]).to_owned() {
        let at = random.below(bytes.len() + 1);
        let length = random.between(1, 6).min(bytes.len() - at);
        match random.below(10) {
            0 => bytes.truncate(at),
            1 | 2 => drop(bytes.drain(at..at + length)),
            3 => {
                let piece: Vec<u8> = bytes[at..at + length].to_vec();
                let target = random.below(bytes.len() + 1);
                bytes.splice(target..target, piece);
            }
            4 if length > 0 => bytes[at] ^= 1 << random.below(8),
            5 if length > 0 => bytes[at] = *random.pick(&[&0, &1, &8, &11, &31, &127, &128, &255]),
            6 if length > 0 => bytes[at] = b' ' + random.below(95) as u8,
            _ => drop(bytes.splice(at..at, random.pick(fragments).bytes())),
        }
    }
}

// ---------------------------------------------------------------------------------------------
// Documents

#[rustfmt::skip]
const DOCUMENT_FRAGMENTS: [&str; 67] = [
    "x", "40", " ", "\n", "\r", "\t", "<", "</", "</>", "<!", "<!>", "<!-- c -->", "<!--", "-->",
    "<!-", "<!-->", "<![", "<!D", "<?", "&", "&a", "&#", "&#6", "&#;", "]", "]]", "]]>", "]]]>", ">",
    "<A>", "</A>", "<B>", "</B >", "<LIST>", "</LIST>", "<ITEM\n>", "</item>", "<ABCDEFGH>",
    "<ABCDEFGHI>", "<Q>", "</Q>", "<A x>", "<A/>", "<A", "<!-- a -- ", "<!-- a -- -- b -- >",
    "<!-- a -- b -->", "--", "-- >", "---",
    "<A PAR=\"40\">", "<A PAR='40' par=\"1\">", " X=\"1\"", "=", "=\"", "\"", "'", " A='", "\" ", "='a&b'", "='a\tb'", "<A X=", "<A X='a'Y=\"b\">",
    "<A ABCDEFGHI=''>", "<Q X=\"1\">", " =", "PAR=''",
];

/// A document of any kind for the given type, whose file may be damaged.
pub fn any_document(random: &mut Random, under: &Type) -> Vec<u8> {
    let mut document = match random.below(10) {
        0..=6 if !under.elements.is_empty() => tree_document(random, under),
        _ => random_document(random, under),
    };
    if random.percent(35) {
        damage(random, &mut document, &DOCUMENT_FRAGMENTS);
    }
    // Long documents are few, for they take long.
    if random.below(2_000) == 0 {
        let length = random.between(65_534, 65_536);
        pad(&mut document, length);
    }
    document
}

/// Tags of the type's elements, data and fragments in a row.
fn random_document(random: &mut Random, under: &Type) -> Vec<u8> {
    let mut document = Vec::new();
    for _ in 0..random.below(16) {
        if random.percent(8) {
            nearly_a_comment(random, &mut document);
        } else if under.elements.is_empty() || random.percent(40) {
            document.extend(random.pick(&DOCUMENT_FRAGMENTS).as_bytes());
        } else {
            let name = &under.elements[random.below(under.elements.len())].name;
            let open = random.pick(&["<", "<", "</"]);
            document.extend(format!("{open}{name}>").as_bytes());
        }
    }
    document
}

/// Writes a document that follows the models, leaving out tags at will where they may be.
struct TreeWriter<'a> {
    elements: &'a [Element],
    document: String,
    /// Chances in a hundred to leave out a start tag or an end tag that is declared "O".
    omit_start: usize,
    omit_end: usize,
    /// Elements that may still be written; bounds the document's length.
    left: usize,
}

fn tree_document(random: &mut Random, under: &Type) -> Vec<u8> {
    let mut writer = TreeWriter {
        elements: &under.elements,
        document: String::new(),
        omit_start: *random.pick(&[&0, &30, &60, &100]),
        omit_end: *random.pick(&[&0, &50, &100]),
        left: if random.percent(3) { 300 } else { 25 },
    };
    writer.filler(random);
    writer.element(random, 0, 1);
    writer.filler(random);
    writer.document.into_bytes()
}

impl TreeWriter<'_> {
    fn element(&mut self, random: &mut Random, number: usize, depth: usize) {
        let elements = self.elements;
        let element = &elements[number];
        self.left = self.left.saturating_sub(1);
        // The start of an EMPTY element is never inferred.
        let omissible = element.start_omissible && element.model.is_some();
        if !(omissible && random.percent(self.omit_start)) {
            self.start_tag(random, element);
        }
        let Some(model) = &element.model else { return };
        self.token(random, model, depth);
        if !(element.end_omissible && random.percent(self.omit_end)) {
            self.tag(random, "</", &element.name);
        }
    }

    /// With attributes in any order, mostly those that are required and some others.
    fn start_tag(&mut self, random: &mut Random, element: &Element) {
        self.document.push('<');
        write_in_any_case(random, &mut self.document, &element.name);
        let mut given: Vec<&Attribute> = Vec::new();
        for attribute in &element.attributes {
            let chance = if attribute.is_required { 97 } else { 45 };
            if random.percent(chance) {
                given.insert(random.below(given.len() + 1), attribute);
            }
        }
        // Given twice, or not declared.
        if !given.is_empty() && random.percent(4) {
            given.push(given[random.below(given.len())]);
        }
        if random.percent(2) {
            self.document
                .push_str(random.pick(&[" U='1'", " PAR=\"40\"", " A ='x'"]));
        }
        let mut is_parted = false;
        for attribute in given {
            if !is_parted || random.percent(80) {
                self.document.push_str(random.pick(&SEPARATORS));
            }
            separators(random, &mut self.document);
            write_in_any_case(random, &mut self.document, &attribute.name);
            separators(random, &mut self.document);
            self.document.push('=');
            separators(random, &mut self.document);
            let mut value = a_value(random, &attribute.declared);
            if let (Declared::Tokens(_), true) = (&attribute.declared, random.percent(50)) {
                value = value.to_ascii_lowercase();
            }
            write_literal(random, &mut self.document, &value);
            is_parted = true;
        }
        separators(random, &mut self.document);
        self.document.push('>');
        self.filler(random);
    }

    fn tag(&mut self, random: &mut Random, open: &str, name: &str) {
        self.document.push_str(open);
        write_in_any_case(random, &mut self.document, name);
        separators(random, &mut self.document);
        self.document.push('>');
        self.filler(random);
    }

    /// A walk through the token. Deep down or late, as few rounds as can be.
    fn token(&mut self, random: &mut Random, token: &Token, depth: usize) {
        let spare = self.left == 0 || depth > random.between(4, 26);
        let most = if spare { 0 } else { random.below(3) };
        let rounds = match token.indicator {
            "?" => most.min(1),
            "*" => most,
            "+" => most.max(1),
            _ => 1,
        };
        for _ in 0..rounds {
            match &token.text {
                Some(text) if text == "#PCDATA" => self.data(random),
                Some(name) => self.child(random, name, depth),
                None => self.group(random, token, depth),
            }
        }
    }

    fn group(&mut self, random: &mut Random, token: &Token, depth: usize) {
        if token.connector == '|' {
            let member = random.below(token.members.len());
            return self.token(random, &token.members[member], depth);
        }
        let mut members: Vec<&Token> = token.members.iter().collect();
        while !members.is_empty() {
            let next = match token.connector {
                '&' => random.below(members.len()),
                _ => 0,
            };
            self.token(random, members.remove(next), depth);
        }
    }

    /// A child element; nothing where it isn't declared or would lie too deep to end.
    fn child(&mut self, random: &mut Random, name: &str, depth: usize) {
        let declared = self
            .elements
            .iter()
            .position(|element| element.name == name);
        if let Some(number) = declared.filter(|_| depth < 30 && (self.left > 0 || depth < 8)) {
            self.element(random, number, depth + 1);
        }
    }

    fn data(&mut self, random: &mut Random) {
        if random.percent(85) {
            self.document
                .push_str(random.pick(&["x", "40", "a b", "]", "y\nz"]));
        }
        while random.percent(30) {
            let text = random.pick(&["x", "& ", "< ", "<1", "&#;", "\r", "]]", " "]);
            self.document.push_str(text);
            self.filler(random);
        }
    }

    fn filler(&mut self, random: &mut Random) {
        while random.percent(10) {
            match random.below(8) {
                0 => self.document.push_str("<!>"),
                1 | 2 => comment_declaration(random, &mut self.document),
                _ => self.document.push_str(random.pick(&SEPARATORS)),
            }
        }
    }
}
