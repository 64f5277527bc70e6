//! Identifiers with dots and the bodies that they are followed into: random
//! ones, ones that make following dear, and how many cases tell the rule from
//! wrong ones.

use super::bson::{document, element, holder, nested};
use super::generate::{any_element, Style, LONG};
use super::message::{Draft, Section};
use super::random::Random;
use super::reference::{self, leads_to_a_name, Edition, Element, MAX_SEQUENCES};
use super::text::any_text;

// ------------------------------------------------------------------- bodies

/// Names that come again, begin others, are empty or hold dots.
const NAMES: [&[u8]; 12] = [
    b"",
    b"",
    b"a",
    b"a",
    b"b",
    b"ab",
    b"run",
    b"points",
    "größe".as_bytes(),
    b".",
    b"a.b",
    b"run.points",
];

/// A document with documents, arrays and scopes inside it. Below its top names
/// come again, often one behind the other.
pub fn nested_document(random: &mut Random) -> Vec<u8> {
    if random.percent(5) {
        let levels = random.between(20, 32);
        return nested(0x03, levels);
    }
    let levels = random.pick(&[2, 2, 3, 3, 4, 5]);
    document(&nested_elements(random, levels, true))
}

fn nested_elements(random: &mut Random, levels: usize, top: bool) -> Vec<u8> {
    let mut names: Vec<&[u8]> = Vec::new();
    let mut elements = Vec::new();
    for _ in 0..random.between(1, 5) {
        let name = match names.last() {
            Some(&before) if !top && random.percent(60) => before,
            _ => random.pick(&NAMES),
        };
        if top && names.contains(&name) {
            continue;
        }
        names.push(name);
        elements.extend(nested_element(random, levels, name));
    }
    elements
}

fn nested_element(random: &mut Random, levels: usize, name: &[u8]) -> Vec<u8> {
    let flat = Style {
        depth: 1,
        ..Style::SMALL
    };
    let kind = match random.below(20) {
        _ if levels == 1 => return any_element(random, flat, name),
        0..=13 => 0x03,
        14..=15 => 0x04,
        16..=17 => 0x0F,
        _ => return any_element(random, flat, name),
    };
    let inside = document(&nested_elements(random, levels - 1, false));
    element(kind, name, &holder(kind, &inside))
}

// -------------------------------------------------------------- identifiers

/// An identifier with dots that clashes with a body of these elements, mostly
/// since it leads to a name, or one that does not clash with them; where such a
/// one is soon found.
pub fn dotted_identifier(
    random: &mut Random,
    bytes: &[u8],
    body: &[Element],
    clashes: bool,
) -> Option<Vec<u8>> {
    let names: Vec<&[u8]> = body.iter().map(|e| &bytes[e.name.clone()]).collect();
    if clashes && random.percent(10) {
        let with_dots: Vec<&[u8]> = names.into_iter().filter(|n| n.contains(&b'.')).collect();
        return (!with_dots.is_empty()).then(|| random.pick(&with_dots).to_vec());
    }
    (0..20)
        .map(|_| any_dotted(random, bytes, body))
        .find(|identifier| match clashes {
            true => leads_to_a_name(bytes, body, identifier),
            false => !names.contains(&&identifier[..]) && !leads_to_a_name(bytes, body, identifier),
        })
}

/// The names on a way through the elements, or nearly so, with dots between.
fn any_dotted(random: &mut Random, bytes: &[u8], body: &[Element]) -> Vec<u8> {
    let mut names = any_way(random, bytes, body);
    for _ in 0..random.pick(&[0, 0, 0, 1, 1, 2]) {
        change_names(random, &mut names);
    }
    while names.len() < 2 {
        names.push(random.pick(&NAMES).to_vec());
    }
    names.join(&b'.')
}

/// Names from the top on, mostly through elements with others inside, of
/// whatever type.
fn any_way(random: &mut Random, bytes: &[u8], body: &[Element]) -> Vec<Vec<u8>> {
    let stop = random.pick(&[0, 10, 40]);
    let mut names = Vec::new();
    let mut elements = body;
    while !elements.is_empty() {
        let full: Vec<&Element> = elements.iter().filter(|e| !e.inside.is_empty()).collect();
        let element = if full.is_empty() || random.percent(20) {
            &elements[random.below(elements.len())]
        } else {
            random.pick(&full)
        };
        names.push(bytes[element.name.clone()].to_vec());
        if names.len() > 1 && random.percent(stop) {
            break;
        }
        elements = &element.inside;
    }
    names
}

fn change_names(random: &mut Random, names: &mut Vec<Vec<u8>>) {
    let place = random.below(names.len() + 1);
    if place == names.len() || random.percent(25) {
        let name = match random.below(4) {
            0..=1 => Vec::new(),
            2 => any_text(random, 1),
            _ => random.pick(&NAMES).to_vec(),
        };
        names.insert(place, name);
        return;
    }
    match random.below(6) {
        0 => drop(names.remove(place)),
        1 => drop(names.remove(0)),
        2 => names[place].clear(),
        3 => names[place] = random.pick(&NAMES).to_vec(),
        4 => names[place].push(b'a'),
        _ => {
            let name = &mut names[place];
            if name.last().is_some_and(u8::is_ascii) {
                name.pop();
            }
        }
    }
}

// -------------------------------------------------------------- wrong rules

/// A wrong way to follow an identifier.
#[derive(Clone, Copy, Debug, PartialEq, Eq)]
pub enum Wrong {
    /// Not at all: tells what is found by following alone.
    NotFollowed,
    /// One level deep: tells what is found deeper than that.
    OneLevel,
    /// Into the first document of a repeated name: tells what is found in a
    /// later one.
    FirstAlone,
    /// Into the last document of a repeated name.
    LastAlone,
    /// Into whatever the first element of a repeated name holds.
    FirstElement,
    /// Into arrays too: tells what would be found through one.
    Arrays,
    /// Into scopes too: tells what would be found through one.
    Scopes,
    /// An empty name matches nothing: tells what is found by an empty one.
    EmptyIsNone,
    /// An empty name matches any.
    EmptyIsAny,
    /// Empty names are left out.
    EmptyLeftOut,
    /// From the second name on.
    SecondOn,
    /// A name that begins with the part matches.
    Beginning,
    /// Several parts match a name with dots.
    NameWithDots,
    /// The last name is to be a document's.
    LastDocument,
    /// The last name is not to be a document's.
    LastLeaf,
    /// The last name need not be found.
    LastLeftOut,
    /// A name before the last that is not a document's is found too.
    LeafOnTheWay,
    /// An identifier with dots is not compared with the names at the top.
    NotWhole,
    /// When all identifiers were compared.
    BehindAll,
    /// Before any identifier is compared.
    BeforeAll,
}

impl Wrong {
    pub const ALL: [Wrong; 20] = [
        Wrong::NotFollowed,
        Wrong::OneLevel,
        Wrong::FirstAlone,
        Wrong::LastAlone,
        Wrong::FirstElement,
        Wrong::Arrays,
        Wrong::Scopes,
        Wrong::EmptyIsNone,
        Wrong::EmptyIsAny,
        Wrong::EmptyLeftOut,
        Wrong::SecondOn,
        Wrong::Beginning,
        Wrong::NameWithDots,
        Wrong::LastDocument,
        Wrong::LastLeaf,
        Wrong::LastLeftOut,
        Wrong::LeafOnTheWay,
        Wrong::NotWhole,
        Wrong::BehindAll,
        Wrong::BeforeAll,
    ];
}

/// The bytes of a body's names, and the rule that identifiers are followed by:
/// the right one or a wrong one.
struct Rule<'a> {
    bytes: &'a [u8],
    wrong: Option<Wrong>,
}

impl Rule<'_> {
    fn is(&self, wrong: Wrong) -> bool {
        self.wrong == Some(wrong)
    }

    /// Whether an identifier leads to a name.
    fn leads(&self, body: &[Element], identifier: &[u8]) -> bool {
        let mut names: Vec<&[u8]> = identifier.split(|&byte| byte == b'.').collect();
        if names.len() == 1 || self.is(Wrong::NotFollowed) {
            return false;
        }
        if self.is(Wrong::OneLevel) && names.len() > 2 {
            return false;
        }
        if self.is(Wrong::EmptyLeftOut) {
            names.retain(|name| !name.is_empty());
        }
        if self.is(Wrong::SecondOn) {
            names.remove(0);
        }
        if self.is(Wrong::LastLeftOut) {
            names.pop();
        }
        self.follows(body, &names)
    }

    fn follows(&self, elements: &[Element], names: &[&[u8]]) -> bool {
        let most = match self.wrong {
            Some(Wrong::NameWithDots) => names.len(),
            _ => names.len().min(1),
        };
        (1..=most).any(|count| {
            let (first, rest) = names.split_at(count);
            let named = elements.iter().filter(|e| self.matches(first, e));
            self.goes_on(&named.collect::<Vec<_>>(), rest)
        })
    }

    fn matches(&self, parts: &[&[u8]], element: &Element) -> bool {
        let name = &self.bytes[element.name.clone()];
        let [part] = parts else {
            return parts.join(&b'.') == name;
        };
        match self.wrong {
            Some(Wrong::EmptyIsNone) if part.is_empty() => false,
            Some(Wrong::EmptyIsAny) if part.is_empty() => true,
            Some(Wrong::Beginning) if !part.is_empty() => name.starts_with(part),
            _ => name == *part,
        }
    }

    /// From the elements that have the names so far to the others.
    fn goes_on(&self, named: &[&Element], rest: &[&[u8]]) -> bool {
        if rest.is_empty() {
            return named.iter().any(|element| match self.wrong {
                Some(Wrong::LastDocument) => element.kind == 0x03,
                Some(Wrong::LastLeaf) => element.kind != 0x03,
                _ => true,
            });
        }
        if self.is(Wrong::LeafOnTheWay) && named.iter().any(|e| e.kind != 0x03) {
            return true;
        }
        let entered: Vec<&&Element> = named.iter().filter(|e| self.enters(e.kind)).collect();
        let follows = |element: &Element| self.follows(&element.inside, rest);
        match self.wrong {
            Some(Wrong::FirstAlone) => entered.first().is_some_and(|e| follows(e)),
            Some(Wrong::LastAlone) => entered.last().is_some_and(|e| follows(e)),
            Some(Wrong::FirstElement) => named
                .first()
                .is_some_and(|e| self.enters(e.kind) && follows(e)),
            _ => entered.into_iter().any(|element| follows(element)),
        }
    }

    fn enters(&self, kind: u8) -> bool {
        match kind {
            0x03 => true,
            0x04 => self.is(Wrong::Arrays),
            0x0F => self.is(Wrong::Scopes),
            _ => false,
        }
    }
}

/// How many messages tell the rule from each wrong one.
#[derive(Default)]
pub struct Told {
    counts: [u64; Wrong::ALL.len()],
}

impl Told {
    /// Counts a message that came to check 24, where it was appended to with
    /// the new identifier.
    pub fn note(&mut self, edition: &Edition, message: &[u8], new: Option<&[u8]>) {
        let (view, body) = reference::read_before_24(edition, message).expect("came to check 24");
        let sequences = view.sequences();
        let identifiers: Vec<&[u8]> = sequences
            .into_iter()
            .map(|sequence| &message[sequence.identifier.clone()])
            .chain(new)
            .collect();
        if !identifiers.iter().any(|text| text.contains(&b'.')) {
            return;
        }
        let is_name = |index: usize| {
            let mut names = body.iter().map(|e| &message[e.name.clone()]);
            names.any(|name| name == identifiers[index])
        };
        let comes_again = |index: usize| identifiers[..index].contains(&identifiers[index]);
        let has_dots = |index: usize| identifiers[index].contains(&b'.');
        // The number of the first identifier that clashes.
        let first = |wrong| {
            let bytes = message;
            let rule = Rule { bytes, wrong };
            let leads = |index: &usize| rule.leads(&body, identifiers[*index]);
            let equal = |index: &usize| {
                let compared = !(rule.is(Wrong::NotWhole) && has_dots(*index));
                compared && is_name(*index) || comes_again(*index)
            };
            let mut all = 0..identifiers.len();
            match wrong {
                Some(Wrong::BehindAll) => all.clone().find(equal).or(all.find(leads)),
                Some(Wrong::BeforeAll) => all.clone().find(leads).or(all.find(equal)),
                _ => all.find(|index| equal(index) || leads(index)),
            }
        };
        let right = first(None);
        let of_reference = (0..identifiers.len()).find(|&index| {
            let leads = leads_to_a_name(message, &body, identifiers[index]);
            is_name(index) || comes_again(index) || leads
        });
        assert_eq!(right, of_reference);
        for (count, wrong) in self.counts.iter_mut().zip(Wrong::ALL) {
            *count += u64::from(first(Some(wrong)) != right);
        }
    }

    pub fn add(&mut self, other: &Told) {
        for (sum, count) in self.counts.iter_mut().zip(other.counts) {
            *sum += count;
        }
    }

    pub fn print(&self) {
        println!("24, told from a wrong rule:");
        for (wrong, count) in Wrong::ALL.iter().zip(self.counts) {
            println!("{count:>9} {wrong:?}");
        }
    }

    /// Every wrong rule must have given another answer so often.
    pub fn check(&self, least: u64) {
        for (wrong, count) in Wrong::ALL.iter().zip(self.counts) {
            assert!(count >= least, "{wrong:?} told {count} times");
        }
    }
}

// ------------------------------------------------------------ dear messages

/// About 1 KB, twice that and so on, and 48 KB.
pub const LENGTHS: [usize; 7] = [1_024, 2_048, 4_096, 8_192, 16_384, 32_768, LONG];

/// As many identifiers as there may be, of which none leads to a name of
/// [`points`], although each is followed through all of it; with other
/// characters for the dots none is.
pub fn in_vain(dot: char) -> Vec<Vec<u8>> {
    (0..MAX_SEQUENCES)
        .map(|index| format!("run{dot}points{dot}none{index:02}").into_bytes())
        .collect()
}

/// A body `run`, in which `points` comes so often, each with eight nulls.
pub fn points(count: usize) -> Vec<u8> {
    let nulls: Vec<u8> = (1..=8)
        .flat_map(|index| element(0x0A, format!("measured_{index}").as_bytes(), b""))
        .collect();
    let point = element(0x03, b"points", &document(&nulls));
    let run = element(0x03, b"run", &document(&point.repeat(count)));
    document(&run)
}

/// How many points fit into a message of this length with [`in_vain`].
pub fn fitting_points(length: usize) -> usize {
    let left = length - with_identifiers(points(0), &in_vain('.')).len();
    left / (points(1).len() - points(0).len())
}

/// A body `r`, in which `a` comes so often, each with the null `n`.
pub fn many_documents(count: usize) -> Vec<u8> {
    let one = element(0x03, b"a", &document(&element(0x0A, b"n", b"")));
    document(&element(0x03, b"r", &document(&one.repeat(count))))
}

/// An identifier into [`many_documents`] with so long a last name.
pub fn with_long_name(length: usize) -> Vec<u8> {
    [&b"r.a."[..], &vec![b'n'; length]].concat()
}

/// A document in which the empty name comes twice at each of so many levels,
/// below the first, where it comes once.
pub fn unnamed_tree(levels: usize) -> Vec<u8> {
    let mut tree = document(b"");
    for level in (1..levels).rev() {
        let one = element(0x03, b"", &tree);
        tree = document(&one.repeat(if level == 1 { 1 } else { 2 }));
    }
    tree
}

/// A message with this body and behind it these sequences of no documents.
pub fn with_identifiers(body: Vec<u8>, identifiers: &[Vec<u8>]) -> Vec<u8> {
    let mut sections = vec![Section::Body(body)];
    sections.extend(identifiers.iter().map(|identifier| Section::Sequence {
        identifier: identifier.clone(),
        documents: Vec::new(),
    }));
    Draft::new(sections).bytes()
}
