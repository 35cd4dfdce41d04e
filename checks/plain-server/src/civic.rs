//! Civic addresses, and the patterns of boundaries.

use crate::texts::{write_list, write_text};
use std::collections::BTreeMap;

/// The civic elements, in the order in which a validation lists them.
const ELEMENTS: [&str; 31] = [
    "country", "A1", "A2", "A3", "A4", "A5", "A6", "PRM", "PRD", "RD", "STS", "POD", "POM",
    "RDSEC", "RDBR", "RDSUBBR", "HNO", "HNS", "LMK", "LOC", "FLR", "NAM", "PC", "BLD", "UNIT",
    "ROOM", "SEAT", "PLC", "PCN", "POBOX", "ADDCODE",
];

/// A civic element, by its place in the list.
#[derive(Clone, Copy, PartialEq, Eq, Debug)]
pub struct Element(u8);

impl Element {
    /// The element of a name.
    fn of(name: &str) -> Option<Element> {
        let place = ELEMENTS.iter().position(|element| *element == name)?;
        Some(Element(place as u8))
    }

    /// Its name.
    pub fn name(self) -> &'static str {
        ELEMENTS[usize::from(self.0)]
    }
}

/// A set of elements, a bit for each.
#[derive(Clone, Copy, PartialEq, Eq, Hash, Default, Debug)]
pub struct Elements(u32);

impl Elements {
    /// The set of one.
    pub fn of(element: Element) -> Elements {
        Elements(1 << element.0)
    }

    /// Adds one.
    fn insert(&mut self, element: Element) {
        self.0 |= 1 << element.0;
    }

    /// Whether one is among them.
    pub fn has(self, element: Element) -> bool {
        self.0 & (1 << element.0) != 0
    }

    /// Whether all of them are among others.
    pub fn are_among(self, others: Elements) -> bool {
        self.0 & !others.0 == 0
    }

    /// All that are in one or the other.
    pub fn with(self, others: Elements) -> Elements {
        Elements(self.0 | others.0)
    }

    /// All of them, in the order of the list.
    pub fn iter(self) -> impl Iterator<Item = Element> {
        (0..ELEMENTS.len() as u8)
            .map(Element)
            .filter(move |element| self.has(*element))
    }
}

/// The values of elements in the form in which they are compared, in the order of the elements.
#[derive(PartialEq, Eq, Default)]
pub struct Values {
    elements: Elements,
    values: Vec<(u8, Box<str>)>,
}

impl Values {
    /// The values of those names that are elements.
    fn of(pairs: &BTreeMap<&str, &str>) -> Values {
        let mut read = Values::default();
        for (name, value) in pairs {
            if let Some(element) = Element::of(name) {
                read.elements.insert(element);
                read.values.push((element.0, folded(value)));
            }
        }
        read.values.sort_unstable_by_key(|(element, _)| *element);
        read
    }

    /// The elements that have a value.
    pub fn elements(&self) -> Elements {
        self.elements
    }

    /// The value of an element.
    pub fn get(&self, element: Element) -> Option<&str> {
        let place = self
            .values
            .binary_search_by_key(&element.0, |(other, _)| *other)
            .ok()?;
        Some(&self.values[place].1)
    }

    /// Whether some elements have values, and the same ones as in others.
    pub fn agree(&self, elements: Elements, others: &Values) -> bool {
        elements.are_among(self.elements)
            && elements
                .iter()
                .all(|element| self.get(element) == others.get(element))
    }

    /// The values of some elements as one key: each with the number of its element and its length in front.
    pub fn write_key(&self, elements: Elements, key: &mut Vec<u8>) {
        key.clear();
        for (element, value) in &self.values {
            if elements.has(Element(*element)) {
                key.push(*element);
                key.extend_from_slice(&(value.len() as u16).to_le_bytes());
                key.extend_from_slice(value.as_bytes());
            }
        }
    }

    /// The key of each element alone.
    pub fn single_keys(&self) -> Vec<Vec<u8>> {
        let key_of = |element| {
            let mut key = Vec::new();
            self.write_key(Elements::of(element), &mut key);
            key
        };
        self.elements.iter().map(key_of).collect()
    }
}

/// A value as it is compared: white space trimmed, each run of it one space, ASCII letters in lower case.
fn folded(value: &str) -> Box<str> {
    let is_space = |character: char| matches!(character, '\t'..='\r' | ' ');
    let mut folded = String::with_capacity(value.len());
    for word in value.split(is_space).filter(|word| !word.is_empty()) {
        if !folded.is_empty() {
            folded.push(' ');
        }
        folded.push_str(word);
    }
    folded.make_ascii_lowercase();
    folded.into_boxed_str()
}

/// Whether there are at most 128 pairs, with at most 512 bytes in each name and value.
fn are_short(pairs: &BTreeMap<&str, &str>) -> bool {
    pairs.len() <= 128
        && pairs
            .iter()
            .all(|(name, value)| name.len() <= 512 && value.len() <= 512)
}

/// An address that is asked for.
pub struct Address<'a> {
    pub values: Values,
    /// The names that are no elements, in the order of their bytes.
    pub unknown: Vec<&'a str>,
}

impl<'a> Address<'a> {
    /// The address of names and values, one of which at least is an element.
    pub fn new(pairs: &BTreeMap<&'a str, &'a str>) -> Option<Address<'a>> {
        let values = Values::of(pairs);
        let is_address = are_short(pairs) && values.elements != Elements::default();
        is_address.then(|| Address {
            values,
            unknown: pairs
                .keys()
                .copied()
                .filter(|name| Element::of(name).is_none())
                .collect(),
        })
    }
}

/// A pattern of a boundary.
pub struct Pattern {
    pub values: Values,
    /// It as JSON, the names in the order of their bytes.
    text: Box<[u8]>,
}

impl Pattern {
    /// The pattern of names and values, at least one, all of which are elements.
    pub fn new(pairs: &BTreeMap<&str, &str>) -> Option<Pattern> {
        let values = Values::of(pairs);
        let is_pattern =
            are_short(pairs) && !pairs.is_empty() && values.values.len() == pairs.len();
        is_pattern.then(|| Pattern {
            values,
            text: text_of(pairs),
        })
    }

    /// Writes it as JSON.
    pub fn write(&self, out: &mut Vec<u8>) {
        out.extend_from_slice(&self.text);
    }
}

/// Two patterns are the same where they were given with the same names and values.
impl PartialEq for Pattern {
    fn eq(&self, other: &Pattern) -> bool {
        self.text == other.text
    }
}

/// Names and values as JSON.
fn text_of(pairs: &BTreeMap<&str, &str>) -> Box<[u8]> {
    let mut text = vec![b'{'];
    for (name, value) in pairs {
        if text.len() > 1 {
            text.push(b',');
        }
        write_text(&mut text, name);
        text.push(b':');
        write_text(&mut text, value);
    }
    text.push(b'}');
    text.into_boxed_slice()
}

/// Writes names as a list.
pub fn write_names<'a>(out: &mut Vec<u8>, names: impl IntoIterator<Item = &'a str>) {
    write_list(out, names, write_text);
}
