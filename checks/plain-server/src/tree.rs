//! The value of a line of JSON: what `serde_json::Value` is, but texts borrow from the line, the members of an object stand
//! in a list, and a pair of whole numbers takes no memory of its own.

use crate::degrees;
use serde::de::{Deserialize, Deserializer, Error, MapAccess, SeqAccess, Visitor};
use std::borrow::Cow;
use std::collections::BTreeMap;
use std::fmt;

/// A JSON value.
pub enum Tree<'a> {
    Null,
    Bool(bool),
    /// A number without fraction and exponent, of 64 bits with a sign.
    Whole(i64),
    /// Any other number, which no member has as a value.
    OtherNumber,
    Text(Cow<'a, str>),
    /// A list of just two whole numbers.
    Pair(i64, i64),
    /// Any other list.
    List(Vec<Tree<'a>>),
    Object(Members<'a>),
}

/// The members of an object, in the order given. Of two with one name the last one counts.
pub struct Members<'a>(Vec<(Cow<'a, str>, Tree<'a>)>);

const TWO_NUMBERS: &[Tree<'static>] = &[Tree::OtherNumber, Tree::OtherNumber];

/// The value of a line; nothing where it is no JSON.
pub fn read(line: &[u8]) -> Option<Tree<'_>> {
    serde_json::from_slice(line).ok()
}

impl<'a> Tree<'a> {
    /// The text.
    pub fn text(&self) -> Option<&str> {
        match self {
            Tree::Text(text) => Some(text),
            _ => None,
        }
    }

    /// True or false.
    pub fn truth(&self) -> Option<bool> {
        match self {
            Tree::Bool(truth) => Some(*truth),
            _ => None,
        }
    }

    /// The two numbers of a position, in range or not: a list of two whole numbers, or a text of degrees.
    pub fn position(&self) -> Option<(i64, i64)> {
        match self {
            Tree::Pair(first, second) => Some((*first, *second)),
            Tree::Text(text) => degrees::position(text),
            _ => None,
        }
    }

    /// The items of a list. A pair of numbers has two that are no text and no object, and nobody asks for more.
    pub fn items(&self) -> Option<&[Tree<'a>]> {
        match self {
            Tree::List(items) => Some(items),
            Tree::Pair(..) => Some(TWO_NUMBERS),
            _ => None,
        }
    }

    /// The texts of a list of texts.
    pub fn texts(&self) -> Option<Vec<&str>> {
        self.items()?.iter().map(Tree::text).collect()
    }

    /// The members of an object.
    pub fn members(&self) -> Option<&Members<'a>> {
        match self {
            Tree::Object(members) => Some(members),
            _ => None,
        }
    }

    /// The name and the value of the one member of an object.
    pub fn only_member(&self) -> Option<(&str, &Tree<'a>)> {
        let members = &self.members()?.0;
        let (name, value) = members.last()?;
        let is_only = members.iter().all(|member| member.0 == *name);
        is_only.then_some((name.as_ref(), value))
    }

    /// The members of an object whose values are texts, by name.
    pub fn text_pairs(&self) -> Option<BTreeMap<&str, &str>> {
        let mut pairs = BTreeMap::new();
        for (name, value) in &self.members()?.0 {
            pairs.insert(name.as_ref(), value);
        }
        pairs
            .into_iter()
            .map(|(name, value)| Some((name, value.text()?)))
            .collect()
    }
}

impl<'a> Members<'a> {
    /// The value of a member; `null` counts as none.
    pub fn get(&self, name: &str) -> Option<&Tree<'a>> {
        match self.0.iter().rev().find(|member| member.0 == name) {
            None | Some((_, Tree::Null)) => None,
            Some((_, value)) => Some(value),
        }
    }
}

/// The name of a member, which borrows from the line where it has no escapes.
struct Name<'a>(Cow<'a, str>);

impl<'de> Deserialize<'de> for Name<'de> {
    fn deserialize<D: Deserializer<'de>>(deserializer: D) -> Result<Self, D::Error> {
        deserializer.deserialize_str(NameVisitor).map(Name)
    }
}

struct NameVisitor;

impl<'de> Visitor<'de> for NameVisitor {
    type Value = Cow<'de, str>;

    fn expecting(&self, formatter: &mut fmt::Formatter) -> fmt::Result {
        formatter.write_str("a name")
    }

    fn visit_borrowed_str<E: Error>(self, text: &'de str) -> Result<Self::Value, E> {
        Ok(Cow::Borrowed(text))
    }

    fn visit_str<E: Error>(self, text: &str) -> Result<Self::Value, E> {
        Ok(Cow::Owned(text.to_owned()))
    }
}

impl<'de> Deserialize<'de> for Tree<'de> {
    fn deserialize<D: Deserializer<'de>>(deserializer: D) -> Result<Self, D::Error> {
        deserializer.deserialize_any(TreeVisitor)
    }
}

struct TreeVisitor;

impl<'de> Visitor<'de> for TreeVisitor {
    type Value = Tree<'de>;

    fn expecting(&self, formatter: &mut fmt::Formatter) -> fmt::Result {
        formatter.write_str("a value")
    }

    fn visit_unit<E: Error>(self) -> Result<Self::Value, E> {
        Ok(Tree::Null)
    }

    fn visit_bool<E: Error>(self, truth: bool) -> Result<Self::Value, E> {
        Ok(Tree::Bool(truth))
    }

    fn visit_i64<E: Error>(self, number: i64) -> Result<Self::Value, E> {
        Ok(Tree::Whole(number))
    }

    fn visit_u64<E: Error>(self, number: u64) -> Result<Self::Value, E> {
        Ok(i64::try_from(number).map_or(Tree::OtherNumber, Tree::Whole))
    }

    fn visit_f64<E: Error>(self, _: f64) -> Result<Self::Value, E> {
        Ok(Tree::OtherNumber)
    }

    fn visit_borrowed_str<E: Error>(self, text: &'de str) -> Result<Self::Value, E> {
        Ok(Tree::Text(Cow::Borrowed(text)))
    }

    fn visit_str<E: Error>(self, text: &str) -> Result<Self::Value, E> {
        Ok(Tree::Text(Cow::Owned(text.to_owned())))
    }

    fn visit_seq<A: SeqAccess<'de>>(self, mut list: A) -> Result<Self::Value, A::Error> {
        let Some(first) = list.next_element()? else {
            return Ok(Tree::List(Vec::new()));
        };
        let Some(second) = list.next_element()? else {
            return Ok(Tree::List(vec![first]));
        };
        let third = list.next_element()?;
        if let (Tree::Whole(first), Tree::Whole(second), None) = (&first, &second, &third) {
            return Ok(Tree::Pair(*first, *second));
        }
        let mut items = vec![first, second];
        items.extend(third);
        while let Some(item) = list.next_element()? {
            items.push(item);
        }
        Ok(Tree::List(items))
    }

    fn visit_map<A: MapAccess<'de>>(self, mut object: A) -> Result<Self::Value, A::Error> {
        let mut members = Vec::new();
        while let Some((Name(name), value)) = object.next_entry()? {
            members.push((name, value));
        }
        Ok(Tree::Object(Members(members)))
    }
}
