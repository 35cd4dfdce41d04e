//! The civic patterns of a service, by their values.

use crate::civic::{Address, Elements, Pattern, Values};
use ahash::AHashMap;
use std::collections::BTreeMap;
use std::sync::Arc;

/// A pattern: the slot of its mapping, and its place among that mapping's patterns.
type Place = (u32, u16);

/// The patterns of a service.
#[derive(Default)]
pub struct Patterns {
    /// The patterns of each set of elements, by the key of all their values.
    whole: AHashMap<Elements, AHashMap<Box<[u8]>, Vec<Place>>>,
    /// The patterns that have a value, by its key alone.
    single: AHashMap<Box<[u8]>, BTreeMap<Place, Arc<Pattern>>>,
}

impl Patterns {
    /// Adds the patterns of a mapping.
    pub fn insert(&mut self, slot: u32, patterns: &[Arc<Pattern>]) {
        for (number, pattern) in patterns.iter().enumerate() {
            let place = (slot, number as u16);
            let alike = self.whole.entry(pattern.values.elements()).or_default();
            alike
                .entry(whole_key(&pattern.values))
                .or_default()
                .push(place);
            for key in pattern.values.single_keys() {
                self.single
                    .entry(key.into_boxed_slice())
                    .or_default()
                    .insert(place, Arc::clone(pattern));
            }
        }
    }

    /// Takes away the patterns of a mapping.
    pub fn remove(&mut self, slot: u32, patterns: &[Arc<Pattern>]) {
        for (number, pattern) in patterns.iter().enumerate() {
            let place = (slot, number as u16);
            self.remove_whole(pattern, place);
            for key in pattern.values.single_keys() {
                self.remove_single(&key, place);
            }
        }
    }

    fn remove_whole(&mut self, pattern: &Pattern, place: Place) {
        let elements = pattern.values.elements();
        let key = whole_key(&pattern.values);
        let Some(alike) = self.whole.get_mut(&elements) else {
            return;
        };
        if let Some(places) = alike.get_mut(&key) {
            places.retain(|other| *other != place);
            if places.is_empty() {
                alike.remove(&key);
            }
        }
        if alike.is_empty() {
            self.whole.remove(&elements);
        }
    }

    fn remove_single(&mut self, key: &[u8], place: Place) {
        if let Some(patterns) = self.single.get_mut(key) {
            patterns.remove(&place);
            if patterns.is_empty() {
                self.single.remove(key);
            }
        }
    }

    /// The slots of the mappings that an address is in, each as often as it has patterns that match.
    pub fn holders(&self, address: &Address) -> Vec<u32> {
        let (mut slots, mut key) = (Vec::new(), Vec::new());
        for (elements, alike) in &self.whole {
            if elements.are_among(address.values.elements()) {
                address.values.write_key(*elements, &mut key);
                let places = alike.get(key.as_slice()).into_iter().flatten();
                slots.extend(places.map(|(slot, _)| *slot));
            }
        }
        slots
    }

    /// The slots and the patterns that have the address's values of some elements, at least one.
    pub fn agreeing<'a>(
        &'a self,
        address: &'a Address,
        elements: Elements,
    ) -> impl Iterator<Item = (u32, &'a Pattern)> {
        let of_element = elements.iter().map(|element| {
            let mut key = Vec::new();
            address.values.write_key(Elements::of(element), &mut key);
            self.single.get(key.as_slice())
        });
        let fewest = of_element.flatten().min_by_key(|patterns| patterns.len());
        let patterns = fewest.into_iter().flatten();
        let agreeing =
            patterns.filter(move |(_, pattern)| pattern.values.agree(elements, &address.values));
        agreeing.map(|((slot, _), pattern)| (*slot, pattern.as_ref()))
    }
}

/// The key of all values.
fn whole_key(values: &Values) -> Box<[u8]> {
    let mut key = Vec::new();
    values.write_key(values.elements(), &mut key);
    key.into_boxed_slice()
}
