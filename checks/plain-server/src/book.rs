//! The mappings that are published, and what finds them.

use crate::civic::Elements;
use crate::civic::{Address, Pattern};
use crate::grid::Grid;
use crate::mapping::Mapping;
use crate::moment::Moment;
use crate::patterns::Patterns;
use crate::ring::Point;
use crate::tokens::Tokens;
use ahash::AHashMap;
use std::collections::{BTreeMap, BTreeSet};
use std::sync::Arc;

/// A mapping that is held, with its place in the list: a mapping that is published later has a greater one.
#[derive(Clone)]
pub struct Held {
    pub place: u64,
    pub mapping: Arc<Mapping>,
}

/// An edit: what was in a slot, and what is there after it.
pub struct Change {
    pub slot: u32,
    pub before: Option<Held>,
    pub after: Option<Held>,
}

/// Where something is asked for.
pub enum Place<'a> {
    Point(Point),
    Address(Address<'a>),
    Token(&'a str),
}

/// What was found for a service.
pub struct Found<'a> {
    /// The labels of the service that has it.
    pub service: &'a str,
    pub mappings: Vec<&'a Mapping>,
    pub are_defaults: bool,
}

/// The mappings of a service.
#[derive(Default)]
struct Shelf {
    grid: Grid,
    patterns: Patterns,
    tokens: Tokens,
    defaults: BTreeSet<u32>,
    /// How many never expire, and how many do at each moment.
    endless: usize,
    ends: BTreeMap<Moment, usize>,
}

/// The mappings that are published.
#[derive(Default)]
pub struct Book {
    /// How many edits were published.
    pub edition: u64,
    slots: Vec<Option<Held>>,
    keys: AHashMap<Box<str>, u32>,
    /// The mappings of each service, by its labels.
    shelves: AHashMap<Box<str>, Shelf>,
}

/// A service, the one above it and so on, by their labels.
fn chain(service: &str) -> impl Iterator<Item = &str> {
    std::iter::successors(Some(service), |labels| Some(labels.rsplit_once('.')?.0))
}

/// The service that is one label longer than `above`, and is or is above `service`; nothing where there is none.
fn child<'a>(above: Option<&str>, service: &'a str) -> Option<&'a str> {
    let begin = match above {
        None => 0,
        Some(above) => service
            .strip_prefix(above)?
            .strip_prefix('.')
            .map(|_| above.len() + 1)?,
    };
    let length = service[begin..].find('.').unwrap_or(service.len() - begin);
    Some(&service[..begin + length])
}

impl Shelf {
    fn insert(&mut self, slot: u32, mapping: &Mapping) {
        self.grid.insert(slot, &mapping.regions.rings);
        self.patterns.insert(slot, &mapping.regions.patterns);
        self.tokens.insert(slot, &mapping.regions.token_sets);
        if mapping.is_default() {
            self.defaults.insert(slot);
        }
        match mapping.expires {
            None => self.endless += 1,
            Some(end) => *self.ends.entry(end).or_default() += 1,
        }
    }

    fn remove(&mut self, slot: u32, mapping: &Mapping) {
        self.grid.remove(slot, &mapping.regions.rings);
        self.patterns.remove(slot, &mapping.regions.patterns);
        self.tokens.remove(slot, &mapping.regions.token_sets);
        self.defaults.remove(&slot);
        let Some(end) = mapping.expires else {
            self.endless -= 1;
            return;
        };
        if let Some(count) = self.ends.get_mut(&end) {
            *count -= 1;
            if *count == 0 {
                self.ends.remove(&end);
            }
        }
    }

    /// Whether it has no mapping.
    fn is_empty(&self) -> bool {
        self.endless == 0 && self.ends.is_empty()
    }

    /// Whether some mapping is live.
    fn is_live(&self, moment: Moment) -> bool {
        self.endless > 0
            || self
                .ends
                .last_key_value()
                .is_some_and(|(end, _)| moment < *end)
    }

    /// The slots of the mappings that hold a place, live or not.
    fn holders(&self, place: &Place) -> Vec<u32> {
        match place {
            Place::Point(point) => self.grid.holders(*point).collect(),
            Place::Address(address) => self.patterns.holders(address),
            Place::Token(token) => self.tokens.holders(token),
        }
    }
}

impl Book {
    /// Makes an edit.
    pub fn apply(&mut self, change: Change) {
        if let Some(before) = change.before {
            self.remove(change.slot, &before.mapping);
        }
        if let Some(after) = change.after {
            self.insert(change.slot, after);
        }
        self.edition += 1;
    }

    fn insert(&mut self, slot: u32, held: Held) {
        let mapping = Arc::clone(&held.mapping);
        let place = slot as usize;
        if self.slots.len() <= place {
            self.slots.resize_with(place + 1, || None);
        }
        self.slots[place] = Some(held);
        if let Some(key) = &mapping.key {
            self.keys.insert(key.clone(), slot);
        }
        self.shelves
            .entry(mapping.service.clone())
            .or_default()
            .insert(slot, &mapping);
    }

    fn remove(&mut self, slot: u32, mapping: &Mapping) {
        self.slots[slot as usize] = None;
        if let Some(key) = &mapping.key {
            self.keys.remove(key);
        }
        if let Some(shelf) = self.shelves.get_mut(&mapping.service) {
            shelf.remove(slot, mapping);
            if shelf.is_empty() {
                self.shelves.remove(&mapping.service);
            }
        }
    }

    /// The live ones of the mappings in some slots, each once, in the order of the list.
    fn live(&self, slots: impl IntoIterator<Item = u32>, moment: Moment) -> Vec<&Mapping> {
        let held = slots
            .into_iter()
            .filter_map(|slot| self.slots[slot as usize].as_ref());
        let mut live: Vec<&Held> = held.filter(|held| held.mapping.is_live(moment)).collect();
        live.sort_unstable_by_key(|held| held.place);
        live.dedup_by_key(|held| held.place);
        live.into_iter().map(|held| held.mapping.as_ref()).collect()
    }

    /// What is found for a service at a place: the mappings that hold it, else the defaults.
    pub fn find<'a>(
        &'a self,
        service: &'a str,
        place: &Place,
        moment: Moment,
    ) -> Option<Found<'a>> {
        let holders = |shelf: &Shelf| self.live(shelf.holders(place), moment);
        let defaults = |shelf: &Shelf| self.live(shelf.defaults.iter().copied(), moment);
        let found = self.first(service, holders).map(|found| (found, false));
        let ((service, mappings), are_defaults) =
            found.or_else(|| Some((self.first(service, defaults)?, true)))?;
        Some(Found {
            service,
            mappings,
            are_defaults,
        })
    }

    /// The first service of the chain for which mappings are chosen, and these.
    fn first<'a>(
        &'a self,
        service: &'a str,
        chosen: impl Fn(&'a Shelf) -> Vec<&'a Mapping>,
    ) -> Option<(&'a str, Vec<&'a Mapping>)> {
        chain(service).find_map(|service| {
            let mappings = chosen(self.shelves.get(service)?);
            (!mappings.is_empty()).then_some((service, mappings))
        })
    }

    /// Whether a service or one above it has live mappings.
    pub fn is_implemented(&self, service: &str, moment: Moment) -> bool {
        chain(service)
            .filter_map(|service| self.shelves.get(service))
            .any(|shelf| shelf.is_live(moment))
    }

    /// The services one label below a service that have live mappings.
    pub fn services(&self, above: Option<&str>, moment: Moment) -> BTreeSet<&str> {
        let live = self
            .shelves
            .iter()
            .filter(|(_, shelf)| shelf.is_live(moment));
        live.filter_map(|(service, _)| child(above, service))
            .collect()
    }

    /// The services one label below a service that have live mappings at a place.
    pub fn services_at(
        &self,
        above: Option<&str>,
        place: &Place,
        moment: Moment,
    ) -> BTreeSet<&str> {
        let mut services = BTreeSet::new();
        for (service, shelf) in &self.shelves {
            if let Some(child) = child(above, service) {
                if !services.contains(child) && !self.live(shelf.holders(place), moment).is_empty()
                {
                    services.insert(child);
                }
            }
        }
        services
    }

    /// The live mapping of a key.
    pub fn by_key(&self, key: &str, moment: Moment) -> Option<&Mapping> {
        let slot = *self.keys.get(key)?;
        self.live([slot], moment).pop()
    }

    /// The patterns of live mappings of a service that have the address's values of some elements, at least one.
    pub fn agreeing<'a>(
        &'a self,
        service: &str,
        address: &'a Address,
        elements: Elements,
        moment: Moment,
    ) -> Vec<&'a Pattern> {
        let Some(shelf) = self.shelves.get(service) else {
            return Vec::new();
        };
        let is_live = |slot: u32| !self.live([slot], moment).is_empty();
        let agreeing = shelf.patterns.agreeing(address, elements);
        agreeing
            .filter(|(slot, _)| is_live(*slot))
            .map(|(_, pattern)| pattern)
            .collect()
    }
}
