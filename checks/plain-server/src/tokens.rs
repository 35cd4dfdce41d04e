//! Sets of tokens, and those of a service by their tokens.

use crate::texts::{is_identifier, write_list, write_text};
use ahash::{AHashMap, AHashSet};

/// The most tokens of a set.
const MOST: usize = 64;

/// A set of tokens, in the order given.
#[derive(PartialEq, Eq)]
pub struct TokenSet(Box<[Box<str>]>);

impl TokenSet {
    /// The set of 1 to 64 tokens, none of them twice.
    pub fn new(tokens: &[&str]) -> Option<TokenSet> {
        let is_set = (1..=MOST).contains(&tokens.len())
            && tokens.iter().all(|token| is_identifier(token))
            && tokens.iter().collect::<AHashSet<_>>().len() == tokens.len();
        is_set.then(|| TokenSet(tokens.iter().map(|token| Box::from(*token)).collect()))
    }

    /// Writes its tokens as JSON.
    pub fn write(&self, out: &mut Vec<u8>) {
        write_list(out, self.0.iter(), |out, token| write_text(out, token));
    }
}

/// The token sets of a service: the slots of the mappings of each token, as often as they have it.
#[derive(Default)]
pub struct Tokens(AHashMap<Box<str>, Vec<u32>>);

impl Tokens {
    /// Adds the sets of a mapping.
    pub fn insert(&mut self, slot: u32, sets: &[TokenSet]) {
        for token in sets.iter().flat_map(|set| set.0.iter()) {
            self.0.entry(token.clone()).or_default().push(slot);
        }
    }

    /// Takes away the sets of a mapping.
    pub fn remove(&mut self, slot: u32, sets: &[TokenSet]) {
        for token in sets.iter().flat_map(|set| set.0.iter()) {
            if let Some(slots) = self.0.get_mut(token) {
                slots.retain(|other| *other != slot);
                if slots.is_empty() {
                    self.0.remove(token);
                }
            }
        }
    }

    /// The slots of the mappings that hold a token.
    pub fn holders(&self, token: &str) -> Vec<u32> {
        self.0.get(token).cloned().unwrap_or_default()
    }
}
