//! The desk: edits that are staged until a commit.

use crate::book::{Book, Change, Held};
use crate::mapping::{read_withdrawal, Mapping};
use crate::moment::Moment;
use crate::refusal::{unless, Refusal};
use crate::texts::write_number;
use crate::tree::Tree;
use ahash::AHashMap;
use std::sync::Arc;

const MOST_MAPPINGS: usize = 65_536;
const MOST_TRACES: usize = 65_536;
const MOST_EDITS: u64 = 4_294_967_295;

/// What a desk's line asks for.
enum Edit {
    Publish(Mapping),
    Replace(Mapping),
    Withdraw(Box<str>, Moment),
}

/// A staged edit, and what brings back how it was before.
struct Pending {
    change: Change,
    identity: Box<str>,
    trace_before: Option<Moment>,
}

/// The mappings as they will be after the staged edits, and these.
#[derive(Default)]
pub struct Desk {
    /// The slot of each mapping that is held, by its identity.
    held: AHashMap<Box<str>, (u32, Held)>,
    /// The identities of those that have a key.
    keys: AHashMap<Box<str>, Box<str>>,
    /// The stamps of withdrawals.
    traces: AHashMap<Box<str>, Moment>,
    /// Slots that are free again, the last one first, and how many there are in all.
    free: Vec<u32>,
    slots: u32,
    /// The place of the next mapping that is published.
    next_place: u64,
    pending: Vec<Pending>,
    /// How many edits were accepted, those that are pending too.
    edits: u64,
}

/// Whether a member of this name is a desk line.
pub fn is_desk_line(name: &str) -> bool {
    matches!(name, "publish" | "replace" | "withdraw" | "commit")
}

/// Writes the reply of a refused line.
pub fn write_refusal(out: &mut Vec<u8>, refusal: Refusal) {
    out.extend_from_slice(b"{\"refused\":{\"code\":");
    write_number(out, refusal.code());
    out.extend_from_slice(format!(",\"name\":\"{refusal:?}\"}}}}\n").as_bytes());
}

/// Writes a reply of one number.
fn write_count(out: &mut Vec<u8>, before: &str, count: u64) {
    out.extend_from_slice(before.as_bytes());
    write_number(out, count);
    out.extend_from_slice(b"}}\n");
}

impl Desk {
    /// Answers a desk line by the name and the value of its member. A commit hands the staged edits to `publish`, which gives
    /// the edition.
    pub fn answer(
        &mut self,
        name: &str,
        value: &Tree,
        out: &mut Vec<u8>,
        publish: impl FnOnce(Vec<Change>) -> u64,
    ) -> Result<(), Refusal> {
        match read_edit(name, value)? {
            None => write_count(
                out,
                "{\"committed\":{\"edition\":",
                publish(self.take_pending()),
            ),
            Some(edit) => {
                self.stage(edit)?;
                write_count(out, "{\"staged\":{\"pending\":", self.pending.len() as u64);
            }
        }
        Ok(())
    }

    fn take_pending(&mut self) -> Vec<Change> {
        self.pending
            .drain(..)
            .map(|pending| pending.change)
            .collect()
    }

    /// Drops what is staged.
    pub fn drop_pending(&mut self) {
        while let Some(pending) = self.pending.pop() {
            let Pending {
                change,
                identity,
                trace_before,
            } = pending;
            match (&change.before, &change.after) {
                (None, Some(_)) => self.free.push(change.slot),
                (Some(_), None) => self.free.truncate(self.free.len() - 1),
                _ => (),
            }
            self.put(&identity, change.slot, change.before);
            self.set_trace(identity, trace_before);
            self.edits -= 1;
        }
    }

    fn stage(&mut self, edit: Edit) -> Result<(), Refusal> {
        unless(self.edits < MOST_EDITS, Refusal::EditsSpent)?;
        match edit {
            Edit::Publish(mapping) => self.publish(mapping),
            Edit::Replace(mapping) => self.replace(mapping),
            Edit::Withdraw(identity, moment) => self.withdraw(identity, moment),
        }
    }

    fn publish(&mut self, mapping: Mapping) -> Result<(), Refusal> {
        let identity = mapping.identity.clone();
        unless(!self.held.contains_key(&identity), Refusal::IdentityHeld)?;
        let trace = self.traces.get(&identity);
        unless(
            trace.is_none_or(|trace| *trace < mapping.updated),
            Refusal::Withdrawn,
        )?;
        unless(self.held.len() < MOST_MAPPINGS, Refusal::Full)?;
        self.has_free_key(&mapping)?;
        let slot = self.free.pop().unwrap_or(self.slots);
        self.slots = self.slots.max(slot + 1);
        let place = self.next_place;
        self.next_place += 1;
        self.make(identity, slot, None, Some(mapping.held_at(place)), None);
        Ok(())
    }

    fn replace(&mut self, mapping: Mapping) -> Result<(), Refusal> {
        let identity = mapping.identity.clone();
        let (slot, old) = self.newer(&identity, mapping.updated)?;
        self.has_free_key(&mapping)?;
        let may_have_key = mapping.has_regions_of(&old.mapping) || mapping.key != old.mapping.key;
        unless(may_have_key, Refusal::KeyUnchanged)?;
        let new = mapping.held_at(old.place);
        self.make(identity, slot, Some(old), Some(new), None);
        Ok(())
    }

    fn withdraw(&mut self, identity: Box<str>, moment: Moment) -> Result<(), Refusal> {
        let (slot, old) = self.newer(&identity, moment)?;
        unless(self.traces.len() < MOST_TRACES, Refusal::TracesFull)?;
        self.free.push(slot);
        self.make(identity, slot, Some(old), None, Some(moment));
        Ok(())
    }

    /// The mapping that is held by an identity, where a stamp is later than its own.
    fn newer(&self, identity: &str, moment: Moment) -> Result<(u32, Held), Refusal> {
        let (slot, old) = self.held.get(identity).ok_or(Refusal::IdentityUnknown)?;
        unless(old.mapping.updated < moment, Refusal::NotNewer)?;
        Ok((*slot, old.clone()))
    }

    fn has_free_key(&self, mapping: &Mapping) -> Result<(), Refusal> {
        let holder = mapping.key.as_ref().and_then(|key| self.keys.get(key));
        unless(
            holder.is_none_or(|holder| *holder == mapping.identity),
            Refusal::KeyHeld,
        )
    }

    /// Makes a change here, and keeps it for the commit. What is held has no trace, so a replacement leaves none.
    fn make(
        &mut self,
        identity: Box<str>,
        slot: u32,
        before: Option<Held>,
        after: Option<Held>,
        trace: Option<Moment>,
    ) {
        let trace_before = self.traces.get(&identity).copied();
        self.put(&identity, slot, after.clone());
        self.set_trace(identity.clone(), trace);
        self.edits += 1;
        let change = Change {
            slot,
            before,
            after,
        };
        self.pending.push(Pending {
            change,
            identity,
            trace_before,
        });
    }

    /// Puts a mapping, or none, in the place of the one of an identity.
    fn put(&mut self, identity: &str, slot: u32, held: Option<Held>) {
        if let Some((_, old)) = self.held.remove(identity) {
            if let Some(key) = &old.mapping.key {
                self.keys.remove(key);
            }
        }
        let Some(held) = held else {
            return;
        };
        if let Some(key) = &held.mapping.key {
            self.keys.insert(key.clone(), identity.into());
        }
        self.held.insert(identity.into(), (slot, held));
    }

    fn set_trace(&mut self, identity: Box<str>, trace: Option<Moment>) {
        match trace {
            None => self.traces.remove(&identity),
            Some(moment) => self.traces.insert(identity, moment),
        };
    }
}

impl Mapping {
    /// It, with its place in the list.
    fn held_at(self, place: u64) -> Held {
        Held {
            place,
            mapping: Arc::new(self),
        }
    }
}

/// The edit of a line; nothing for a commit.
fn read_edit(name: &str, value: &Tree) -> Result<Option<Edit>, Refusal> {
    let members = value.members().ok_or(Refusal::BadLine)?;
    Ok(match name {
        "publish" => Some(Edit::Publish(Mapping::read(members)?)),
        "replace" => Some(Edit::Replace(Mapping::read(members)?)),
        "withdraw" => {
            let (identity, moment) = read_withdrawal(members)?;
            Some(Edit::Withdraw(identity, moment))
        }
        _ => None,
    })
}

/// Makes the edits of a commit in the book, and gives the edition.
pub fn publish(book: &mut Book, changes: Vec<Change>) -> u64 {
    changes.into_iter().for_each(|change| book.apply(change));
    book.edition
}
