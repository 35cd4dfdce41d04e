//! A mapping: what a desk publishes.

use crate::civic::Pattern;
use crate::moment::Moment;
use crate::refusal::{unless, Refusal};
use crate::ring::{Point, Ring};
use crate::texts::{
    are_uris, is_identifier, is_service_number, service_labels, source, write_list, write_text,
    SERVICE_PREFIX,
};
use crate::tokens::TokenSet;
use crate::tree::{Members, Tree};
use std::borrow::Cow;
use std::sync::Arc;

/// A mapping that was not refused.
pub struct Mapping {
    /// Its source and its sourceId, with a space between them.
    pub identity: Box<str>,
    pub updated: Moment,
    /// When it stops being live; nothing where it never does.
    pub expires: Option<Moment>,
    /// The labels of its service.
    pub service: Box<str>,
    /// Its key; a default has none.
    pub key: Option<Box<str>>,
    pub regions: Regions,
    text: Text,
}

/// The regions of a mapping, each kind in the order given.
#[derive(PartialEq, Default)]
pub struct Regions {
    pub rings: Vec<Arc<Ring>>,
    pub patterns: Vec<Arc<Pattern>>,
    pub token_sets: Vec<TokenSet>,
}

/// The parts of a mapping that are the same in each reply, as JSON.
struct Text {
    /// The members before the boundary.
    before: Box<[u8]>,
    /// The boundary by reference.
    reference: Box<[u8]>,
    /// The members after the boundary.
    after: Box<[u8]>,
}

/// How a reply shows the boundary.
#[derive(Clone, Copy)]
pub enum Shown {
    ByReference,
    Rings,
    Patterns,
    TokenSets,
}

impl Mapping {
    /// The mapping of a desk line, or the first reason to refuse it.
    pub fn read(members: &Members) -> Result<Mapping, Refusal> {
        Parts::read(members)?.build()
    }

    /// Whether it is a default.
    pub fn is_default(&self) -> bool {
        self.key.is_none()
    }

    /// Whether it is live at a moment.
    pub fn is_live(&self, moment: Moment) -> bool {
        self.expires.is_none_or(|end| moment < end)
    }

    /// Whether it has the same regions as another.
    pub fn has_regions_of(&self, other: &Mapping) -> bool {
        self.regions == other.regions
    }

    /// Writes it as JSON.
    pub fn write(&self, out: &mut Vec<u8>, shown: Shown) {
        out.extend_from_slice(&self.text.before);
        match shown {
            _ if self.is_default() => (),
            Shown::ByReference => out.extend_from_slice(&self.text.reference),
            _ => self.write_boundary(out, shown),
        }
        out.extend_from_slice(&self.text.after);
    }

    /// Writes the member of a boundary by value.
    fn write_boundary(&self, out: &mut Vec<u8>, shown: Shown) {
        out.extend_from_slice(b",\"serviceBoundary\":");
        let regions = &self.regions;
        match shown {
            Shown::ByReference => (),
            Shown::Rings => write_regions(out, regions.rings()),
            Shown::Patterns => write_regions(out, regions.patterns()),
            Shown::TokenSets => write_regions(out, regions.token_sets()),
        }
    }
}

impl Regions {
    /// Whether there are no more of each kind than a mapping may have.
    fn are_few(&self) -> bool {
        self.rings.len() <= 64 && self.patterns.len() <= 256 && self.token_sets.len() <= 64
    }

    fn rings(&self) -> impl Iterator<Item = Shape<'_>> {
        self.rings.iter().map(|ring| Region::Ring(ring.as_ref()))
    }

    fn patterns(&self) -> impl Iterator<Item = Shape<'_>> {
        self.patterns
            .iter()
            .map(|pattern| Region::Pattern(pattern.as_ref()))
    }

    fn token_sets(&self) -> impl Iterator<Item = Shape<'_>> {
        self.token_sets.iter().map(Region::TokenSet)
    }

    /// Writes the list of all, kind by kind.
    pub fn write(&self, out: &mut Vec<u8>) {
        write_regions(
            out,
            self.rings().chain(self.patterns()).chain(self.token_sets()),
        );
    }
}

/// Writes a list of regions.
fn write_regions<'a>(out: &mut Vec<u8>, regions: impl Iterator<Item = Shape<'a>>) {
    write_list(out, regions, |out, region| match region {
        Region::Ring(ring) => {
            out.extend_from_slice(b"{\"polygon\":");
            ring.write(out);
            out.extend_from_slice(b",\"profile\":\"geodetic-2d\"}");
        }
        Region::Pattern(pattern) => {
            out.extend_from_slice(b"{\"pattern\":");
            pattern.write(out);
            out.extend_from_slice(b",\"profile\":\"civic\"}");
        }
        Region::TokenSet(tokens) => {
            out.extend_from_slice(b"{\"profile\":\"x-token\",\"tokens\":");
            tokens.write(out);
            out.push(b'}');
        }
    });
}

/// A ring, a pattern or a token set.
enum Region<R, P, T> {
    Ring(R),
    Pattern(P),
    TokenSet(T),
}

/// A region of a mapping.
type Shape<'a> = Region<&'a Ring, &'a Pattern, &'a TokenSet>;

/// The region of an item of a boundary.
fn read_region(item: &Tree) -> Option<Region<Ring, Pattern, TokenSet>> {
    let item = item.members()?;
    match item.get("profile")?.text()? {
        "geodetic-2d" => {
            let items = item.get("polygon")?.items()?;
            let positions = items
                .iter()
                .map(|item| Point::new(item.position()?))
                .collect::<Option<Vec<_>>>()?;
            Ring::new(positions).map(Region::Ring)
        }
        "civic" => Pattern::new(&item.get("pattern")?.text_pairs()?).map(Region::Pattern),
        "x-token" => TokenSet::new(&item.get("tokens")?.texts()?).map(Region::TokenSet),
        _ => None,
    }
}

/// The members of a mapping, each of its kind.
struct Parts<'a> {
    source: &'a str,
    source_id: &'a str,
    updated: &'a str,
    expires: &'a str,
    service: &'a str,
    uris: Vec<&'a str>,
    number: Option<&'a str>,
    boundary: &'a [Tree<'a>],
    is_default: bool,
    names: Vec<(&'a str, &'a str)>,
    key: Option<&'a str>,
}

/// A member of a kind, which may be absent.
pub fn optional<'a, T>(
    members: &'a Members<'a>,
    name: &str,
    of_kind: impl FnOnce(&'a Tree<'a>) -> Option<T>,
) -> Result<Option<T>, Refusal> {
    match members.get(name) {
        None => Ok(None),
        Some(value) => of_kind(value).map(Some).ok_or(Refusal::BadLine),
    }
}

/// A member of a kind, which must be there.
pub fn required<'a, T>(
    members: &'a Members<'a>,
    name: &str,
    of_kind: impl FnOnce(&'a Tree<'a>) -> Option<T>,
) -> Result<T, Refusal> {
    optional(members, name, of_kind)?.ok_or(Refusal::BadLine)
}

/// The languages and texts of display names.
fn display_names<'a>(value: &'a Tree<'a>) -> Option<Vec<(&'a str, &'a str)>> {
    let read = |item: &'a Tree<'a>| {
        let item = item.members()?;
        Some((item.get("lang")?.text()?, item.get("text")?.text()?))
    };
    value.items()?.iter().map(read).collect()
}

impl<'a> Parts<'a> {
    /// The parts of a line.
    fn read(members: &'a Members<'a>) -> Result<Parts<'a>, Refusal> {
        Ok(Parts {
            source: required(members, "source", Tree::text)?,
            source_id: required(members, "sourceId", Tree::text)?,
            updated: required(members, "lastUpdated", Tree::text)?,
            expires: required(members, "expires", Tree::text)?,
            service: required(members, "service", Tree::text)?,
            uris: required(members, "uri", Tree::texts)?,
            number: optional(members, "serviceNumber", Tree::text)?,
            boundary: optional(members, "serviceBoundary", Tree::items)?.unwrap_or(&[]),
            is_default: optional(members, "default", Tree::truth)?.unwrap_or(false),
            names: optional(members, "displayName", display_names)?.unwrap_or_default(),
            key: optional(members, "key", Tree::text)?,
        })
    }

    /// The mapping, or the first reason to refuse it, by the order of the codes.
    fn build(self) -> Result<Mapping, Refusal> {
        let source = read_source(self.source)?;
        unless(is_identifier(self.source_id), Refusal::BadSourceId)?;
        let updated = read_stamp(self.updated)?;
        let expires = read_expires(self.expires)?;
        let service = service_labels(self.service).ok_or(Refusal::BadService)?;
        unless(are_uris(&self.uris), Refusal::BadUri)?;
        unless(
            self.number.is_none_or(is_service_number),
            Refusal::BadNumber,
        )?;
        let regions = self.read_regions()?;
        unless(
            self.is_default == self.boundary.is_empty(),
            Refusal::RegionMissing,
        )?;
        unless(
            regions.are_few() && self.are_names_small(),
            Refusal::TooLarge,
        )?;
        unless(self.has_key_as_due(), Refusal::BadKey)?;
        Ok(Mapping {
            identity: identity(&source, self.source_id),
            updated,
            expires,
            text: self.text(&source, &service),
            service: service.into(),
            key: self.key.map(Box::from),
            regions,
        })
    }

    fn read_regions(&self) -> Result<Regions, Refusal> {
        let mut regions = Regions::default();
        for item in self.boundary {
            match read_region(item).ok_or(Refusal::BadRegion)? {
                Region::Ring(ring) => regions.rings.push(Arc::new(ring)),
                Region::Pattern(pattern) => regions.patterns.push(Arc::new(pattern)),
                Region::TokenSet(tokens) => regions.token_sets.push(tokens),
            }
        }
        Ok(regions)
    }

    fn are_names_small(&self) -> bool {
        self.names.len() <= 16
            && self
                .names
                .iter()
                .all(|(language, text)| language.len() <= 1_024 && text.len() <= 1_024)
    }

    fn has_key_as_due(&self) -> bool {
        match self.key {
            None => self.is_default,
            Some(key) => !self.is_default && is_identifier(key),
        }
    }

    /// The JSON of the mapping but for its boundary by value.
    fn text(&self, source: &str, service: &str) -> Text {
        let mut reference = Vec::new();
        if let Some(key) = self.key {
            reference.extend_from_slice(b",\"serviceBoundaryReference\":{\"key\":");
            write_text(&mut reference, key);
            write_member(&mut reference, ",\"source\":", source);
            reference.push(b'}');
        }
        Text {
            before: self.text_before(service),
            reference: reference.into_boxed_slice(),
            after: self.text_after(source),
        }
    }

    fn text_before(&self, service: &str) -> Box<[u8]> {
        let mut out = vec![b'{'];
        if !self.names.is_empty() {
            out.extend_from_slice(b"\"displayName\":");
            write_list(&mut out, &self.names, |out, (language, text)| {
                write_member(out, "{\"lang\":", language);
                write_member(out, ",\"text\":", text);
                out.push(b'}');
            });
            out.push(b',');
        }
        write_member(&mut out, "\"expires\":", self.expires);
        write_member(&mut out, ",\"lastUpdated\":", self.updated);
        out.extend_from_slice(b",\"service\":");
        write_service(&mut out, service);
        out.into_boxed_slice()
    }

    fn text_after(&self, source: &str) -> Box<[u8]> {
        let mut out = Vec::new();
        if let Some(number) = self.number {
            write_member(&mut out, ",\"serviceNumber\":", number);
        }
        write_member(&mut out, ",\"source\":", source);
        write_member(&mut out, ",\"sourceId\":", self.source_id);
        out.extend_from_slice(b",\"uri\":");
        write_list(&mut out, self.uris.iter().copied(), write_text);
        out.push(b'}');
        out.into_boxed_slice()
    }
}

/// Writes a member whose value is a text.
fn write_member(out: &mut Vec<u8>, name: &str, text: &str) {
    out.extend_from_slice(name.as_bytes());
    write_text(out, text);
}

/// Writes the URN of a service.
pub fn write_service(out: &mut Vec<u8>, labels: &str) {
    out.push(b'"');
    out.extend_from_slice(SERVICE_PREFIX.as_bytes());
    out.extend_from_slice(labels.as_bytes());
    out.push(b'"');
}

/// A source and a sourceId as one text. No source has a space.
fn identity(source: &str, source_id: &str) -> Box<str> {
    format!("{source} {source_id}").into_boxed_str()
}

fn read_source(text: &str) -> Result<Cow<'_, str>, Refusal> {
    source(text).ok_or(Refusal::BadSource)
}

fn read_stamp(text: &str) -> Result<Moment, Refusal> {
    Moment::of_stamp(text).ok_or(Refusal::BadStamp)
}

fn read_expires(text: &str) -> Result<Option<Moment>, Refusal> {
    match text {
        "NO-CACHE" | "NO-EXPIRATION" => Ok(None),
        stamp => Moment::of_stamp(stamp).map(Some).ok_or(Refusal::BadExpires),
    }
}

/// The identity and the stamp of a withdrawal.
pub fn read_withdrawal(members: &Members) -> Result<(Box<str>, Moment), Refusal> {
    let source = required(members, "source", Tree::text)?;
    let source_id = required(members, "sourceId", Tree::text)?;
    let updated = required(members, "lastUpdated", Tree::text)?;
    let source = read_source(source)?;
    unless(is_identifier(source_id), Refusal::BadSourceId)?;
    let updated = read_stamp(updated)?;
    Ok((identity(&source, source_id), updated))
}
