//! Reads requests.

use crate::book::Place;
use crate::civic::Address;
use crate::mapping::{optional, required};
use crate::ring::Point;
use crate::texts::{is_identifier, service_labels};
use crate::tree::{Members, Tree};
use std::borrow::Cow;

/// A request.
pub struct Request<'a> {
    /// The servers that it has passed through.
    pub path: Vec<&'a str>,
    pub asked: Asked<'a>,
}

/// What is asked for.
pub enum Asked<'a> {
    Find(Find<'a>),
    ServicesAt {
        service: Option<Cow<'a, str>>,
        location: Result<Location<'a>, LocationFault>,
    },
    Services {
        service: Option<Cow<'a, str>>,
    },
    Boundary {
        key: &'a str,
    },
}

/// A request for the mappings of a service at a location.
pub struct Find<'a> {
    pub service: Cow<'a, str>,
    pub location: Result<Location<'a>, LocationFault>,
    pub by_value: bool,
    pub is_validated: bool,
}

/// The location used.
pub struct Location<'a> {
    pub id: &'a str,
    pub place: Place<'a>,
}

/// Why no location can be used, by its name in the reply.
#[derive(Clone, Copy, Debug)]
pub enum LocationFault {
    LocationProfileUnrecognized,
    SrsInvalid,
    LocationInvalid,
}

impl LocationFault {
    /// Its name.
    pub fn name(self) -> &'static str {
        match self {
            LocationFault::LocationProfileUnrecognized => "locationProfileUnrecognized",
            LocationFault::SrsInvalid => "SRSInvalid",
            LocationFault::LocationInvalid => "locationInvalid",
        }
    }
}

impl<'a> Request<'a> {
    /// The request of the one member of a line; nothing where it is none.
    pub fn read(name: &str, value: &'a Tree<'a>) -> Option<Request<'a>> {
        let members = value.members()?;
        let asked = match name {
            "findService" => Asked::Find(read_find(members)?),
            "listServicesByLocation" => Asked::ServicesAt {
                service: read_service(members)?,
                location: read_location(members)?,
            },
            "listServices" => Asked::Services {
                service: read_service(members)?,
            },
            "getServiceBoundary" => Asked::Boundary {
                key: required(members, "key", Tree::text).ok()?,
            },
            _ => return None,
        };
        let path = optional(members, "path", Tree::texts)
            .ok()?
            .unwrap_or_default();
        (path.len() <= 32).then_some(Request { path, asked })
    }
}

fn read_find<'a>(members: &'a Members<'a>) -> Option<Find<'a>> {
    Some(Find {
        service: read_service(members)??,
        location: read_location(members)?,
        by_value: match optional(members, "serviceBoundary", Tree::text).ok()? {
            None | Some("reference") => false,
            Some("value") => true,
            Some(_) => return None,
        },
        is_validated: optional(members, "validateLocation", Tree::truth)
            .ok()?
            .unwrap_or(false),
    })
}

/// The labels of the service, where there is one; nothing where it is no service.
fn read_service<'a>(members: &'a Members<'a>) -> Option<Option<Cow<'a, str>>> {
    let of_kind = |value: &'a Tree<'a>| service_labels(value.text()?);
    optional(members, "service", of_kind).ok()
}

/// The location used: the first one of a profile that is known; nothing where the list makes the line no request.
fn read_location<'a>(members: &'a Members<'a>) -> Option<Result<Location<'a>, LocationFault>> {
    let items = members.get("location")?.items()?;
    if !(1..=8).contains(&items.len()) {
        return None;
    }
    let mut profiles = Vec::with_capacity(items.len());
    let mut used = None;
    for item in items {
        let (item, id, profile) = read_head(item)?;
        if profiles.contains(&profile) {
            return None;
        }
        profiles.push(profile);
        if used.is_none() {
            used = read_place(profile, item).map(|place| Ok(Location { id, place: place? }));
        }
    }
    Some(used.unwrap_or(Err(LocationFault::LocationProfileUnrecognized)))
}

/// The members of a location, its id and its profile.
fn read_head<'a>(item: &'a Tree<'a>) -> Option<(&'a Members<'a>, &'a str, &'a str)> {
    let item = item.members()?;
    Some((item, item.get("id")?.text()?, item.get("profile")?.text()?))
}

/// The place of a location; nothing where its profile is not known.
fn read_place<'a>(
    profile: &str,
    item: &'a Members<'a>,
) -> Option<Result<Place<'a>, LocationFault>> {
    match profile {
        "geodetic-2d" => Some(read_point(item)),
        "civic" => Some(read_address(item).ok_or(LocationFault::LocationInvalid)),
        "x-token" => Some(read_token(item).ok_or(LocationFault::LocationInvalid)),
        _ => None,
    }
}

fn read_point<'a>(item: &'a Members<'a>) -> Result<Place<'a>, LocationFault> {
    let system = optional(item, "srsName", Tree::text);
    if !matches!(system, Ok(None | Some("urn:ogc:def:crs:EPSG::4326"))) {
        return Err(LocationFault::SrsInvalid);
    }
    let point = item
        .get("pos")
        .and_then(Tree::position)
        .and_then(Point::new);
    let point = point.ok_or(LocationFault::LocationInvalid)?;
    Ok(Place::Point(point.normal()))
}

fn read_address<'a>(item: &'a Members<'a>) -> Option<Place<'a>> {
    let pairs = item.get("address")?.text_pairs()?;
    Address::new(&pairs).map(Place::Address)
}

fn read_token<'a>(item: &'a Members<'a>) -> Option<Place<'a>> {
    let token = item.get("token")?.text()?;
    is_identifier(token).then_some(Place::Token(token))
}
