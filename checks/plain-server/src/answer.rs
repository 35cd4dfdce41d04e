//! Answers requests.

use crate::book::{Book, Found, Place};
use crate::civic::{write_names, Address, Element, Elements};
use crate::mapping::{write_service, Shown};
use crate::moment::Moment;
use crate::request::{Asked, Find, Location, LocationFault, Request};
use crate::texts::{write_list, write_number, write_text};
use crate::tree::Tree;
use std::collections::BTreeSet;

/// The reply to a line that is no request.
pub const BAD_REQUEST: &[u8] = b"{\"errors\":{\"error\":\"badRequest\"}}\n";

/// Where an answer comes from: the mappings, the server's name and the moment.
#[derive(Clone, Copy)]
pub struct Answerer<'a> {
    pub book: &'a Book,
    pub name: &'a str,
    pub moment: Moment,
}

/// The name of the error that is the reply.
struct Error(&'static str);

impl From<LocationFault> for Error {
    fn from(fault: LocationFault) -> Error {
        Error(fault.name())
    }
}

impl Answerer<'_> {
    /// Writes the reply to the one member of a line.
    pub fn answer(self, name: &str, value: &Tree, out: &mut Vec<u8>) {
        let Some(request) = Request::read(name, value) else {
            out.extend_from_slice(BAD_REQUEST);
            return;
        };
        if let Err(Error(error)) = self.reply(&request, out) {
            out.extend_from_slice(b"{\"errors\":{\"edition\":");
            write_number(out, self.book.edition);
            out.extend_from_slice(b",\"error\":\"");
            out.extend_from_slice(error.as_bytes());
            out.extend_from_slice(b"\"}}\n");
        }
    }

    /// Writes the reply to a request, or nothing where it is an error.
    fn reply(self, request: &Request, out: &mut Vec<u8>) -> Result<(), Error> {
        if request
            .path
            .iter()
            .any(|passed| passed.eq_ignore_ascii_case(self.name))
        {
            return Err(Error("loop"));
        }
        let path = request.path.as_slice();
        match &request.asked {
            Asked::Find(find) => self.find(find, path, out),
            Asked::ServicesAt { service, location } => {
                self.services_at(
                    service.as_deref(),
                    location.as_ref().map_err(|fault| *fault)?,
                    path,
                    out,
                );
                Ok(())
            }
            Asked::Services { service } => {
                self.begin(out, "listServicesResponse");
                self.write_path(out, path);
                write_services(out, &self.book.services(service.as_deref(), self.moment));
                Ok(())
            }
            Asked::Boundary { key } => self.boundary(key, path, out),
        }
    }

    /// Writes the begin of a reply, up to the edition.
    fn begin(self, out: &mut Vec<u8>, name: &str) {
        out.extend_from_slice(b"{\"");
        out.extend_from_slice(name.as_bytes());
        out.extend_from_slice(b"\":{\"edition\":");
        write_number(out, self.book.edition);
    }

    /// Writes the path of a request and this server behind it.
    fn write_path(self, out: &mut Vec<u8>, path: &[&str]) {
        out.extend_from_slice(b",\"path\":");
        write_names(out, path.iter().copied().chain([self.name]));
    }

    fn boundary(self, key: &str, path: &[&str], out: &mut Vec<u8>) -> Result<(), Error> {
        let mapping = self
            .book
            .by_key(key, self.moment)
            .ok_or(Error("notFound"))?;
        self.begin(out, "getServiceBoundaryResponse");
        self.write_path(out, path);
        out.extend_from_slice(b",\"serviceBoundary\":");
        mapping.regions.write(out);
        out.extend_from_slice(b"}}\n");
        Ok(())
    }

    fn services_at(
        self,
        service: Option<&str>,
        location: &Location,
        path: &[&str],
        out: &mut Vec<u8>,
    ) {
        let services = self.book.services_at(service, &location.place, self.moment);
        self.begin(out, "listServicesByLocationResponse");
        write_location_used(out, location);
        self.write_path(out, path);
        write_services(out, &services);
    }

    fn find(self, find: &Find, path: &[&str], out: &mut Vec<u8>) -> Result<(), Error> {
        let location = find.location.as_ref().map_err(|fault| *fault)?;
        let found = self.book.find(&find.service, &location.place, self.moment);
        let found = found.ok_or_else(|| self.not_found(&find.service))?;
        self.begin(out, "findServiceResponse");
        write_location_used(out, location);
        if let (true, Place::Address(address)) =
            (find.is_validated && !found.are_defaults, &location.place)
        {
            self.write_validation(out, &found, address);
        }
        out.extend_from_slice(b",\"mapping\":");
        let shown = shown(find, &location.place);
        write_list(out, &found.mappings, |out, mapping| {
            mapping.write(out, shown)
        });
        self.write_path(out, path);
        write_warnings(out, find, &location.place, &found);
        out.extend_from_slice(b"}}\n");
        Ok(())
    }

    /// The error where nothing was found for a service.
    fn not_found(self, service: &str) -> Error {
        let is_implemented = self.book.is_implemented(service, self.moment);
        Error(if is_implemented {
            "notFound"
        } else {
            "serviceNotImplemented"
        })
    }

    /// Writes which names of an address are valid, which are not, and which were not checked.
    fn write_validation(self, out: &mut Vec<u8>, found: &Found, address: &Address) {
        let patterns = found
            .mappings
            .iter()
            .flat_map(|mapping| &mapping.regions.patterns);
        let matching = patterns.filter(|pattern| {
            address
                .values
                .agree(pattern.values.elements(), &pattern.values)
        });
        let valid = matching.fold(Elements::default(), |valid, pattern| {
            valid.with(pattern.values.elements())
        });
        let references = self
            .book
            .agreeing(found.service, address, valid, self.moment);
        let is_invalid = |element: &Element| {
            let named = || {
                references
                    .iter()
                    .filter_map(|pattern| pattern.values.get(*element))
            };
            !valid.has(*element)
                && named().next().is_some()
                && named().all(|value| Some(value) != address.values.get(*element))
        };
        let others = || {
            address
                .values
                .elements()
                .iter()
                .filter(|element| !valid.has(*element))
        };
        out.extend_from_slice(b",\"locationValidation\":{\"invalid\":");
        write_names(out, others().filter(is_invalid).map(Element::name));
        out.extend_from_slice(b",\"unchecked\":");
        let unchecked = others()
            .filter(|element| !is_invalid(element))
            .map(|element| -> &str { element.name() });
        write_names(out, unchecked.chain(address.unknown.iter().copied()));
        out.extend_from_slice(b",\"valid\":");
        write_names(out, valid.iter().map(Element::name));
        out.push(b'}');
    }
}

/// How a reply shows boundaries.
fn shown(find: &Find, place: &Place) -> Shown {
    match place {
        _ if !find.by_value => Shown::ByReference,
        Place::Point(_) => Shown::Rings,
        Place::Address(_) => Shown::Patterns,
        Place::Token(_) => Shown::TokenSets,
    }
}

fn write_location_used(out: &mut Vec<u8>, location: &Location) {
    out.extend_from_slice(b",\"locationUsed\":");
    write_text(out, location.id);
}

/// Writes the list of services, and the end of a reply.
fn write_services(out: &mut Vec<u8>, services: &BTreeSet<&str>) {
    out.extend_from_slice(b",\"serviceList\":");
    write_list(out, services, |out, service| write_service(out, service));
    out.extend_from_slice(b"}}\n");
}

/// Writes the member of warnings, where there is one.
fn write_warnings(out: &mut Vec<u8>, find: &Find, place: &Place, found: &Found) {
    let is_unvalidated =
        found.are_defaults && find.is_validated && matches!(place, Place::Address(_));
    let warnings = [
        (found.service != find.service, "serviceSubstitution"),
        (found.are_defaults, "defaultMappingReturned"),
        (is_unvalidated, "locationValidationUnavailable"),
    ];
    if warnings.iter().any(|(is_there, _)| *is_there) {
        out.extend_from_slice(b",\"warnings\":");
        let there = warnings.iter().filter(|(is_there, _)| *is_there);
        write_names(out, there.map(|(_, warning)| *warning));
    }
}
