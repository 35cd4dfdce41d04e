//! The rules of short texts: services, sources, identifiers, URIs, numbers, and how a text is written.

use std::borrow::Cow;

/// What every service begins with.
pub const SERVICE_PREFIX: &str = "urn:service:";

/// Whether it is 1 to 63 letters, digits and hyphens, with no hyphen at either end.
fn is_label(label: &str) -> bool {
    let bytes = label.as_bytes();
    (1..=63).contains(&bytes.len())
        && bytes
            .iter()
            .all(|byte| byte.is_ascii_alphanumeric() || *byte == b'-')
        && bytes[0] != b'-'
        && bytes[bytes.len() - 1] != b'-'
}

/// The text with ASCII letters in lower case.
fn lowered(text: &str) -> Cow<'_, str> {
    if text.bytes().any(|byte| byte.is_ascii_uppercase()) {
        Cow::Owned(text.to_ascii_lowercase())
    } else {
        Cow::Borrowed(text)
    }
}

/// The labels of a service URN in lower case, joined by dots, as `sos.police`.
pub fn service_labels(text: &str) -> Option<Cow<'_, str>> {
    let (prefix, labels) = text.split_at_checked(SERVICE_PREFIX.len())?;
    let is_service = prefix.eq_ignore_ascii_case(SERVICE_PREFIX)
        && labels.split('.').all(is_label)
        && labels.split('.').count() <= 8;
    is_service.then(|| lowered(labels))
}

/// A source, or a server's name, in lower case.
pub fn source(text: &str) -> Option<Cow<'_, str>> {
    let is_source = text.len() <= 253 && text.split('.').all(is_label);
    is_source.then(|| lowered(text))
}

/// Whether it may be a sourceId, a key or a token: 1 to 128 bytes, without control bytes.
pub fn is_identifier(text: &str) -> bool {
    (1..=128).contains(&text.len()) && !text.bytes().any(|byte| byte < 32 || byte == 127)
}

/// The scheme of a URI.
fn scheme(uri: &str) -> Option<&str> {
    let (scheme, rest) = uri.split_once(':')?;
    let is_uri = uri.len() <= 2_048
        && !rest.is_empty()
        && uri.bytes().all(|byte| byte.is_ascii_graphic())
        && scheme.starts_with(|first: char| first.is_ascii_alphabetic())
        && scheme
            .bytes()
            .all(|byte| byte.is_ascii_alphanumeric() || b"+-.".contains(&byte));
    is_uri.then_some(scheme)
}

/// Whether they are 1 to 16 URIs, no two of one scheme.
pub fn are_uris(uris: &[&str]) -> bool {
    if !(1..=16).contains(&uris.len()) {
        return false;
    }
    let Some(schemes) = uris
        .iter()
        .map(|uri| scheme(uri))
        .collect::<Option<Vec<_>>>()
    else {
        return false;
    };
    schemes.iter().enumerate().all(|(place, scheme)| {
        let mut earlier = schemes[..place].iter();
        !earlier.any(|other| other.eq_ignore_ascii_case(scheme))
    })
}

/// Whether it is a number to dial.
pub fn is_service_number(text: &str) -> bool {
    (1..=64).contains(&text.len())
        && text
            .bytes()
            .all(|byte| byte.is_ascii_digit() || b"*#".contains(&byte))
}

/// Writes a text as JSON.
pub fn write_text(out: &mut Vec<u8>, text: &str) {
    let is_plain = text
        .bytes()
        .all(|byte| byte >= 32 && byte != b'"' && byte != b'\\');
    if is_plain {
        out.push(b'"');
        out.extend_from_slice(text.as_bytes());
        out.push(b'"');
    } else {
        serde_json::to_writer(out, text).expect("a list of bytes takes all that is written");
    }
}

/// Writes a list: each item by `write`, with commas between them.
pub fn write_list<T>(
    out: &mut Vec<u8>,
    items: impl IntoIterator<Item = T>,
    mut write: impl FnMut(&mut Vec<u8>, T),
) {
    out.push(b'[');
    for (place, item) in items.into_iter().enumerate() {
        if place > 0 {
            out.push(b',');
        }
        write(out, item);
    }
    out.push(b']');
}

/// Writes a whole number.
pub fn write_number(out: &mut Vec<u8>, number: impl itoa::Integer) {
    out.extend_from_slice(itoa::Buffer::new().format(number).as_bytes());
}
