//! Points, and the rings of boundaries.

use crate::texts::{write_list, write_number};

const GREATEST_LATITUDE: i64 = 900_000_000;
const GREATEST_LONGITUDE: i64 = 1_800_000_000;

/// A latitude and a longitude in 1e-7 degrees.
#[derive(Clone, Copy, PartialEq, Eq, Debug)]
pub struct Point {
    pub latitude: i32,
    pub longitude: i32,
}

impl Point {
    /// The point of two numbers that are in range.
    pub fn new((latitude, longitude): (i64, i64)) -> Option<Point> {
        let is_in_range = (-GREATEST_LATITUDE..=GREATEST_LATITUDE).contains(&latitude)
            && (-GREATEST_LONGITUDE..=GREATEST_LONGITUDE).contains(&longitude);
        is_in_range.then_some(Point {
            latitude: latitude as i32,
            longitude: longitude as i32,
        })
    }

    /// The point that is asked for in its place: no ring holds the northern pole and the 180th meridian.
    pub fn normal(self) -> Point {
        let is_pole = i64::from(self.latitude) == GREATEST_LATITUDE;
        let is_meridian = i64::from(self.longitude) == GREATEST_LONGITUDE;
        Point {
            latitude: self.latitude - i32::from(is_pole),
            longitude: if is_meridian {
                -self.longitude
            } else {
                self.longitude
            },
        }
    }
}

/// The least latitude and longitude of a ring and the greatest ones.
#[derive(Clone, Copy)]
pub struct Bounds {
    pub least: Point,
    pub greatest: Point,
}

impl Bounds {
    /// Whether a point is within them.
    pub fn hold(&self, point: Point) -> bool {
        self.least.latitude <= point.latitude
            && point.latitude <= self.greatest.latitude
            && self.least.longitude <= point.longitude
            && point.longitude <= self.greatest.longitude
    }
}

/// A ring of 4 to 4,096 positions, the last equal to the first.
#[derive(PartialEq, Eq)]
pub struct Ring(Box<[Point]>);

impl Ring {
    /// The ring of positions.
    pub fn new(positions: Vec<Point>) -> Option<Ring> {
        let is_ring =
            (4..=4_096).contains(&positions.len()) && positions.first() == positions.last();
        is_ring.then(|| Ring(positions.into_boxed_slice()))
    }

    /// Its bounds.
    pub fn bounds(&self) -> Bounds {
        let mut bounds = Bounds {
            least: self.0[0],
            greatest: self.0[0],
        };
        for point in self.0.iter() {
            bounds.least.latitude = bounds.least.latitude.min(point.latitude);
            bounds.least.longitude = bounds.least.longitude.min(point.longitude);
            bounds.greatest.latitude = bounds.greatest.latitude.max(point.latitude);
            bounds.greatest.longitude = bounds.greatest.longitude.max(point.longitude);
        }
        bounds
    }

    /// Whether a point is inside, by the even-odd rule: an odd number of edges lie to its right.
    pub fn holds(&self, point: Point) -> bool {
        let mut is_inside = false;
        for edge in self.0.windows(2) {
            let (from, to) = (edge[0], edge[1]);
            if (from.latitude <= point.latitude) != (to.latitude <= point.latitude) {
                is_inside ^= is_left(from, to, point);
            }
        }
        is_inside
    }

    /// Writes its positions as JSON.
    pub fn write(&self, out: &mut Vec<u8>) {
        write_list(out, self.0.iter(), |out, point| {
            out.push(b'[');
            write_number(out, point.latitude);
            out.push(b',');
            write_number(out, point.longitude);
            out.push(b']');
        });
    }
}

/// Whether a point lies to the left of an edge, and not on it.
fn is_left(from: Point, to: Point, point: Point) -> bool {
    let (low, high) = if from.latitude <= to.latitude {
        (from, to)
    } else {
        (to, from)
    };
    let east = i64::from(point.longitude) - i64::from(low.longitude);
    let north = i64::from(point.latitude) - i64::from(low.latitude);
    let width = i64::from(high.longitude) - i64::from(low.longitude);
    let height = i64::from(high.latitude) - i64::from(low.latitude);
    east * height < width * north
}
