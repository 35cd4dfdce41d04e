//! The rings of a service, by the cells of a grid that their bounds meet.

use crate::ring::{Bounds, Point, Ring};
use ahash::AHashMap;
use std::ops::RangeInclusive;
use std::sync::Arc;

/// The cells of level 0 have sides of `2^12` units of 1e-7 degrees, those of each further level four times as long ones.
const LEVELS: usize = 10;
const LEAST_BITS: u32 = 12;

/// A ring lies at the least level at which its bounds meet at most so many cells.
const MOST_CELLS: i64 = 16;

/// Where a ring lies: the level, the rows and the columns of its bounds.
struct Cover {
    level: usize,
    rows: RangeInclusive<i32>,
    columns: RangeInclusive<i32>,
}

/// A ring in a cell.
struct Entry {
    bounds: Bounds,
    slot: u32,
    ring: Arc<Ring>,
}

/// The rings of a service.
#[derive(Default)]
pub struct Grid {
    levels: [AHashMap<(i32, i32), Vec<Entry>>; LEVELS],
}

/// The row of a latitude, or the column of a longitude.
fn line(level: usize, degrees: i32) -> i32 {
    degrees >> (LEAST_BITS + 2 * level as u32)
}

impl Cover {
    fn at(level: usize, bounds: &Bounds) -> Cover {
        Cover {
            level,
            rows: line(level, bounds.least.latitude)..=line(level, bounds.greatest.latitude),
            columns: line(level, bounds.least.longitude)..=line(level, bounds.greatest.longitude),
        }
    }

    fn of(bounds: &Bounds) -> Cover {
        let length = |lines: &RangeInclusive<i32>| i64::from(lines.end() - lines.start() + 1);
        (0..LEVELS)
            .map(|level| Cover::at(level, bounds))
            .find(|cover| length(&cover.rows) * length(&cover.columns) <= MOST_CELLS)
            .unwrap_or_else(|| Cover::at(LEVELS - 1, bounds))
    }

    fn cells(&self) -> impl Iterator<Item = (i32, i32)> + '_ {
        self.rows
            .clone()
            .flat_map(|row| self.columns.clone().map(move |column| (row, column)))
    }
}

impl Grid {
    /// Adds the rings of a mapping.
    pub fn insert(&mut self, slot: u32, rings: &[Arc<Ring>]) {
        for ring in rings {
            let bounds = ring.bounds();
            let cover = Cover::of(&bounds);
            for cell in cover.cells() {
                let ring = Arc::clone(ring);
                self.levels[cover.level]
                    .entry(cell)
                    .or_default()
                    .push(Entry { bounds, slot, ring });
            }
        }
    }

    /// Takes away the rings of a mapping.
    pub fn remove(&mut self, slot: u32, rings: &[Arc<Ring>]) {
        for ring in rings {
            let cover = Cover::of(&ring.bounds());
            for cell in cover.cells() {
                if let Some(entries) = self.levels[cover.level].get_mut(&cell) {
                    entries.retain(|entry| entry.slot != slot);
                    if entries.is_empty() {
                        self.levels[cover.level].remove(&cell);
                    }
                }
            }
        }
    }

    /// The slots of the mappings that hold a point, each as often as it has rings that do.
    pub fn holders(&self, point: Point) -> impl Iterator<Item = u32> + '_ {
        let cell_of = move |level| (line(level, point.latitude), line(level, point.longitude));
        let cells = self
            .levels
            .iter()
            .enumerate()
            .filter_map(move |(level, cells)| cells.get(&cell_of(level)));
        let near = cells
            .flatten()
            .filter(move |entry| entry.bounds.hold(point));
        near.filter(move |entry| entry.ring.holds(point))
            .map(|entry| entry.slot)
    }
}
