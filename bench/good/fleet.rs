//! An operator's vehicles as columns, words as bits, and which rule each vehicle meets first.

use std::collections::HashMap;
use std::hash::{BuildHasherDefault, Hasher};

use crate::places::{Bounds, Geography, Position};
use crate::policies::{Kind, Rule};
use crate::reading::{Id, is_token};
use crate::reports::Report;

/// A hash of an identifier, whose bits are mostly random.
#[derive(Default)]
pub struct Folded(u64);

impl Hasher for Folded {
    fn write(&mut self, bytes: &[u8]) {
        for byte in bytes {
            self.write_u128(u128::from(*byte));
        }
    }

    fn write_u128(&mut self, value: u128) {
        let folded = (self.0 ^ value as u64 ^ (value >> 64) as u64).wrapping_mul(0x9E37_79B9_7F4A_7C15);
        self.0 = folded ^ folded >> 32;
    }

    fn finish(&self) -> u64 {
        self.0
    }
}

pub type IdMap<T> = HashMap<Id, T, BuildHasherDefault<Folded>>;

/// A bit that the events and the propulsion types of each vehicle have, so that what asks for none of them finds it.
const ALWAYS: u64 = 1 << 63;
/// No rule.
const NONE: u8 = 64;

/// Words of a kind by their numbers, of which there are at most 63.
#[derive(Default)]
pub struct Words {
    words: Vec<Box<str>>,
}

impl Words {
    pub fn number(&mut self, word: &str) -> Option<u8> {
        if let Some(number) = self.words.iter().position(|it| **it == *word) {
            return Some(number as u8);
        }
        if self.words.len() == 63 || !is_token(word) {
            return None;
        }
        self.words.push(word.into());
        Some(self.words.len() as u8 - 1)
    }

    /// The bits of words that a rule lists; of none, all bits.
    fn listed(&mut self, words: &[Box<str>]) -> Option<u64> {
        if words.is_empty() {
            return Some(!0);
        }
        words.iter().try_fold(0, |bits, word| Some(bits | 1 << self.number(word)?))
    }
}

/// The words of reports and rules, by kinds.
#[derive(Default)]
pub struct AllWords {
    pub types: Words,
    pub states: Words,
    pub events: Words,
    pub propulsion: Words,
}

/// What a rule asks of a vehicle, as bits.
struct Test {
    types: u64,
    propulsion: u64,
    /// The events that it asks for in each state; none where it isn't for the state.
    states: Box<[u64; 64]>,
    /// The places of its geographies.
    geographies: Vec<usize>,
}

/// The rules of a published policy as tests, with the bounds of each rule's geographies.
pub struct Tests {
    bounds: Vec<Bounds>,
    tests: Vec<Test>,
}

impl Tests {
    /// The tests of a policy's rules, where the place of a geography and its bounds are told.
    pub fn new(
        rules: &[Rule],
        words: &mut AllWords,
        place: impl Fn(&Id) -> Option<usize>,
        bounds: impl Fn(usize) -> Bounds,
    ) -> Option<Tests> {
        let mut found = Tests { bounds: Vec::new(), tests: Vec::new() };
        for rule in rules {
            let geographies: Vec<usize> = rule.geographies.iter().filter_map(&place).collect();
            let around = geographies.iter().fold(Bounds::NOWHERE, |all, place| all.and(&bounds(*place)));
            found.bounds.push(if rule.kind == Kind::Other { Bounds::NOWHERE } else { around });
            let mut states = Box::new([if rule.states.is_empty() { !0 } else { 0 }; 64]);
            for (state, events) in &rule.states {
                states[words.states.number(state)? as usize] = words.events.listed(events)?;
            }
            found.tests.push(Test {
                types: words.types.listed(&rule.vehicle_types)?,
                propulsion: words.propulsion.listed(&rule.propulsion_types)?,
                states,
                geographies,
            });
        }
        Some(found)
    }
}

/// A list of words as it stands: up to eight numbers in the bytes of one, a longer list by its place.
#[derive(Default)]
struct Lists {
    long: Vec<Vec<u8>>,
}

impl Lists {
    fn packed(&mut self, list: Vec<u8>) -> u64 {
        if list.len() <= 8 {
            return list.iter().fold(0, |packed, number| packed << 8 | u64::from(number + 1));
        }
        let found = self.long.iter().position(|it| *it == list);
        let place = found.unwrap_or_else(|| {
            self.long.push(list);
            self.long.len() - 1
        });
        1 << 63 | place as u64
    }
}

/// Masks of the rules that each vehicle meets, whatever the time, of one policy; renewed up to a place of what changed.
struct Kept {
    masks: Vec<u64>,
    renewed: usize,
}

#[derive(Default)]
pub struct Fleet {
    rows: IdMap<u32>,
    devices: Vec<Id>,
    positions: Vec<Position>,
    types: Vec<u8>,
    states: Vec<u8>,
    events: Vec<u64>,
    propulsion: Vec<u64>,
    lists: Vec<(u64, u64)>,
    timestamps: Vec<u64>,
    sinces: Vec<u64>,
    long: Lists,
    kept: HashMap<usize, Kept>,
    /// The rows that changed, where memberships are kept.
    changed: Vec<u32>,
}

fn bits(list: &[u8]) -> u64 {
    list.iter().fold(ALWAYS, |bits, number| bits | 1 << number)
}

impl Fleet {
    pub fn take(&mut self, report: Report<u8>, at: u64) -> Option<&'static str> {
        if report.timestamp > at {
            return None;
        }
        let next = self.devices.len() as u32;
        let row = *self.rows.entry(report.device).or_insert(next);
        if row != next {
            return self.change(row as usize, report);
        }
        self.devices.push(report.device);
        self.positions.push(report.position);
        self.types.push(report.vehicle_type);
        self.states.push(report.state);
        self.events.push(bits(&report.events));
        self.propulsion.push(bits(&report.propulsion));
        self.lists.push((self.long.packed(report.propulsion), self.long.packed(report.events)));
        self.timestamps.push(report.timestamp);
        self.sinces.push(report.timestamp);
        self.note(row);
        Some("new")
    }

    fn change(&mut self, row: usize, report: Report<u8>) -> Option<&'static str> {
        if report.timestamp < self.timestamps[row] {
            return None;
        }
        let (events, propulsion) = (bits(&report.events), bits(&report.propulsion));
        let lists = (self.long.packed(report.propulsion), self.long.packed(report.events));
        let same = (report.timestamp, report.vehicle_type, report.state) == (self.timestamps[row], self.types[row], self.states[row])
            && (lists, report.position) == (self.lists[row], self.positions[row]);
        if same {
            return Some("same");
        }
        if report.state != self.states[row] {
            self.sinces[row] = report.timestamp;
        }
        self.positions[row] = report.position;
        self.types[row] = report.vehicle_type;
        self.states[row] = report.state;
        (self.events[row], self.propulsion[row], self.lists[row]) = (events, propulsion, lists);
        self.timestamps[row] = report.timestamp;
        self.note(row as u32);
        Some("changed")
    }

    /// Notes that a row changed. Where more did than there are rows, nothing is kept.
    fn note(&mut self, row: u32) {
        if self.kept.is_empty() {
            return;
        }
        self.changed.push(row);
        if self.changed.len() > self.devices.len() {
            self.kept.clear();
            self.changed.clear();
        }
    }

    pub fn device(&self, row: usize) -> Id {
        self.devices[row]
    }

    pub fn since(&self, row: usize) -> u64 {
        self.sinces[row]
    }

    /// Whether a row is as a rule asks, and at one of its places.
    #[inline]
    fn meets(&self, test: &Test, row: usize, geographies: &[&Geography]) -> bool {
        let fits = (test.types >> self.types[row] & 1 != 0)
            & (test.states[self.states[row] as usize & 63] & self.events[row] != 0)
            & (test.propulsion & self.propulsion[row] != 0);
        fits && test.geographies.iter().any(|place| geographies[*place].holds(self.positions[row]))
    }

    /// The first open rule that each row meets, or `NONE`.
    pub fn firsts(&self, tests: &Tests, open: u64, geographies: &[&Geography]) -> Vec<u8> {
        let is_open = |i: usize| open >> i & 1 != 0;
        let bounds: Vec<Bounds> = tests.bounds.iter().enumerate().map(|(i, it)| if is_open(i) { *it } else { Bounds::NOWHERE }).collect();
        let first = |row: usize| {
            let at = self.positions[row];
            let found = bounds.iter().zip(&tests.tests).position(|(it, test)| it.has(at) && self.meets(test, row, geographies));
            found.map_or(NONE, |i| i as u8)
        };
        (0..self.devices.len()).map(first).collect()
    }

    /// The same by the masks of this policy, which are kept. Those of rows that changed are renewed.
    pub fn kept_firsts(&mut self, policy: usize, tests: &Tests, open: u64, geographies: &[&Geography]) -> Vec<u8> {
        let rows = self.devices.len();
        let is_new = !self.kept.contains_key(&policy);
        let mut kept = self.kept.remove(&policy).unwrap_or(Kept { masks: Vec::new(), renewed: 0 });
        kept.masks.resize(rows, 0);
        if is_new {
            (0..rows).for_each(|row| kept.masks[row] = self.mask(tests, row, geographies));
        } else {
            let changed = &self.changed[kept.renewed..];
            changed.iter().for_each(|row| kept.masks[*row as usize] = self.mask(tests, *row as usize, geographies));
        }
        kept.renewed = self.changed.len();
        let firsts = kept.masks.iter().map(|mask| (mask & open).trailing_zeros() as u8).collect();
        self.kept.insert(policy, kept);
        firsts
    }

    fn mask(&self, tests: &Tests, row: usize, geographies: &[&Geography]) -> u64 {
        let at = self.positions[row];
        let meets = |(bounds, test): (&Bounds, &Test)| bounds.has(at) && self.meets(test, row, geographies);
        let met = tests.bounds.iter().zip(&tests.tests).map(meets);
        met.enumerate().fold(0, |mask, (i, met)| mask | u64::from(met) << i)
    }
}
