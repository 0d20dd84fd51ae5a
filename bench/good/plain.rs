//! A plain fleet: a sorted list of vehicles, whose words are texts. An identifier is looked up for each vehicle, and every edge of a
//! polygon is looked at.

use crate::places::Geography;
use crate::policies::Rule;
use crate::reading::Id;
use crate::reports::Report;

struct Vehicle {
    last: Report<Box<str>>,
    since: u64,
}

#[derive(Default)]
pub struct PlainFleet {
    rows: Vec<Vehicle>,
}

impl PlainFleet {
    pub fn take(&mut self, report: Report<Box<str>>, at: u64) -> Option<&'static str> {
        if report.timestamp > at {
            return None;
        }
        match self.rows.binary_search_by_key(&report.device, |row| row.last.device) {
            Ok(place) => self.rows[place].update(report),
            Err(place) => {
                let since = report.timestamp;
                self.rows.insert(place, Vehicle { last: report, since });
                Some("new")
            }
        }
    }

    pub fn device(&self, row: usize) -> Id {
        self.rows[row].last.device
    }

    pub fn since(&self, row: usize) -> u64 {
        self.rows[row].since
    }

    /// The first rule that is open and that each row meets, or 64.
    pub fn firsts<'a>(&self, rules: &[Rule], open: u64, geography: impl Fn(&Id) -> Option<&'a Geography>) -> Vec<u8> {
        let meets = |rule: &Rule, vehicle: &Vehicle| {
            let mut places = rule.geographies.iter().filter_map(&geography);
            rule.fits(&vehicle.last) && places.any(|place| place.holds_by_scan(vehicle.last.position))
        };
        let first = |vehicle: &Vehicle| {
            let found = (0..rules.len()).find(|i| open >> i & 1 != 0 && meets(&rules[*i], vehicle));
            found.map_or(64, |i| i as u8)
        };
        self.rows.iter().map(first).collect()
    }
}

impl Vehicle {
    fn update(&mut self, report: Report<Box<str>>) -> Option<&'static str> {
        if report.timestamp < self.last.timestamp {
            return None;
        }
        if report == self.last {
            return Some("same");
        }
        if report.state != self.last.state {
            self.since = report.timestamp;
        }
        self.last = report;
        Some("changed")
    }
}

impl Rule {
    fn fits(&self, vehicle: &Report<Box<str>>) -> bool {
        let shares = |some: &[Box<str>], others: &[Box<str>]| some.is_empty() || some.iter().any(|word| others.contains(word));
        (self.vehicle_types.is_empty() || self.vehicle_types.contains(&vehicle.vehicle_type))
            && shares(&self.propulsion_types, &vehicle.propulsion)
            && (self.states.is_empty()
                || self.states.iter().any(|(state, events)| *state == vehicle.state && shares(events, &vehicle.events)))
    }
}
