//! Policies and their rules, as they are read.

use std::borrow::Cow;

use crate::reading::{Id, LAST_MOMENT, Members, Reader, Tree, member, print_members};

#[derive(Clone, Copy, PartialEq)]
pub enum Kind {
    Count,
    Time(u64),
    Other,
}

pub struct Rule {
    pub id: Id,
    pub kind: Kind,
    pub geographies: Vec<Id>,
    pub states: Vec<(Box<str>, Vec<Box<str>>)>,
    pub vehicle_types: Vec<Box<str>>,
    pub propulsion_types: Vec<Box<str>>,
    minimum: Option<u64>,
    maximum: Option<u64>,
    inclusive_minimum: bool,
    inclusive_maximum: bool,
    start: u32,
    end: u32,
    days: u8,
}

/// A policy, and its text, from which what is served is printed once it is published.
pub struct Policy {
    pub id: Id,
    pub start: u64,
    pub end: Option<u64>,
    pub providers: Vec<Id>,
    pub previous: Vec<Id>,
    pub rules: Vec<Rule>,
    text: Box<[u8]>,
}

fn members(text: &[u8]) -> Option<Members<'_>> {
    let r = &mut Reader::new(text);
    let Tree::Object(members) = r.tree()? else { return None };
    r.end()?;
    Some(members)
}

pub fn read_policy(text: &[u8]) -> Option<Policy> {
    let members = &members(text)?;
    member(members, "name")?.text()?;
    Some(Policy {
        id: member(members, "policy_id")?.id()?,
        start: member(members, "start_date")?.whole(LAST_MOMENT)?,
        end: member(members, "end_date").and_then(|t| t.whole(LAST_MOMENT)),
        providers: Tree::list(member(members, "provider_ids"), Tree::id)?,
        previous: Tree::list(member(members, "prev_policies"), Tree::id)?,
        rules: Tree::list(Some(member(members, "rules")?), read_rule)?,
        text: text.into(),
    })
}

fn read_rule(tree: &Tree) -> Option<Rule> {
    let Tree::Object(rule) = tree else { return None };
    member(rule, "name")?.text()?;
    let unit = match member(rule, "rule_units").and_then(Tree::text) {
        Some("seconds") => Some(1_000),
        Some("minutes") => Some(60_000),
        Some("hours") => Some(3_600_000),
        Some("days") => Some(86_400_000),
        _ => None,
    };
    let truth = |name| !matches!(member(rule, name), Some(Tree::Word("false")));
    let days = Tree::list(member(rule, "days"), |day| {
        let names = ["sun", "mon", "tue", "wed", "thu", "fri", "sat"];
        names.iter().position(|name| Some(*name) == day.text()).map(|day| 1_u8 << day)
    })?;
    Some(Rule {
        id: member(rule, "rule_id")?.id()?,
        kind: match (member(rule, "rule_type")?.text()?, unit) {
            ("count", _) => Kind::Count,
            ("time", Some(unit)) => Kind::Time(unit),
            _ => Kind::Other,
        },
        geographies: Tree::list(Some(member(rule, "geographies")?), Tree::id)?,
        states: read_states(member(rule, "states"))?,
        vehicle_types: Tree::list(member(rule, "vehicle_types"), Tree::token)?,
        propulsion_types: Tree::list(member(rule, "propulsion_types"), Tree::token)?,
        minimum: member(rule, "minimum").and_then(|t| t.whole(1_000_000_000)),
        maximum: member(rule, "maximum").and_then(|t| t.whole(1_000_000_000)),
        inclusive_minimum: truth("inclusive_minimum"),
        inclusive_maximum: truth("inclusive_maximum"),
        start: member(rule, "start_time").and_then(Tree::text).and_then(second_of_day).unwrap_or(0),
        end: member(rule, "end_time").and_then(Tree::text).and_then(second_of_day).unwrap_or(86_399),
        days: if days.is_empty() { 127 } else { days.iter().fold(0, |all, day| all | day) },
    })
}

/// The events of each state. Of states with one name the last counts.
fn read_states(tree: Option<&Tree>) -> Option<Vec<(Box<str>, Vec<Box<str>>)>> {
    let Some(Tree::Object(states)) = tree else { return Some(Vec::new()) };
    let mut found: Vec<(Box<str>, Vec<Box<str>>)> = Vec::new();
    for (name, events) in states {
        let events = Tree::list(Some(events).filter(|it| !it.is_null()), Tree::token)?;
        found.retain(|(other, _)| **other != **name);
        found.push((name.as_ref().into(), events));
    }
    Some(found)
}

fn second_of_day(text: &str) -> Option<u32> {
    let mut parts = text.split(':').map(|part| part.parse::<u32>().ok());
    let (hour, minute) = (parts.next()??, parts.next()??);
    Some(hour * 3600 + minute * 60 + parts.next().flatten().unwrap_or(0))
}

impl Policy {
    pub fn print(&self, moment: u64) -> String {
        let mut out = String::with_capacity(self.text.len() + 64);
        let mut members = members(&self.text).unwrap_or_default();
        members.push((Cow::Borrowed("published_date"), Tree::Whole(moment as i64)));
        print_members(&mut out, &members);
        out
    }
}

impl Rule {
    pub fn is_open(&self, weekday: u32, second: u32) -> bool {
        let listed = |day: u32| self.days & (1 << (day % 7)) != 0;
        let is_in_window = if self.start <= self.end {
            self.start <= second && second <= self.end && listed(weekday)
        } else {
            (self.start <= second && listed(weekday)) || (second <= self.end && listed(weekday + 6))
        };
        self.kind != Kind::Other && is_in_window
    }

    pub fn is_within(&self, unit: u64, value: u64) -> bool {
        let above = self.minimum.is_none_or(|m| if self.inclusive_minimum { m * unit <= value } else { m * unit < value });
        let below = self.maximum.is_none_or(|m| if self.inclusive_maximum { value <= m * unit } else { value < m * unit });
        above && below
    }
}
