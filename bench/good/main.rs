//! A good program by hand for the requests that the benchmark times, with the standard library alone: it takes the same
//! lines as mds_replay and gives the same answers, byte for byte, to scripts without a refusal.
//!
//! `good` keeps vehicles as columns, their words as bits, a box for each rule and slabs of latitude for each polygon, texts
//! that are printed once at publication, and reads each text in one pass. `good kept` keeps, too, which rules each vehicle
//! meets. `good scan` is a plain one: a sorted list of vehicles, whose words are texts; it goes through all edges, looks an
//! identifier up for each vehicle and prints a text each time it is asked for.

mod fleet;
mod places;
mod plain;
mod policies;
mod reading;
mod reports;

use std::collections::HashMap;
use std::fmt::Write as _;
use std::io::{self, BufRead, BufReader, BufWriter, Write};

use fleet::{AllWords, Fleet, IdMap, Tests};
use places::{Geography, read_geography};
use plain::PlainFleet;
use policies::{Kind, Policy, read_policy};
use reading::{Id, Reader, id, is_token, print_id};
use reports::{WordOf, read_report};

/// How many devices a violated rule names at most.
const MOST_DEVICES: usize = 100;

#[derive(Clone, Copy, PartialEq)]
enum Mode {
    Columns,
    Kept,
    Scan,
}

enum Vehicles {
    Columns(Fleet),
    Plain(PlainFleet),
}

struct Operator {
    id: Id,
    vehicles: Vehicles,
}

struct Published<T> {
    document: T,
    moment: u64,
    text: String,
}

/// What was published, and the drafts.
struct City {
    mode: Mode,
    words: AllWords,
    draft_geographies: IdMap<Geography>,
    draft_policies: IdMap<Policy>,
    geographies: Vec<Published<Geography>>,
    geography_places: IdMap<usize>,
    policies: Vec<Published<Policy>>,
    tests: Vec<Tests>,
    policy_places: IdMap<usize>,
    superseded: IdMap<u64>,
    revision: u64,
}

struct Machine {
    author: Vec<u8>,
    operators: HashMap<Vec<u8>, Operator>,
    city: City,
}

fn configuration(text: &[u8], mode: Mode) -> Option<Machine> {
    let r = &mut Reader::new(text);
    let (mut author, mut operators) = (None, HashMap::new());
    r.object(|r, name| {
        match &*name {
            "author" => author = Some(r.string()?.as_bytes().to_vec()),
            "operators" => r.list(|r| {
                let (token, operator) = read_operator(r, mode)?;
                operators.insert(token, operator);
                Some(())
            })?,
            _ => r.skip()?,
        }
        Some(())
    })?;
    let city = City {
        mode,
        words: AllWords::default(),
        draft_geographies: IdMap::default(),
        draft_policies: IdMap::default(),
        geographies: Vec::new(),
        geography_places: IdMap::default(),
        policies: Vec::new(),
        tests: Vec::new(),
        policy_places: IdMap::default(),
        superseded: IdMap::default(),
        revision: 0,
    };
    Some(Machine { author: author?, operators, city })
}

fn read_operator(r: &mut Reader, mode: Mode) -> Option<(Vec<u8>, Operator)> {
    let (mut id, mut token) = (None, None);
    r.object(|r, name| {
        match &*name {
            "id" => id = Some(r.id()?),
            "token" => token = Some(r.string()?.as_bytes().to_vec()),
            _ => r.skip()?,
        }
        Some(())
    })?;
    let vehicles = if mode == Mode::Scan { Vehicles::Plain(PlainFleet::default()) } else { Vehicles::Columns(Fleet::default()) };
    Some((token?, Operator { id: id?, vehicles }))
}

fn put<T>(drafts: &mut IdMap<T>, id: Id, document: T, out: &mut String) -> Option<()> {
    let word = if drafts.insert(id, document).is_some() { "replaced" } else { "new" };
    write!(out, "200 {{\"result\":\"{word}\"}}").ok()
}

impl Vehicles {
    fn take(&mut self, words: &mut AllWords, body: &[u8], at: u64) -> Option<&'static str> {
        match self {
            Vehicles::Columns(fleet) => {
                let report = read_report(body, |of, word| match of {
                    WordOf::Type => words.types.number(word),
                    WordOf::State => words.states.number(word),
                    WordOf::Event => words.events.number(word),
                    WordOf::Propulsion => words.propulsion.number(word),
                });
                fleet.take(report?, at)
            }
            Vehicles::Plain(fleet) => fleet.take(read_report(body, |_, word| is_token(word).then(|| word.into()))?, at),
        }
    }

    fn device(&self, row: usize) -> Id {
        match self {
            Vehicles::Columns(fleet) => fleet.device(row),
            Vehicles::Plain(fleet) => fleet.device(row),
        }
    }

    fn since(&self, row: usize) -> u64 {
        match self {
            Vehicles::Columns(fleet) => fleet.since(row),
            Vehicles::Plain(fleet) => fleet.since(row),
        }
    }
}

impl Machine {
    fn answer(&mut self, at: u64, token: &[u8], method: &str, target: &str, body: &[u8], out: &mut String) -> Option<()> {
        let city = &mut self.city;
        if *token == *self.author {
            return city.author_answer(at, method, target, body, out);
        }
        let Operator { id: operator, vehicles } = self.operators.get_mut(token)?;
        match (method, target) {
            ("POST", "/fleet/events") => {
                let word = vehicles.take(&mut city.words, body, at)?;
                write!(out, "200 {{\"result\":\"{word}\"}}").ok()
            }
            ("GET", "/policies") => {
                let meant = |p: &&Published<Policy>| p.document.providers.is_empty() || p.document.providers.contains(operator);
                city.list(out, "policies", city.policies.iter().filter(meant), |p| p.document.print(p.moment))
            }
            ("GET", "/geographies") => city.list(out, "geographies", city.geographies.iter(), |g| g.document.print(g.moment)),
            ("GET", "/compliance") => {
                write!(out, "200 {{\"at\":{at},\"policies\":[").ok()?;
                let mut comma = "";
                for place in 0..city.policies.len() {
                    if city.is_in_force(&city.policies[place], *operator, at) {
                        out.push_str(comma);
                        comma = ",";
                        city.report(out, place, vehicles, at);
                    }
                }
                write!(out, "],\"revision\":{},\"version\":2}}", city.revision).ok()
            }
            ("GET", _) => {
                let place = *city.policy_places.get(&id(target.strip_prefix("/compliance/")?)?)?;
                if !city.is_in_force(&city.policies[place], *operator, at) {
                    return None;
                }
                write!(out, "200 {{\"at\":{at},\"policy\":").ok()?;
                city.report(out, place, vehicles, at);
                write!(out, ",\"revision\":{},\"version\":2}}", city.revision).ok()
            }
            _ => None,
        }
    }
}

impl City {
    fn list<'a, T: 'a>(
        &self,
        out: &mut String,
        name: &str,
        documents: impl Iterator<Item = &'a Published<T>>,
        print: impl Fn(&Published<T>) -> String,
    ) -> Option<()> {
        write!(out, "200 {{\"{name}\":[").ok()?;
        for (i, document) in documents.enumerate() {
            if i > 0 {
                out.push(',');
            }
            if self.mode == Mode::Scan { out.push_str(&print(document)) } else { out.push_str(&document.text) }
        }
        write!(out, "],\"revision\":{}}}", self.revision).ok()
    }

    fn author_answer(&mut self, at: u64, method: &str, target: &str, body: &[u8], out: &mut String) -> Option<()> {
        match method {
            "PUT" => {
                if let Some(named) = target.strip_prefix("/drafts/geographies/") {
                    let document = read_geography(body)?;
                    let named = id(named).filter(|named| *named == document.id)?;
                    put(&mut self.draft_geographies, named, document, out)
                } else {
                    let document = read_policy(body)?;
                    let named = id(target.strip_prefix("/drafts/policies/")?).filter(|named| *named == document.id)?;
                    put(&mut self.draft_policies, named, document, out)
                }
            }
            "POST" if target == "/publish" => self.publish(at, body, out),
            _ => None,
        }
    }

    fn publish(&mut self, moment: u64, body: &[u8], out: &mut String) -> Option<()> {
        let (mut geographies, mut policies) = (Vec::new(), Vec::new());
        Reader::new(body).object(|r, name| {
            match &*name {
                "geographies" => geographies = r.list_of(Reader::id)?,
                "policies" => policies = r.list_of(Reader::id)?,
                _ => r.skip()?,
            }
            Some(())
        })?;
        for id in geographies {
            let mut document = self.draft_geographies.remove(&id)?;
            if self.mode != Mode::Scan {
                document.polygons.iter_mut().for_each(|polygon| polygon.cut());
            }
            self.geography_places.insert(id, self.geographies.len());
            let text = document.print(moment);
            self.geographies.push(Published { document, moment, text });
        }
        for id in policies {
            self.publish_policy(id, moment)?;
        }
        self.revision += 1;
        write!(out, "200 {{\"published_date\":{moment},\"revision\":{}}}", self.revision).ok()
    }

    fn publish_policy(&mut self, id: Id, moment: u64) -> Option<()> {
        let document = self.draft_policies.remove(&id)?;
        for previous in &document.previous {
            let from = moment.max(document.start);
            self.superseded.entry(*previous).and_modify(|least| *least = from.min(*least)).or_insert(from);
        }
        self.policy_places.insert(id, self.policies.len());
        let place = |id: &Id| self.geography_places.get(id).copied();
        let bounds = |place: usize| self.geographies[place].document.bounds();
        let rules = if self.mode == Mode::Scan { &[][..] } else { &document.rules };
        self.tests.push(Tests::new(rules, &mut self.words, place, bounds)?);
        let text = document.print(moment);
        self.policies.push(Published { document, moment, text });
        Some(())
    }

    fn is_in_force(&self, policy: &Published<Policy>, operator: Id, at: u64) -> bool {
        let document = &policy.document;
        policy.moment <= at
            && document.start <= at
            && document.end.is_none_or(|end| at < end)
            && (document.providers.is_empty() || document.providers.contains(&operator))
            && self.superseded.get(&document.id).is_none_or(|from| at < *from)
    }

    /// The first open rule of a policy that each vehicle meets, or 64.
    fn firsts(&self, place: usize, vehicles: &mut Vehicles, open: u64) -> Vec<u8> {
        let geographies: Vec<&Geography> = self.geographies.iter().map(|it| &it.document).collect();
        match vehicles {
            Vehicles::Columns(fleet) if self.mode == Mode::Kept => fleet.kept_firsts(place, &self.tests[place], open, &geographies),
            Vehicles::Columns(fleet) => fleet.firsts(&self.tests[place], open, &geographies),
            Vehicles::Plain(fleet) => {
                let geography = |id: &Id| self.geography_places.get(id).map(|place| geographies[*place]);
                fleet.firsts(&self.policies[place].document.rules, open, geography)
            }
        }
    }

    /// The report on a policy. The zone of the generated configuration is UTC.
    fn report(&self, out: &mut String, place: usize, vehicles: &mut Vehicles, at: u64) {
        let (weekday, second) = (((at / 86_400_000 + 4) % 7) as u32, (at / 1_000 % 86_400) as u32);
        let policy = &self.policies[place].document;
        let open = policy.rules.iter().enumerate().fold(0, |open, (i, rule)| open | u64::from(rule.is_open(weekday, second)) << i);
        let firsts = self.firsts(place, vehicles, open);
        let counts = |row: usize, i: u8| match policy.rules[usize::from(i)].kind {
            Kind::Time(unit) => !policy.rules[usize::from(i)].is_within(unit, at.saturating_sub(vehicles.since(row))),
            _ => true,
        };
        let mut measures = [0_u64; 65];
        let timed = policy.rules.iter().any(|rule| matches!(rule.kind, Kind::Time(_)));
        for (row, i) in firsts.iter().enumerate() {
            measures[usize::from(*i)] += u64::from(!timed || *i == 64 || counts(row, *i));
        }
        out.push_str("{\"policy_id\":");
        print_id(out, policy.id);
        out.push_str(",\"rules\":[");
        for (i, rule) in policy.rules.iter().enumerate() {
            let status = match rule.kind {
                Kind::Other => "not_evaluated",
                _ if open >> i & 1 == 0 => "inactive",
                Kind::Count if rule.is_within(1, measures[i]) => "ok",
                Kind::Time(_) if measures[i] == 0 => "ok",
                _ => "violated",
            };
            out.push_str(if i > 0 { ",{" } else { "{" });
            if status == "violated" {
                let rows = firsts.iter().enumerate().filter(|(row, first)| usize::from(**first) == i && counts(*row, **first));
                print_devices(out, rows.map(|(row, _)| vehicles.device(row)).collect());
            }
            let _ = write!(out, "\"measure\":{},\"rule_id\":", measures[i]);
            print_id(out, rule.id);
            let _ = write!(out, ",\"status\":\"{status}\"}}");
        }
        out.push_str("]}");
    }
}

/// The first of these devices, ascending.
fn print_devices(out: &mut String, mut devices: Vec<Id>) {
    if devices.len() > MOST_DEVICES {
        devices.select_nth_unstable(MOST_DEVICES);
        devices.truncate(MOST_DEVICES);
    }
    devices.sort_unstable();
    out.push_str("\"devices\":[");
    for (i, device) in devices.iter().enumerate() {
        if i > 0 {
            out.push(',');
        }
        print_id(out, *device);
    }
    out.push_str("],");
}

fn main() -> io::Result<()> {
    let mode = match std::env::args().nth(1).as_deref() {
        Some("scan") => Mode::Scan,
        Some("kept") => Mode::Kept,
        _ => Mode::Columns,
    };
    let mut source = BufReader::with_capacity(1 << 16, io::stdin().lock());
    let mut sink = BufWriter::with_capacity(1 << 16, io::stdout().lock());
    let (mut line, mut out) = (Vec::new(), String::new());
    source.read_until(b'\n', &mut line)?;
    let mut machine = configuration(&line, mode).expect("a configuration");
    loop {
        line.clear();
        if source.read_until(b'\n', &mut line)? == 0 {
            return sink.flush();
        }
        let text = line.strip_suffix(b"\n").unwrap_or(&line);
        let mut parts = text.splitn(5, |byte| *byte == b' ');
        let mut word = || std::str::from_utf8(parts.next().unwrap_or(b"")).unwrap_or("");
        let (at, token, method, target) = (word(), word(), word(), word());
        let body = parts.next().unwrap_or(b"");
        out.clear();
        let answered = machine.answer(at.parse().unwrap_or(0), token.as_bytes(), method, target, body, &mut out);
        if answered.is_none() {
            out.clear();
            out.push_str("400 refused");
        }
        out.push('\n');
        sink.write_all(out.as_bytes())?;
    }
}
