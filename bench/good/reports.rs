//! Vehicle reports, as they are read.

use crate::places::Position;
use crate::reading::{Id, LAST_MOMENT, Reader};

/// A report, whose words are of some form.
#[derive(PartialEq)]
pub struct Report<W> {
    pub device: Id,
    pub vehicle_type: W,
    pub propulsion: Vec<W>,
    pub state: W,
    pub events: Vec<W>,
    pub timestamp: u64,
    pub position: Position,
}

/// Which kind of word stands in a report.
#[derive(Clone, Copy)]
pub enum WordOf {
    Type,
    State,
    Event,
    Propulsion,
}

pub fn read_report<W>(text: &[u8], mut word: impl FnMut(WordOf, &str) -> Option<W>) -> Option<Report<W>> {
    let r = &mut Reader::new(text);
    let (mut device, mut kind, mut state, mut timestamp, mut position) = (None, None, None, None, None);
    let (mut propulsion, mut events) = (Vec::new(), Vec::new());
    r.object(|r, member| {
        match &*member {
            "device_id" => device = Some(r.id()?),
            "vehicle_type" => kind = Some(word(WordOf::Type, &r.string()?)?),
            "propulsion_types" => propulsion = r.list_of(|r| word(WordOf::Propulsion, &r.string()?))?,
            "vehicle_state" => state = Some(word(WordOf::State, &r.string()?)?),
            "event_types" => events = r.list_of(|r| word(WordOf::Event, &r.string()?))?,
            "timestamp" => timestamp = Some(r.within(LAST_MOMENT)?),
            "location" => position = Some(read_location(r)?),
            _ => r.skip()?,
        }
        Some(())
    })?;
    r.end()?;
    Some(Report { device: device?, vehicle_type: kind?, propulsion, state: state?, events, timestamp: timestamp?, position: position? })
}

fn read_location(r: &mut Reader) -> Option<Position> {
    let (mut lng, mut lat) = (None, None);
    r.object(|r, member| {
        match &*member {
            "lat" => lat = Some(r.degrees(900_000_000)?),
            "lng" => lng = Some(r.degrees(1_800_000_000)?),
            _ => r.skip()?,
        }
        Some(())
    })?;
    Some(Position { lng: lng?, lat: lat? })
}
