//! Geographies: polygons with their boxes and slabs of latitude.

use crate::reading::{Id, Reader, print_degrees, print_id, print_text, print_whole};

/// Longitude and latitude in units of 10^-7 degree.
#[derive(Clone, Copy, PartialEq)]
pub struct Position {
    pub lng: i32,
    pub lat: i32,
}

/// All positions from one on, by widths to the east and to the north. A difference that is taken modulo 2^32 is within a width
/// exactly where the position is.
#[derive(Clone, Copy)]
pub struct Bounds {
    least: Position,
    east: u32,
    north: u32,
}

impl Bounds {
    /// No position is so far east.
    pub const NOWHERE: Bounds = Bounds { least: Position { lng: i32::MAX, lat: i32::MAX }, east: 0, north: 0 };

    fn of<'a>(positions: impl Iterator<Item = &'a Position>) -> Bounds {
        positions.fold(Bounds::NOWHERE, |bounds, at| bounds.with(*at, *at))
    }

    fn greatest(&self) -> Position {
        Position { lng: self.least.lng.wrapping_add_unsigned(self.east), lat: self.least.lat.wrapping_add_unsigned(self.north) }
    }

    /// The bounds with what lies between these corners.
    fn with(&self, least: Position, greatest: Position) -> Bounds {
        if self.least.lng == i32::MAX {
            let (east, north) = (greatest.lng.wrapping_sub(least.lng), greatest.lat.wrapping_sub(least.lat));
            return Bounds { least, east: east as u32, north: north as u32 };
        }
        let most = self.greatest();
        let least = Position { lng: self.least.lng.min(least.lng), lat: self.least.lat.min(least.lat) };
        let (lng, lat) = (most.lng.max(greatest.lng), most.lat.max(greatest.lat));
        Bounds { least, east: lng.wrapping_sub(least.lng) as u32, north: lat.wrapping_sub(least.lat) as u32 }
    }

    pub fn and(&self, other: &Bounds) -> Bounds {
        if other.least.lng == i32::MAX { *self } else { self.with(other.least, other.greatest()) }
    }

    #[inline]
    pub fn has(&self, at: Position) -> bool {
        (at.lng.wrapping_sub(self.least.lng) as u32 <= self.east) & (at.lat.wrapping_sub(self.least.lat) as u32 <= self.north)
    }
}

/// A polygon. Once it is cut, a slab of latitude tells every edge that reaches into it, by the place of the edge's first position.
pub struct Polygon {
    positions: Vec<Position>,
    /// Behind which place each ring ends.
    ends: Vec<u32>,
    bounds: Bounds,
    /// A slab is so many units high, as a power of two.
    shift: u32,
    starts: Vec<u32>,
    edges: Vec<u32>,
}

impl Polygon {
    fn new(rings: Vec<Vec<Position>>) -> Polygon {
        let mut end = 0;
        let ends = rings.iter().map(|ring| {
            end += ring.len() as u32;
            end
        });
        let ends = ends.collect();
        let positions = rings.concat();
        let bounds = Bounds::of(positions.iter());
        Polygon { positions, ends, bounds, shift: 0, starts: Vec::new(), edges: Vec::new() }
    }

    pub fn bounds(&self) -> &Bounds {
        &self.bounds
    }

    fn rings(&self) -> impl Iterator<Item = &[Position]> {
        let starts = std::iter::once(0).chain(self.ends.iter().copied());
        starts.zip(&self.ends).map(|(start, end)| &self.positions[start as usize..*end as usize])
    }

    /// The place of each edge's first position.
    fn places(&self) -> impl Iterator<Item = u32> {
        let starts = std::iter::once(0).chain(self.ends.iter().copied());
        starts.zip(&self.ends).flat_map(|(start, end)| start..end.saturating_sub(1).max(start))
    }

    #[inline]
    fn edge(&self, place: u32) -> (Position, Position) {
        (self.positions[place as usize], self.positions[place as usize + 1])
    }

    #[inline]
    fn slab(&self, lat: i32) -> usize {
        (lat.wrapping_sub(self.bounds.least.lat) as u32 >> self.shift) as usize
    }

    fn slabs(&self, place: u32) -> std::ops::RangeInclusive<usize> {
        let (from, to) = self.edge(place);
        self.slab(from.lat.min(to.lat))..=self.slab(from.lat.max(to.lat))
    }

    /// Cuts slabs: at most twice as many as edges, which tell at most four times as many places as there are edges.
    pub fn cut(&mut self) {
        let count = self.places().count();
        self.shift = 0;
        while self.shift < 31 && (self.slab_count() > 2 * count || self.told() > 4 * count) {
            self.shift += 1;
        }
        let mut starts = vec![0_u32; self.slab_count() + 1];
        for slab in self.places().flat_map(|place| self.slabs(place)) {
            starts[slab + 1] += 1;
        }
        for i in 1..starts.len() {
            starts[i] += starts[i - 1];
        }
        let (mut next, mut edges) = (starts.clone(), vec![0; starts.last().copied().unwrap_or(0) as usize]);
        for place in self.places() {
            for slab in self.slabs(place) {
                edges[next[slab] as usize] = place;
                next[slab] += 1;
            }
        }
        (self.starts, self.edges) = (starts, edges);
    }

    fn slab_count(&self) -> usize {
        (self.bounds.north >> self.shift) as usize + 1
    }

    fn told(&self) -> usize {
        self.places().map(|place| self.slabs(place)).map(|slabs| slabs.end() - slabs.start() + 1).sum()
    }

    /// Whether a cut polygon holds a position.
    #[inline]
    pub fn holds(&self, at: Position) -> bool {
        if !self.bounds.has(at) {
            return false;
        }
        let slab = self.slab(at.lat);
        let places = &self.edges[self.starts[slab] as usize..self.starts[slab + 1] as usize];
        odd_or_on(places.iter().map(|place| self.edge(*place)), at)
    }

    fn holds_by_scan(&self, at: Position) -> bool {
        odd_or_on(self.rings().flat_map(|ring| ring.windows(2).map(|ends| (ends[0], ends[1]))), at)
    }
}

/// Whether a position is on an edge, or the ray to the east crosses an odd number of them.
#[inline]
fn odd_or_on(edges: impl Iterator<Item = (Position, Position)>, at: Position) -> bool {
    let mut odd = false;
    for (from, to) in edges {
        if at.lat < from.lat.min(to.lat) || from.lat.max(to.lat) < at.lat {
            continue;
        }
        // With the latitude within the edge's, the two products have together at most 3.6 * 1.8 * 10^18.
        let part = |a: i32, b: i32| i64::from(a) - i64::from(b);
        let turn = part(from.lng, at.lng) * part(to.lat, at.lat) - part(to.lng, at.lng) * part(from.lat, at.lat);
        if turn == 0 && from.lng.min(to.lng) <= at.lng && at.lng <= from.lng.max(to.lng) {
            return true;
        }
        let rises = from.lat <= at.lat && at.lat < to.lat;
        let falls = to.lat <= at.lat && at.lat < from.lat;
        odd ^= (rises && turn > 0) || (falls && turn < 0);
    }
    odd
}

pub struct Geography {
    pub id: Id,
    name: String,
    description: Option<String>,
    pub polygons: Vec<Polygon>,
}

fn read_position(r: &mut Reader) -> Option<Position> {
    r.take(b'[')?;
    let lng = r.degrees(1_800_000_000)?;
    r.take(b',')?;
    let lat = r.degrees(900_000_000)?;
    while r.peek()? == b',' {
        r.take(b',')?;
        r.skip()?;
    }
    r.take(b']')?;
    Some(Position { lng, lat })
}

fn read_polygon(r: &mut Reader) -> Option<Polygon> {
    let rings = r.list_of(|r| r.list_of(read_position))?;
    let is_ring = |ring: &Vec<Position>| ring.len() > 3 && ring.first() == ring.last();
    rings.iter().all(is_ring).then(|| Polygon::new(rings))
}

pub fn read_geography(text: &[u8]) -> Option<Geography> {
    let r = &mut Reader::new(text);
    let (mut found, mut name, mut description, mut polygons) = (None, None, None, None);
    r.object(|r, member| {
        match &*member {
            "geography_id" => found = Some(r.id()?),
            "name" => name = Some(r.string()?.into_owned()),
            "description" => description = Some(r.string()?.into_owned()),
            "geography_json" => polygons = Some(read_geometry(r)?),
            _ => r.skip()?,
        }
        Some(())
    })?;
    r.end()?;
    Some(Geography { id: found?, name: name?, description, polygons: polygons? })
}

/// A Polygon or a MultiPolygon whose type stands before its coordinates, as the generated ones have it.
fn read_geometry(r: &mut Reader) -> Option<Vec<Polygon>> {
    let (mut kind, mut polygons) = (None, None);
    r.object(|r, member| {
        match (&*member, kind.as_deref()) {
            ("type", _) => kind = Some(r.string()?.into_owned()),
            ("coordinates", Some("Polygon")) => polygons = Some(vec![read_polygon(r)?]),
            ("coordinates", Some("MultiPolygon")) => polygons = Some(r.list_of(read_polygon)?),
            _ => r.skip()?,
        }
        Some(())
    })?;
    polygons
}

/// Prints entries between brackets, divided by commas.
fn print_list<T>(out: &mut String, entries: impl Iterator<Item = T>, print: impl Fn(&mut String, T)) {
    out.push('[');
    for (i, entry) in entries.enumerate() {
        if i > 0 {
            out.push(',');
        }
        print(out, entry);
    }
    out.push(']');
}

impl Geography {
    pub fn print(&self, moment: u64) -> String {
        let mut out = String::from("{");
        if let Some(text) = &self.description {
            out.push_str("\"description\":");
            print_text(&mut out, text);
            out.push(',');
        }
        out.push_str("\"geography_id\":");
        print_id(&mut out, self.id);
        out.push_str(",\"geography_json\":{\"features\":[{\"geometry\":{\"coordinates\":");
        print_list(&mut out, self.polygons.iter(), |out, polygon| {
            print_list(out, polygon.rings(), |out, ring| {
                print_list(out, ring.iter(), |out, at| print_list(out, [at.lng, at.lat].into_iter(), print_degrees));
            });
        });
        out.push_str(",\"type\":\"MultiPolygon\"},\"properties\":null,\"type\":\"Feature\"}],\"type\":\"FeatureCollection\"},\"name\":");
        print_text(&mut out, &self.name);
        out.push_str(",\"published_date\":");
        print_whole(&mut out, moment as i64);
        out.push('}');
        out
    }

    pub fn bounds(&self) -> Bounds {
        self.polygons.iter().fold(Bounds::NOWHERE, |bounds, polygon| bounds.and(polygon.bounds()))
    }

    #[inline]
    pub fn holds(&self, at: Position) -> bool {
        self.polygons.iter().any(|polygon| polygon.holds(at))
    }

    pub fn holds_by_scan(&self, at: Position) -> bool {
        self.polygons.iter().any(|polygon| polygon.holds_by_scan(at))
    }
}
