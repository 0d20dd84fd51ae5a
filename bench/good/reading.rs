//! Texts: JSON that is read from left to right, trees of it, and printing.

use std::borrow::Cow;

pub type Id = u128;

pub const LAST_MOMENT: i64 = 4_102_444_799_999;

/// A text that is read from left to right. None is a fault.
pub struct Reader<'a> {
    text: &'a [u8],
    at: usize,
    depth: u32,
}

impl<'a> Reader<'a> {
    pub fn new(text: &'a [u8]) -> Reader<'a> {
        Reader { text, at: 0, depth: 0 }
    }

    #[inline]
    pub fn peek(&mut self) -> Option<u8> {
        loop {
            match *self.text.get(self.at)? {
                b' ' | b'\n' | b'\r' | b'\t' => self.at += 1,
                byte => return Some(byte),
            }
        }
    }

    #[inline]
    pub fn take(&mut self, byte: u8) -> Option<()> {
        (self.peek()? == byte).then(|| self.at += 1)
    }

    /// What stands between two brackets, divided by commas; `see` reads each entry.
    fn entries(&mut self, open: u8, close: u8, mut see: impl FnMut(&mut Reader<'a>) -> Option<()>) -> Option<()> {
        self.take(open)?;
        self.depth += 1;
        if self.depth > 127 {
            return None;
        }
        if self.peek()? == close {
            self.at += 1;
        } else {
            loop {
                see(self)?;
                match self.peek()? {
                    b',' => self.at += 1,
                    byte if byte == close => break self.at += 1,
                    _ => return None,
                }
            }
        }
        self.depth -= 1;
        Some(())
    }

    /// The members of an object, each handed to `see`, which reads its value.
    pub fn object(&mut self, mut see: impl FnMut(&mut Reader<'a>, Cow<'a, str>) -> Option<()>) -> Option<()> {
        self.entries(b'{', b'}', |r| {
            let name = r.string()?;
            r.take(b':')?;
            see(r, name)
        })
    }

    pub fn list(&mut self, see: impl FnMut(&mut Reader<'a>) -> Option<()>) -> Option<()> {
        self.entries(b'[', b']', see)
    }

    pub fn string(&mut self) -> Option<Cow<'a, str>> {
        self.take(b'"')?;
        let rest = &self.text[self.at..];
        let length = rest.iter().position(|byte| matches!(byte, b'"' | b'\\' | 0..32))?;
        if rest[length] != b'"' {
            return self.escaped();
        }
        self.at += length + 1;
        Some(std::str::from_utf8(&rest[..length]).ok()?.into())
    }

    fn escaped(&mut self) -> Option<Cow<'a, str>> {
        let mut out = Vec::new();
        loop {
            let byte = *self.text.get(self.at)?;
            self.at += 1;
            match byte {
                b'"' => return Some(String::from_utf8(out).ok()?.into()),
                b'\\' => self.escape(&mut out)?,
                0..32 => return None,
                _ => out.push(byte),
            }
        }
    }

    fn escape(&mut self, out: &mut Vec<u8>) -> Option<()> {
        let kind = *self.text.get(self.at)?;
        self.at += 1;
        match kind {
            b'"' | b'\\' | b'/' => out.push(kind),
            b'b' => out.push(8),
            b'f' => out.push(12),
            b'n' => out.push(10),
            b'r' => out.push(13),
            b't' => out.push(9),
            b'u' => {
                let code = std::str::from_utf8(self.text.get(self.at..self.at + 4)?).ok()?;
                self.at += 4;
                let letter = char::from_u32(u32::from_str_radix(code, 16).ok()?)?;
                out.extend_from_slice(letter.encode_utf8(&mut [0; 4]).as_bytes());
            }
            _ => return None,
        }
        Some(())
    }

    /// The value of the digits that follow, at most so many.
    #[inline]
    fn digits(&mut self, most: usize) -> (i64, usize) {
        let (mut value, start) = (0_i64, self.at);
        while let Some(digit @ b'0'..=b'9') = self.text.get(self.at)
            && self.at - start < most
        {
            value = value * 10 + i64::from(digit - b'0');
            self.at += 1;
        }
        (value, self.at - start)
    }

    /// A whole number of up to 18 digits.
    pub fn whole(&mut self) -> Option<i64> {
        let negative = self.peek()? == b'-';
        self.at += usize::from(negative);
        let first = self.at;
        let (value, digits) = self.digits(18);
        if digits == 0 || (digits > 1 && self.text[first] == b'0') || (negative && value == 0) {
            return None;
        }
        if matches!(self.text.get(self.at), Some(b'.' | b'e' | b'E' | b'0'..=b'9')) {
            return None;
        }
        Some(if negative { -value } else { value })
    }

    pub fn within(&mut self, most: i64) -> Option<u64> {
        let value = self.whole()?;
        (0..=most).contains(&value).then_some(value as u64)
    }

    /// A number of degrees in units of 10^-7 degree, rounded half away from zero; as a number or a text. The generated texts have no
    /// exponent.
    #[inline]
    pub fn degrees(&mut self, most: i64) -> Option<i32> {
        const TENS: [i64; 8] = [1, 10, 100, 1_000, 10_000, 100_000, 1_000_000, 10_000_000];
        let quoted = self.peek()? == b'"';
        self.at += usize::from(quoted);
        let negative = self.text.get(self.at) == Some(&b'-');
        self.at += usize::from(negative);
        let first = self.at;
        let (mut value, whole) = self.digits(9);
        if whole == 0 || (whole > 1 && self.text[first] == b'0') {
            return None;
        }
        let mut decimals = 0;
        if self.text.get(self.at) == Some(&b'.') {
            self.at += 1;
            let (part, count) = self.digits(7);
            if count == 0 {
                return None;
            }
            (value, decimals) = (value * TENS[count] + part, count);
        }
        value *= TENS[7 - decimals];
        if decimals == 7 && matches!(self.text.get(self.at), Some(b'0'..=b'9')) {
            value += i64::from(self.text[self.at] >= b'5');
            self.digits(usize::MAX);
        }
        if matches!(self.text.get(self.at), Some(b'e' | b'E' | b'.' | b'0'..=b'9')) {
            return None;
        }
        if quoted {
            self.take(b'"')?;
        }
        (value <= most).then_some(if negative { -value } else { value } as i32)
    }

    pub fn skip(&mut self) -> Option<()> {
        match self.peek()? {
            b'{' => self.object(|r, _| r.skip()),
            b'[' => self.list(|r| r.skip()),
            b'"' => self.string().map(drop),
            b't' => self.word(b"true"),
            b'f' => self.word(b"false"),
            b'n' => self.word(b"null"),
            _ => {
                let number = |b: &&u8| b.is_ascii_digit() || matches!(b, b'+' | b'-' | b'.' | b'e' | b'E');
                let length = self.text[self.at..].iter().take_while(number).count();
                self.at += length;
                (length > 0).then_some(())
            }
        }
    }

    fn word(&mut self, word: &[u8]) -> Option<()> {
        self.text[self.at..].starts_with(word).then(|| self.at += word.len())
    }

    pub fn end(&mut self) -> Option<()> {
        self.peek().is_none().then_some(())
    }

    pub fn id(&mut self) -> Option<Id> {
        id(&self.string()?)
    }

    pub fn list_of<T>(&mut self, mut read: impl FnMut(&mut Reader<'a>) -> Option<T>) -> Option<Vec<T>> {
        let mut found = Vec::new();
        if self.peek()? == b'n' {
            self.word(b"null")?;
            return Some(found);
        }
        self.list(|r| {
            found.push(read(r)?);
            Some(())
        })?;
        Some(found)
    }

    pub fn tree(&mut self) -> Option<Tree<'a>> {
        Some(match self.peek()? {
            b'{' => {
                let mut members = Vec::new();
                self.object(|r, name| {
                    members.push((name, r.tree()?));
                    Some(())
                })?;
                Tree::Object(members)
            }
            b'[' => {
                let mut entries = Vec::new();
                self.list(|r| {
                    entries.push(r.tree()?);
                    Some(())
                })?;
                Tree::List(entries)
            }
            b'"' => Tree::Text(self.string()?),
            b't' => self.word(b"true").map(|()| Tree::Word("true"))?,
            b'f' => self.word(b"false").map(|()| Tree::Word("false"))?,
            b'n' => self.word(b"null").map(|()| Tree::Word("null"))?,
            _ => Tree::Whole(self.whole()?),
        })
    }
}

/// Whether a text is a token.
pub fn is_token(text: &str) -> bool {
    let good = |b: &u8| b.is_ascii_lowercase() || b.is_ascii_digit() || *b == b'_';
    (1..=40).contains(&text.len()) && text.as_bytes().iter().all(good)
}

pub fn id(text: &str) -> Option<Id> {
    if text.len() != 36 {
        return None;
    }
    let mut value = 0;
    for (i, byte) in text.bytes().enumerate() {
        let digit = match (i, byte) {
            (8 | 13 | 18 | 23, b'-') => continue,
            (8 | 13 | 18 | 23, _) => return None,
            (_, b'0'..=b'9') => byte - b'0',
            (_, b'a'..=b'f') => byte - b'a' + 10,
            (_, b'A'..=b'F') => byte - b'A' + 10,
            _ => return None,
        };
        value = value << 4 | Id::from(digit);
    }
    Some(value)
}

/// A document's text as a tree. Of members with one name the last counts.
pub enum Tree<'a> {
    Text(Cow<'a, str>),
    Whole(i64),
    Word(&'static str),
    List(Vec<Tree<'a>>),
    Object(Members<'a>),
}

pub type Members<'a> = Vec<(Cow<'a, str>, Tree<'a>)>;

/// A member of an object of a policy; null counts as absent.
pub fn member<'a, 'b>(object: &'b Members<'a>, name: &str) -> Option<&'b Tree<'a>> {
    let found = object.iter().rev().find(|(other, _)| other.as_ref() == name);
    found.map(|(_, tree)| tree).filter(|tree| !tree.is_null())
}

impl<'a> Tree<'a> {
    pub fn is_null(&self) -> bool {
        matches!(self, Tree::Word("null"))
    }

    pub fn text(&self) -> Option<&str> {
        if let Tree::Text(text) = self { Some(text) } else { None }
    }

    pub fn whole(&self, most: i64) -> Option<u64> {
        if let Tree::Whole(value) = self { (0..=most).contains(value).then_some(*value as u64) } else { None }
    }

    pub fn list<'b, T>(tree: Option<&'b Tree<'a>>, read: impl Fn(&'b Tree<'a>) -> Option<T>) -> Option<Vec<T>> {
        match tree {
            None => Some(Vec::new()),
            Some(Tree::List(entries)) => entries.iter().map(read).collect(),
            Some(_) => None,
        }
    }

    pub fn token(&self) -> Option<Box<str>> {
        self.text().filter(|text| is_token(text)).map(Into::into)
    }

    pub fn id(&self) -> Option<Id> {
        id(self.text()?)
    }
}

// ---- printing

/// A tree with its names in byte order.
pub fn print_tree(out: &mut String, tree: &Tree) {
    match tree {
        Tree::Text(text) => print_text(out, text),
        Tree::Whole(value) => print_whole(out, *value),
        Tree::Word(word) => out.push_str(word),
        Tree::List(entries) => {
            out.push('[');
            for (i, entry) in entries.iter().enumerate() {
                if i > 0 {
                    out.push(',');
                }
                print_tree(out, entry);
            }
            out.push(']');
        }
        Tree::Object(members) => print_members(out, members),
    }
}

pub fn print_members(out: &mut String, members: &Members) {
    let mut order: Vec<&(Cow<str>, Tree)> = members.iter().collect();
    order.sort_by(|one, other| one.0.cmp(&other.0));
    out.push('{');
    let mut comma = "";
    for (i, (name, value)) in order.iter().enumerate() {
        if order.get(i + 1).is_some_and(|next| next.0 == *name) {
            continue;
        }
        out.push_str(comma);
        comma = ",";
        print_text(out, name);
        out.push(':');
        print_tree(out, value);
    }
    out.push('}');
}

pub fn print_text(out: &mut String, text: &str) {
    out.push('"');
    let mut rest = text;
    while let Some(at) = rest.bytes().position(|byte| matches!(byte, b'"' | b'\\' | 0..32)) {
        out.push_str(&rest[..at]);
        match rest.as_bytes()[at] {
            b'"' => out.push_str("\\\""),
            b'\\' => out.push_str("\\\\"),
            8 => out.push_str("\\b"),
            9 => out.push_str("\\t"),
            10 => out.push_str("\\n"),
            12 => out.push_str("\\f"),
            13 => out.push_str("\\r"),
            byte => out.push_str(&format!("\\u{byte:04x}")),
        }
        rest = &rest[at + 1..];
    }
    out.push_str(rest);
    out.push('"');
}

pub fn print_whole(out: &mut String, value: i64) {
    if value < 0 {
        out.push('-');
    }
    print_digits(out, value.unsigned_abs(), 1);
}

/// The digits of a number, at least so many.
fn print_digits(out: &mut String, mut value: u64, least: usize) {
    let (mut digits, mut at) = ([b'0'; 20], 20);
    while value > 0 {
        at -= 1;
        digits[at] = b'0' + (value % 10) as u8;
        value /= 10;
    }
    out.push_str(std::str::from_utf8(&digits[at.min(20 - least)..]).unwrap_or(""));
}

pub fn print_id(out: &mut String, id: Id) {
    let digits = b"0123456789abcdef";
    let mut text = [b'"'; 38];
    let mut at = 1;
    for place in 0..32 {
        if matches!(place, 8 | 12 | 16 | 20) {
            text[at] = b'-';
            at += 1;
        }
        text[at] = digits[(id >> (124 - 4 * place)) as usize & 15];
        at += 1;
    }
    out.push_str(std::str::from_utf8(&text).unwrap_or(""));
}

pub fn print_degrees(out: &mut String, units: i32) {
    let size = u64::from(units.unsigned_abs());
    if units < 0 {
        out.push('-');
    }
    print_digits(out, size / 10_000_000, 1);
    let (mut decimals, mut width) = (size % 10_000_000, 7);
    if decimals > 0 {
        while decimals % 10 == 0 {
            decimals /= 10;
            width -= 1;
        }
        out.push('.');
        print_digits(out, decimals, width);
    }
}
