//! The reading of a manifest (document 02, wish 4): the text is decoded by the standard library, parsed into a tree of values by
//! recursive descent over its characters, and judged on the tree.

use std::collections::{BTreeMap, BTreeSet};

/// A value; a string by its UTF-16 units, a number by its spelling.
#[derive(Clone, Debug, PartialEq)]
pub enum Json {
    Null,
    Bool(bool),
    Number(String),
    Text(Vec<u16>),
    Array(Vec<Json>),
    Object(Vec<(Vec<u16>, Json)>),
}

/// A JSON text that nests arrays and objects at most so deep, as a tree.
pub fn parse(bytes: &[u8], nest: usize) -> Option<Json> {
    let characters: Vec<char> = std::str::from_utf8(bytes).ok()?.chars().collect();
    let mut reader = Reader { characters: &characters };
    reader.space();
    let value = reader.value(nest)?;
    reader.space();
    reader.characters.is_empty().then_some(value)
}

struct Reader<'a> {
    characters: &'a [char],
}

impl Reader<'_> {
    fn peek(&self) -> Option<char> {
        self.characters.first().copied()
    }

    fn next(&mut self) -> Option<char> {
        let (&first, rest) = self.characters.split_first()?;
        self.characters = rest;
        Some(first)
    }

    fn skip(&mut self, wanted: char) -> Option<()> {
        (self.next()? == wanted).then_some(())
    }

    fn space(&mut self) {
        while matches!(self.peek(), Some(' ' | '\t' | '\n' | '\r')) {
            self.next();
        }
    }

    fn value(&mut self, nest: usize) -> Option<Json> {
        match self.peek()? {
            '{' => self.object(nest.checked_sub(1)?),
            '[' => self.array(nest.checked_sub(1)?),
            '"' => Some(Json::Text(self.text()?)),
            't' => self.word("true", Json::Bool(true)),
            'f' => self.word("false", Json::Bool(false)),
            'n' => self.word("null", Json::Null),
            _ => self.number(),
        }
    }

    fn word(&mut self, word: &str, value: Json) -> Option<Json> {
        for character in word.chars() {
            self.skip(character)?;
        }
        Some(value)
    }

    fn array(&mut self, nest: usize) -> Option<Json> {
        self.skip('[')?;
        self.space();
        let mut elements = Vec::new();
        if self.peek()? == ']' {
            self.next();
            return Some(Json::Array(elements));
        }
        loop {
            elements.push(self.value(nest)?);
            self.space();
            match self.next()? {
                ',' => self.space(),
                ']' => return Some(Json::Array(elements)),
                _ => return None,
            }
        }
    }

    fn object(&mut self, nest: usize) -> Option<Json> {
        self.skip('{')?;
        self.space();
        let mut members = Vec::new();
        if self.peek()? == '}' {
            self.next();
            return Some(Json::Object(members));
        }
        loop {
            let key = self.text()?;
            self.space();
            self.skip(':')?;
            self.space();
            members.push((key, self.value(nest)?));
            self.space();
            match self.next()? {
                ',' => self.space(),
                '}' => return Some(Json::Object(members)),
                _ => return None,
            }
        }
    }

    fn text(&mut self) -> Option<Vec<u16>> {
        self.skip('"')?;
        let mut units = Vec::new();
        loop {
            match self.next()? {
                '"' => return Some(units),
                '\\' => units.push(self.escape()?),
                character if character < ' ' => return None,
                character => units.extend_from_slice(character.encode_utf16(&mut [0; 2])),
            }
        }
    }

    fn escape(&mut self) -> Option<u16> {
        Some(match self.next()? {
            '"' => 0x22,
            '\\' => 0x5c,
            '/' => 0x2f,
            'b' => 0x08,
            'f' => 0x0c,
            'n' => 0x0a,
            'r' => 0x0d,
            't' => 0x09,
            'u' => {
                let mut unit = 0;
                for _ in 0..4 {
                    unit = unit * 16 + self.next()?.to_digit(16)? as u16;
                }
                unit
            }
            _ => return None,
        })
    }

    fn digits(&mut self, spelling: &mut String) -> Option<()> {
        let before = spelling.len();
        while let Some(digit @ '0'..='9') = self.peek() {
            spelling.push(digit);
            self.next();
        }
        (spelling.len() > before).then_some(())
    }

    fn number(&mut self) -> Option<Json> {
        let mut spelling = String::new();
        if self.peek()? == '-' {
            spelling.push(self.next()?);
        }
        let start = spelling.len();
        self.digits(&mut spelling)?;
        if spelling.len() > start + 1 && spelling[start..].starts_with('0') {
            return None;
        }
        if self.peek() == Some('.') {
            spelling.push(self.next()?);
            self.digits(&mut spelling)?;
        }
        if matches!(self.peek(), Some('e' | 'E')) {
            spelling.push(self.next()?);
            if matches!(self.peek(), Some('+' | '-')) {
                spelling.push(self.next()?);
            }
            self.digits(&mut spelling)?;
        }
        Some(Json::Number(spelling))
    }
}

const NAMES: [&str; 10] =
    ["storage", "tabs", "cookies", "history", "downloads", "bookmarks", "notifications", "webRequest", "management", "proxy"];

/// What a manifest says.
#[derive(Clone, Copy, Debug, PartialEq, Eq)]
pub struct Manifest {
    pub version: u32,
    pub set: u32,
    pub others: u32,
}

fn units(word: &str) -> Vec<u16> {
    word.encode_utf16().collect()
}

fn name(text: &[u16]) -> Option<u32> {
    let at = NAMES.iter().position(|name| units(name) == text)?;
    Some(1 << at)
}

fn host(text: &[u16]) -> Option<u32> {
    let scheme = units("://");
    (text == units("<all_urls>") || text.windows(scheme.len()).any(|window| window == scheme)).then_some(1 << 23)
}

type Meaning = fn(&[u16]) -> Option<u32>;

/// The set of a list and how many of its strings set nothing; none where it is not an array of strings.
fn list(value: Option<&Json>, meanings: &[Meaning]) -> Option<(u32, u32)> {
    let elements = match value {
        None => return Some((0, 0)),
        Some(Json::Array(elements)) => elements,
        Some(_) => return None,
    };
    let (mut set, mut others) = (0, 0);
    for element in elements {
        let Json::Text(text) = element else { return None };
        match meanings.iter().find_map(|meaning| meaning(text)) {
            Some(bits) => set |= bits,
            None => others += 1,
        }
    }
    Some((set, others))
}

/// What a manifest says, or the number of its refusal.
pub fn read(bytes: &[u8]) -> Result<Manifest, u32> {
    if bytes.len() > 16_384 {
        return Err(43);
    }
    let Some(Json::Object(members)) = parse(bytes, 16) else { return Err(43) };
    if members.iter().map(|(key, _)| key).collect::<BTreeSet<_>>().len() < members.len() {
        return Err(44);
    }
    let members: BTreeMap<Vec<u16>, Json> = members.into_iter().collect();
    let version = match members.get(&units("manifest_version")) {
        Some(Json::Number(spelling)) if spelling == "2" => 2,
        Some(Json::Number(spelling)) if spelling == "3" => 3,
        _ => return Err(45),
    };
    let permissions = members.get(&units("permissions"));
    let hosts = members.get(&units("host_permissions"));
    let (set, others) = if version == 2 {
        list(permissions, &[name, host]).ok_or(46u32)?
    } else {
        let (names, first) = list(permissions, &[name]).ok_or(46u32)?;
        let (patterns, second) = list(hosts, &[host]).ok_or(46u32)?;
        (names | patterns, first + second)
    };
    Ok(Manifest { version, set, others })
}

/// The 64-bit answer of the C call: set + version × 2^24 + others × 2^40, or 2^32 + number × 65,536.
pub fn answer(bytes: &[u8]) -> u64 {
    match read(bytes) {
        Ok(manifest) => manifest.set as u64 + ((manifest.version as u64) << 24) + ((manifest.others as u64) << 40),
        Err(number) => (1 << 32) + number as u64 * 65_536,
    }
}
