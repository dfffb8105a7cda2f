//! Listings, written and read from the text of document 02, wish 1, and docs/KEYWORDS.txt alone: a line is taken apart by its keyword and
//! the form of its argument.

use crate::table::{arity, kind, read_narrow, refused, Refusal};

/// The most bytes of a listing.
pub const MOST_BYTES: usize = 65_536;

/// The keyword of each kind, as docs/KEYWORDS.txt has them.
pub fn keywords() -> Vec<(u8, &'static str)> {
    include_str!("../../../docs/KEYWORDS.txt")
        .lines()
        .map(|line| line.split_once(' ').expect("a kind and its keyword"))
        .map(|(kind, keyword)| (kind.parse().expect("a kind is a number"), keyword))
        .collect()
}

enum Form {
    Nothing,
    Set,
    Whole,
    Signed,
}

fn form(kind: u8) -> Form {
    match kind {
        kind::PERMISSIONS | kind::GUARD | kind::SEND | kind::EXERCISE => Form::Set,
        kind::NUMBER => Form::Signed,
        kind::SYSTEM | kind::BLOCK | kind::CONSTANT | kind::LITERAL | kind::NAME | kind::VARIABLE | kind::OPERATION => Form::Whole,
        _ => Form::Nothing,
    }
}

fn spelled(word: u32) -> String {
    let (kind, argument) = ((word >> 24) as u8, word & 0xff_ffff);
    let keyword = keywords().into_iter().find(|entry| entry.0 == kind).expect("a kind of document 01").1;
    match form(kind) {
        Form::Nothing => keyword.to_string(),
        Form::Set => format!("{keyword} {argument:06x}"),
        Form::Whole => format!("{keyword} {argument}"),
        Form::Signed if argument < 1 << 23 => format!("{keyword} {argument}"),
        Form::Signed => format!("{keyword} -{}", (1 << 24) - argument),
    }
}

/// The depth of each word of an accepted table: by recursion over its terms.
fn depths(words: &[u32]) -> Vec<usize> {
    fn term(words: &[u32], depth: usize, depths: &mut Vec<usize>) {
        let parts = arity((words[depths.len()] >> 24) as u8);
        depths.push(depth);
        for _ in 0..parts {
            term(words, depth + 1, depths);
        }
    }
    let mut depths = vec![0];
    while depths.len() < words.len() {
        depths.extend([0; 3]);
        term(words, 1, &mut depths);
    }
    depths
}

/// The text of an accepted table.
pub fn text(words: &[u32]) -> Vec<u8> {
    let lines = words.iter().zip(depths(words)).map(|(&word, depth)| format!("{}{}\n", " ".repeat(2 * depth), spelled(word)));
    lines.collect::<String>().into_bytes()
}

pub fn write(words: &[u32], room: usize) -> Result<Vec<u8>, Refusal> {
    read_narrow(words)?;
    let text = text(words);
    if text.len() > MOST_BYTES {
        return refused(41, 0);
    }
    if text.len() > room {
        return refused(42, 0);
    }
    Ok(text)
}

/// A whole number below the limit, without zeros in front.
fn whole(digits: &str, limit: u64) -> Option<u32> {
    let plain = !digits.is_empty() && digits.len() < 12 && digits.bytes().all(|b| b.is_ascii_digit()) && (digits == "0" || !digits.starts_with('0'));
    let number: u64 = if plain { digits.parse().ok()? } else { return None };
    (number < limit).then_some(number as u32)
}

/// The argument, from what stands behind the keyword.
fn argument(kind: u8, rest: &str) -> Option<u32> {
    if let Form::Nothing = form(kind) {
        return rest.is_empty().then_some(0);
    }
    let rest = rest.strip_prefix(' ')?;
    match form(kind) {
        Form::Set if rest.len() == 6 && rest.bytes().all(|b| b.is_ascii_digit() || (b'a'..=b'f').contains(&b)) => u32::from_str_radix(rest, 16).ok(),
        Form::Set | Form::Nothing => None,
        Form::Whole => whole(rest, 1 << 24),
        Form::Signed => match rest.strip_prefix('-') {
            None => whole(rest, 1 << 23),
            Some(digits) => whole(digits, (1 << 23) + 1).filter(|&n| n != 0).map(|n| (1 << 24) - n),
        },
    }
}

/// The word of a line without leading spaces, its line feed included.
fn word(line: &[u8]) -> Option<u32> {
    let line = std::str::from_utf8(line).ok()?.strip_suffix('\n')?;
    let end = line.find(|c: char| !c.is_ascii_lowercase()).unwrap_or(line.len());
    let (keyword, rest) = line.split_at(end);
    let kind = keywords().into_iter().find(|entry| entry.1 == keyword)?.0;
    Some(u32::from(kind) << 24 | argument(kind, rest)?)
}

pub fn read(text: &[u8], room: usize) -> Result<Vec<u32>, Refusal> {
    if text.len() > MOST_BYTES {
        return refused(41, 0);
    }
    let lines: Vec<&[u8]> = text.split_inclusive(|&b| b == b'\n').collect();
    let (mut words, mut spaces) = (vec![], vec![]);
    for (n, line) in lines.iter().enumerate() {
        let leading = line.iter().take_while(|&&b| b == b' ').count();
        match word(&line[leading..]) {
            Some(word) => words.push(word),
            None => return refused(40, n + 1),
        }
        spaces.push(leading);
    }
    read_narrow(&words)?;
    for (n, (leading, depth)) in spaces.iter().zip(depths(&words)).enumerate() {
        if *leading != 2 * depth {
            return refused(40, n + 1);
        }
    }
    if words.len() > room {
        return refused(42, 0);
    }
    Ok(words)
}

/// The sentence of a number, as docs/REFUSALS.md has it.
pub fn meaning(number: u32) -> &'static str {
    let row = format!("| {number} | ");
    let line = include_str!("../../../docs/REFUSALS.md").lines().find(|line| line.starts_with(&row)).expect("a number of the page");
    line[row.len()..].trim_end_matches('|').trim_end()
}

/// A line with its number, and with a line feed also where it has none; nothing where there is no such line.
fn shown(label: &str, number: usize, text: &[u8]) -> Vec<u8> {
    match text.split_inclusive(|&b| b == b'\n').nth(number.wrapping_sub(1)) {
        Some(line) => [format!("{label} {number}: ").as_bytes(), line.strip_suffix(b"\n").unwrap_or(line), b"\n"].concat(),
        None => vec![],
    }
}

/// The text of the words of all lines, whatever their leading spaces.
fn respaced(text: &[u8]) -> Option<Vec<u8>> {
    let words = text.split_inclusive(|&b| b == b'\n').map(|line| word(&line[line.iter().take_while(|&&b| b == b' ').count()..]));
    write(&words.collect::<Option<Vec<u32>>>()?, MOST_BYTES).ok()
}

/// What is wrong with a text, for a person: the refusal, the line as it stands, as it should stand where its leading spaces are wrong, and the sentence.
pub fn check(text: &[u8]) -> Vec<u8> {
    let refusal = match read(text, 1024) {
        Ok(words) => return format!("accepted {}\n", words.len()).into_bytes(),
        Err(refusal) => refusal,
    };
    let first = format!("refused {} at {}\n", refusal.number, refusal.place).into_bytes();
    let last = format!("{}\n", meaning(refusal.number)).into_bytes();
    let (line, right) = match refusal.number {
        40 => (shown("line", refusal.place, text), respaced(text).map(|text| shown("right, line", refusal.place, &text))),
        41 => (vec![], None),
        _ => (shown("line", refusal.place + 1, text), None),
    };
    [first, line, right.unwrap_or_default(), last].concat()
}
