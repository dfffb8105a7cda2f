//! Texts and manifests to read, with what RFC 8259 and document 02 say of each, and random ones.

use crate::generate::Random;

fn texts(list: &[&str]) -> Vec<Vec<u8>> {
    list.iter().map(|text| text.as_bytes().to_vec()).collect()
}

fn quoted(bytes: &[u8]) -> Vec<u8> {
    [b"\"", bytes, b"\""].concat()
}

/// So many arrays, one in another.
pub fn nested(depth: usize) -> Vec<u8> {
    [vec![b'['; depth], vec![b']'; depth]].concat()
}

/// Texts that RFC 8259 accepts, with at most 16 nested arrays and objects.
pub fn accepted() -> Vec<Vec<u8>> {
    let mut list = texts(&[
        "0",
        "-0",
        "7",
        "10",
        "-12",
        "0.5",
        "0.0",
        "1.25",
        "1e9",
        "1E9",
        "1e+9",
        "1E-9",
        "0e0",
        "0E+00",
        "-1.5e-3",
        "12345678901234567890123",
        "true",
        "false",
        "null",
        "\"\"",
        "\"a\"",
        " \t\r\n1 \t\r\n",
        "[]",
        "[ ]",
        "{}",
        "{ }",
        "[1]",
        "[1,2 , 3]",
        "[[],{}]",
        "{\"a\":1}",
        "{ \"a\" : 1 , \"b\" : [ ] }",
        "{\"\":0}",
        "{\"a\":1,\"a\":2}",
        "[true,false,null]",
        "[\"a\",\"b\"]",
        "\"\\\"\\\\\\/\\b\\f\\n\\r\\t\"",
        "\"\\u0000\"",
        "\"\\u00e9\\u00E9\"",
        "\"\\uD83D\\uDE00\"",
        "\"\\uD800\"",
        "\"\\uDC00\\uD800\"",
        "\"\\uD800x\"",
        "\"\u{7f}\"",
        "\"\u{80}\"",
        "\"\u{7ff}\"",
        "\"\u{800}\"",
        "\"\u{d7ff}\"",
        "\"\u{e000}\"",
        "\"\u{ffff}\"",
        "\"\u{10000}\"",
        "\"\u{10ffff}\"",
        "\"\u{2028}\u{2029}\"",
        "\"\u{feff}\"",
        "\"'\"",
        "\"/\"",
    ]);
    list.extend((1..=16).map(nested));
    list.push([b"{\"a\":".repeat(16), b"1".to_vec(), b"}".repeat(16)].concat());
    list
}

/// Texts that RFC 8259 refuses, or that nest deeper than 16.
pub fn refused() -> Vec<Vec<u8>> {
    let mut list = texts(&[
        "",
        " ",
        "01",
        "-01",
        "00",
        "-",
        "+1",
        ".5",
        "1.",
        "1.e1",
        "1e",
        "1e+",
        "1E-",
        "0x1",
        "1_0",
        "NaN",
        "Infinity",
        "-Infinity",
        "nul",
        "nulll",
        "True",
        "tru e",
        "[",
        "]",
        "[1",
        "[1,",
        "[1,]",
        "[,1]",
        "[,]",
        "[1 2]",
        "[1;2]",
        "[1}",
        "{",
        "}",
        "{1:2}",
        "{a:1}",
        "{'a':1}",
        "{\"a\"}",
        "{\"a\":}",
        "{\"a\" 1}",
        "{\"a\":1,}",
        "{,}",
        "{\"a\":1 \"b\":2}",
        "{\"a\":1]",
        "{\"a\"::1}",
        "'a'",
        "\"",
        "\"a",
        "\"\\\"",
        "\"\\",
        "\"\\u\"",
        "\"\\u00\"",
        "\"\\u00g0\"",
        "\"\\U0000\"",
        "\"\\x41\"",
        "\"\\a\"",
        "\"\\'\"",
        "\"\n\"",
        "\"\t\"",
        "\"\u{0}\"",
        "\"\u{1f}\"",
        "1 2",
        "{}{}",
        "[]x",
        "{} //",
        "/**/1",
        "#1",
        "\u{feff}1",
        "\u{a0}1",
        "\u{2028}1",
        "1\u{0}",
        "\u{b}1",
        "\u{c}1",
    ]);
    let damaged: [&[u8]; 17] = [
        b"\x80",
        b"\xbf",
        b"\xc0\x80",
        b"\xc1\xbf",
        b"\xc2",
        b"\xc2a",
        b"\xe0\x80\x80",
        b"\xe0\x9f\xbf",
        b"\xe2\x80",
        b"\xed\xa0\x80",
        b"\xed\xbf\xbf",
        b"\xf0\x80\x80\x80",
        b"\xf0\x8f\xbf\xbf",
        b"\xf4\x90\x80\x80",
        b"\xf5\x80\x80\x80",
        b"\xfe",
        b"\xff",
    ];
    list.extend(damaged.iter().map(|bytes| quoted(bytes)));
    list.extend(damaged.iter().map(|bytes| bytes.to_vec()));
    list.extend((17..40).map(nested));
    list.push([b"{\"a\":".repeat(17), b"1".to_vec(), b"}".repeat(17)].concat());
    list
}

/// Manifests as extensions have them, each with its version, its set and how many strings set nothing; or its number.
pub fn manifests() -> Vec<(&'static str, Result<(u32, u32, u32), u32>)> {
    vec![
        ("{\"manifest_version\":2}", Ok((2, 0, 0))),
        ("{\"manifest_version\":3}", Ok((3, 0, 0))),
        ("{\"manifest_version\":2,\"permissions\":[]}", Ok((2, 0, 0))),
        (
            "{\n  \"name\": \"Tab saver\",\n  \"version\": \"1.4\",\n  \"manifest_version\": 2,\n  \"background\": { \"scripts\": [\"background.js\"], \"persistent\": false },\n  \
             \"permissions\": [\"tabs\", \"storage\", \"http://*/*\", \"https://*/*\"],\n  \"browser_action\": { \"default_icon\": { \"16\": \"a.png\" } }\n}\n",
            Ok((2, 0x80_0003, 0)),
        ),
        (
            "{\"manifest_version\":3,\"name\":\"R\",\"version\":\"1\",\"permissions\":[\"storage\",\"scripting\",\"proxy\"],\"host_permissions\":[\"<all_urls>\"],\
             \"background\":{\"service_worker\":\"w.js\"},\"optional_permissions\":[\"history\"]}",
            Ok((3, 0x80_0201, 1)),
        ),
        (
            "{\"manifest_version\":2,\"permissions\":[\"storage\",\"tabs\",\"cookies\",\"history\",\"downloads\",\"bookmarks\",\"notifications\",\"webRequest\",\"management\",\"proxy\"]}",
            Ok((2, 0x3ff, 0)),
        ),
        ("{\"manifest_version\":2,\"permissions\":[\"<all_urls>\",\"ftp://x\",\"://\",\":/\",\"//\",\"<all_urls> \"]}", Ok((2, 0x80_0000, 3))),
        ("{\"manifest_version\":2,\"permissions\":[\"tabs\",\"tabs\",\"x\",\"x\",\"\"]}", Ok((2, 2, 3))),
        ("{\"manifest_version\":2,\"permissions\":[\"Tabs\",\"webrequest\",\"tab\",\"tabss\",\" tabs\"]}", Ok((2, 0, 5))),
        ("{\"manifest_version\":2,\"permissions\":[\"t\\u0061bs\",\"coo\\u006bie\\u0073\",\"a:\\/\\/b\",\"a\\u003a//b\"]}", Ok((2, 0x80_0006, 0))),
        ("{\"manifest_version\":2,\"permissions\":[\"tabs\"],\"host_permissions\":7}", Ok((2, 2, 0))),
        ("{\"manifest_version\":2,\"permissions\":[\"tabs\"],\"host_permissions\":[\"http://a\",1]}", Ok((2, 2, 0))),
        ("{\"manifest_version\":3,\"permissions\":[\"http://a\",\"<all_urls>\",\"tabs\"],\"host_permissions\":[\"tabs\",\"proxy\"]}", Ok((3, 2, 4))),
        ("{\"manifest_version\":3,\"host_permissions\":[\"https://*/\",\"tabs\"]}", Ok((3, 0x80_0000, 1))),
        ("{\"manifest_\\u0076ersion\":3,\"permission\\u0073\":[\"tabs\"]}", Ok((3, 2, 0))),
        ("{\"a\":{\"manifest_version\":2},\"manifest_version\":3,\"b\":{\"a\":1,\"a\":2}}", Ok((3, 0, 0))),
        ("{\"\\ud83d\":1,\"\\ude00\":2,\"\\ud83d\\ude00\":3,\"manifest_version\":2}", Ok((2, 0, 0))),
        ("", Err(43)),
        ("[]", Err(43)),
        ("\"manifest_version\"", Err(43)),
        ("{\"manifest_version\":2,}", Err(43)),
        ("{\"manifest_version\":2}{}", Err(43)),
        ("{\"a\":1,\"a\":01}", Err(43)),
        ("{\"a\":1,\"a\":2}", Err(44)),
        ("{\"a\":1,\"b\":2,\"\\u0061\":3}", Err(44)),
        ("{\"\u{1f600}\":1,\"\\ud83d\\ude00\":2}", Err(44)),
        ("{\"\":1,\"\":2}", Err(44)),
        ("{\"manifest_version\":2,\"manifest_version\":2}", Err(44)),
        ("{\"\\ud800\":1,\"\\uD800\":2}", Err(44)),
        ("{\"/\":1,\"\\/\":2}", Err(44)),
        ("{}", Err(45)),
        ("{\"manifest_version\":\"2\"}", Err(45)),
        ("{\"manifest_version\":2.0}", Err(45)),
        ("{\"manifest_version\":2e0}", Err(45)),
        ("{\"manifest_version\":20}", Err(45)),
        ("{\"manifest_version\":-2}", Err(45)),
        ("{\"manifest_version\":1}", Err(45)),
        ("{\"manifest_version\":4}", Err(45)),
        ("{\"manifest_version\":null,\"permissions\":1}", Err(45)),
        ("{\"manifest_version\":[2]}", Err(45)),
        ("{\"Manifest_version\":2}", Err(45)),
        ("{\"manifest_version\":2,\"permissions\":null}", Err(46)),
        ("{\"manifest_version\":2,\"permissions\":\"tabs\"}", Err(46)),
        ("{\"manifest_version\":2,\"permissions\":{}}", Err(46)),
        ("{\"manifest_version\":2,\"permissions\":[\"tabs\",1]}", Err(46)),
        ("{\"manifest_version\":2,\"permissions\":[[\"tabs\"]]}", Err(46)),
        ("{\"manifest_version\":3,\"permissions\":[\"tabs\"],\"host_permissions\":null}", Err(46)),
        ("{\"manifest_version\":3,\"permissions\":[null],\"host_permissions\":[]}", Err(46)),
        ("{\"manifest_version\":3,\"permissions\":[],\"host_permissions\":[{}]}", Err(46)),
    ]
}

/// A manifest of version 2 of so many bytes.
pub fn of_length(bytes: usize) -> Vec<u8> {
    let mut text = b"{\"manifest_version\":2,\"permissions\":[\"tabs\"],\"description\":\"".to_vec();
    text.resize(bytes - 2, b'x');
    text.extend(b"\"}");
    text
}

/// A manifest whose top member nests so many arrays: the top object is the first of `depth`.
pub fn of_depth(depth: usize) -> Vec<u8> {
    [b"{\"manifest_version\":2,\"a\":".to_vec(), nested(depth - 1), b"}".to_vec()].concat()
}

/// Each text with one byte changed, left out or put in.
pub fn damaged(text: &[u8], mut visit: impl FnMut(&[u8])) {
    let bytes =
        [0, 9, 10, 31, 32, 34, 44, 45, 46, 48, 50, 58, 69, 91, 92, 93, 101, 117, 123, 125, 127, 128, 191, 194, 224, 237, 240, 244, 255];
    for at in 0..text.len() {
        let mut changed = text.to_vec();
        for byte in bytes {
            changed[at] = byte;
            visit(&changed);
        }
        changed.remove(at);
        visit(&changed);
        for byte in bytes {
            changed.insert(at, byte);
            changed.insert(at + 1, text[at]);
            visit(&changed);
            changed.remove(at);
            changed.remove(at);
        }
    }
}

const WORDS: [&str; 23] = [
    "storage",
    "tabs",
    "cookies",
    "history",
    "downloads",
    "bookmarks",
    "notifications",
    "webRequest",
    "management",
    "proxy",
    "<all_urls>",
    "http://a/*",
    "x",
    "",
    "://",
    ":/",
    "manifest_version",
    "permissions",
    "host_permissions",
    "é",
    "\u{1f600}",
    "\u{ffff}",
    "a\u{10000}b",
];

/// Random manifests, some of them with escapes, wrong values, repeated keys or white space.
struct Author<'a> {
    random: &'a mut Random,
    text: Vec<u8>,
}

impl Author<'_> {
    fn put(&mut self, text: &str) {
        self.text.extend(text.bytes());
        if self.random.once_in(12) {
            self.text.push(*self.random.pick(b" \n\t\r"));
        }
    }

    /// A word as a string; a character is now and then escaped, and a lone surrogate put behind it.
    fn string(&mut self) {
        self.text.push(b'"');
        for character in self.random.pick(&WORDS).chars() {
            if self.random.once_in(8) {
                for unit in character.encode_utf16(&mut [0; 2]) {
                    self.text.extend(format!("\\u{unit:04x}").bytes());
                }
            } else {
                self.text.extend(character.encode_utf8(&mut [0; 4]).bytes());
            }
        }
        if self.random.once_in(20) {
            let surrogate = 0xd800 + self.random.below(0x800);
            self.text.extend(format!("\\u{surrogate:04X}").bytes());
        }
        self.put("\"");
    }

    fn value(&mut self, nest: usize) {
        match self.random.below(if nest == 0 { 6 } else { 9 }) {
            0 => self.put("true"),
            1 => self.put("null"),
            2 => {
                let number = *self.random.pick(&["2", "3", "-0.5e+3", "0", "20", "2.0", "2e0", "123"]);
                self.put(number);
            }
            3..=5 => self.string(),
            kind => {
                let keyed = kind == 8;
                self.put(if keyed { "{" } else { "[" });
                for item in 0..self.random.below(4) {
                    if item > 0 {
                        self.put(",");
                    }
                    if keyed {
                        self.string();
                        self.put(":");
                    }
                    self.value(nest - 1);
                }
                self.put(if keyed { "}" } else { "]" });
            }
        }
    }

    fn list(&mut self) {
        self.put("[");
        for element in 0..self.random.below(7) {
            if element > 0 {
                self.put(",");
            }
            if self.random.once_in(40) {
                self.value(2);
            } else {
                self.string();
            }
        }
        self.put("]");
    }

    fn manifest(&mut self) {
        self.put("{");
        let version = *self.random.pick(&["2", "3", "2", "3", "2", "3", "4", "\"2\""]);
        self.put("\"manifest_version\":");
        self.put(version);
        for key in ["\"permissions\"", "\"host_permissions\""] {
            if !self.random.once_in(3) {
                self.put(",");
                self.put(key);
                self.put(":");
                self.list();
            }
        }
        for _ in 0..self.random.below(4) {
            self.put(",");
            self.string();
            self.put(":");
            let nest = self.random.below(6);
            self.value(nest);
        }
        self.put("}");
    }
}

pub fn random_manifest(random: &mut Random) -> Vec<u8> {
    let mut author = Author { random, text: Vec::new() };
    author.manifest();
    author.text
}

/// A text with up to three bytes changed, left out or put in.
pub fn random_damage(random: &mut Random, mut text: Vec<u8>) -> Vec<u8> {
    for _ in 0..1 + random.below(3) {
        let at = random.below(text.len().max(1));
        let byte = random.below(256) as u8;
        match random.below(3) {
            0 if at < text.len() => drop(text.remove(at)),
            1 if at < text.len() => text[at] = byte,
            _ => text.insert(at.min(text.len()), byte),
        }
    }
    text
}
