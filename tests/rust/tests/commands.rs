//! The program for listings, run as a user runs it. WIPHOSEGA_LISTINGS names it.
#![cfg(proved)]

use peer::class::record;
use peer::estimate::{made, Layout, OPPONENT};
use peer::generate::{lowered, sensible_table, table, words, Random};
use peer::listing::{check, meaning, read, text, write};
use peer::manifest::Manifest;
use peer::manifest_inputs::{manifests, of_length, random_damage, random_manifest};
use peer::overlay::{join, lookup};
use peer::overlay_inputs::{keys, pair, relay};
use peer::samples::{forty_one, samples};
use peer::table::{kind, Table, NARROW, WIDTHS};
use peer::terms::{block, send, system, term, variable};
use peer::verdict::{bytes_of, program, refusal_line};
use peer::widths::{narrow, widen};
use std::io::Write;
use std::process::{Command, Stdio};

/// What the program prints for these arguments and this standard input.
fn run(arguments: &[&str], input: &[u8]) -> Vec<u8> {
    let name = std::env::var("WIPHOSEGA_LISTINGS").expect("WIPHOSEGA_LISTINGS names the program");
    let mut child = Command::new(name).args(arguments).stdin(Stdio::piped()).stdout(Stdio::piped()).spawn().expect("the program can be started");
    let _ = child.stdin.take().unwrap().write_all(input);
    let output = child.wait_with_output().expect("the program ends");
    assert!(output.status.success());
    output.stdout
}

fn printed(arguments: &[&str], input: &[u8]) -> String {
    String::from_utf8(run(arguments, input)).expect("text")
}

#[test]
fn words_and_text() {
    let mut random = Random(41);
    let tables = (0..100).map(|_| table(&mut random, NARROW));
    for words in samples().into_iter().map(|sample| sample.words).chain(tables) {
        let output = run(&["text"], &bytes_of(&words));
        match write(&words, 65_536) {
            Ok(text) => {
                assert_eq!(output, text);
                assert_eq!(run(&["words"], &text), bytes_of(&words));
                assert_eq!(printed(&["check"], &text), format!("accepted {}\n", words.len()));
            }
            Err(refusal) => assert_eq!(output, format!("refused {} at {}\n", refusal.number, refusal.place).into_bytes()),
        }
    }
    assert_eq!(printed(&["text"], &[0; 3]), "refused 30 at 0\n");
    assert_eq!(printed(&["text"], &[0; 5000]), "refused 1 at 0\n");
    assert_eq!(printed(&["words"], &[b'\n'; 65_537]), "refused 41 at 0\n");
    assert_eq!(printed(&["words"], &vec![b'\n'; 200_000]), "refused 41 at 0\n");
}

/// A wide table has no listing.
#[test]
fn no_text_of_a_wide_table() {
    for words in [vec![0x0500_0000], vec![0x0500_0041], forty_one(), vec![0x0500_0000; 1025]] {
        assert_eq!(printed(&["text"], &bytes_of(&words)), "refused 1 at 0\n");
    }
}

/// Words in and words out, of samples and of random and damaged tables of either width.
#[test]
fn converters() {
    let mut random = Random(43);
    let mut tables: Vec<Vec<u32>> = samples().into_iter().map(|sample| sample.words).collect();
    for round in 0..200 {
        let words = words(&mut random, WIDTHS[round % 2]);
        tables.push(if round % 4 == 1 { lowered(&words) } else { words });
    }
    let mut converted = 0;
    for words in tables {
        let mut out = vec![0; 1024];
        for (command, answer) in [("widen", widen(&words, &mut out)), ("narrow", narrow(&words, &mut out))] {
            converted += usize::from(answer.is_ok());
            let expected = answer.map_or_else(|refusal| refusal_line(&refusal).into_bytes(), |count| bytes_of(&out[..count]));
            assert_eq!(run(&[command], &bytes_of(&words)), expected, "{command} {words:08x?}");
        }
    }
    assert!(converted > 60, "{converted}");
    for command in ["widen", "narrow"] {
        assert_eq!(printed(&[command], &[]), "refused 1 at 0\n");
        assert_eq!(printed(&[command], &[0; 3]), "refused 30 at 0\n");
        assert_eq!(printed(&[command], &[0; 5000]), "refused 1 at 0\n");
    }
    assert_eq!(printed(&["widen"], &bytes_of(&[0x0100_0000; 1025])), "refused 2 at 0\n");
    assert_eq!(printed(&["narrow"], &bytes_of(&[0x0500_0000; 50_000])), "refused 2 at 0\n");
    assert_eq!(printed(&["narrow"], &bytes_of(&forty_one())), "refused 55 at 0\n");
    assert_eq!(printed(&["narrow"], &bytes_of(&[0x0500_0001, 0x0200_0020, 0x0300_0003, 0x0400_0000, 0x1000_0000])), "refused 56 at 1\n");
}

/// A system of the stream of a class: its length, ρ and its words. Over 256 words it is none.
#[test]
fn packed() {
    let mut random = Random(42);
    let tables = (0..100).map(|_| table(&mut random, NARROW));
    for words in samples().into_iter().map(|sample| sample.words).chain(tables) {
        let Ok(text) = write(&words, 65_536) else { continue };
        let rho = words.len() as u32 * 0x0100_0193;
        let output = run(&["pack", &format!("{rho:x}")], &text);
        if words.len() <= 256 {
            assert_eq!(output, record(rho, &words));
        } else {
            assert_eq!(output, b"refused 59 at 0\n");
        }
    }
    assert_eq!(printed(&["pack", "0"], b"system 1\nhandle 0\n"), "refused 40 at 2\n");
    assert_eq!(printed(&["pack", "0"], b""), "refused 1 at 0\n");
}

#[test]
fn leak_as_document_01s_program() {
    for sample in samples() {
        if read(&text_or_nothing(&sample.words), 1024).is_ok() && sample.words.len() <= 256 {
            let (rho, bound) = (format!("{:x}", sample.rho), format!("{:x}", sample.bound));
            let expected = program(&bytes_of(&[vec![sample.rho, sample.bound], sample.words.clone()].concat()));
            assert_eq!(printed(&["leak", &rho, &bound], &text(&sample.words)), expected);
            if sample.bound == 0 {
                assert_eq!(printed(&["leak", &rho], &text(&sample.words)), expected);
            }
        }
    }
}

fn text_or_nothing(words: &[u32]) -> Vec<u8> {
    write(words, 65_536).unwrap_or_default()
}

/// What `check` prints for each number, in full.
#[test]
fn what_is_wrong() {
    let head = "system 1\nhandler 0\npermissions 000003\nguard 000000\n";
    let whole = format!("{head}  variable 0\n");
    let deep: Vec<String> = (1..=65).map(|depth| format!("{}function\n", "  ".repeat(depth))).collect();
    let long = "a".repeat(65_536);
    let cases = [
        (whole.clone(), "accepted 5\n".to_string()),
        (String::new(), format!("refused 1 at 0\n{}\n", meaning(1))),
        ("handler 0\n".to_string(), format!("refused 1 at 0\nline 1: handler 0\n{}\n", meaning(1))),
        ("system 0\n".repeat(1025), format!("refused 2 at 0\nline 1: system 0\n{}\n", meaning(2))),
        ("system 33\n".to_string(), format!("refused 3 at 0\nline 1: system 33\n{}\n", meaning(3))),
        ("system 1\npermissions 000000\n".to_string(), format!("refused 4 at 1\nline 2: permissions 000000\n{}\n", meaning(4))),
        ("system 1\n".to_string(), format!("refused 4 at 1\n{}\n", meaning(4))),
        ("system 1\nhandler 32\n".to_string(), format!("refused 5 at 1\nline 2: handler 32\n{}\n", meaning(5))),
        (format!("{}{}", whole.replace("system 1", "system 2"), &whole[9..]), format!("refused 6 at 6\nline 7: permissions 000003\n{}\n", meaning(6))),
        (format!("{head}handler 0\n"), format!("refused 7 at 4\nline 5: handler 0\n{}\n", meaning(7))),
        (head.to_string(), format!("refused 8 at 4\n{}\n", meaning(8))),
        (format!("{head}  constant 99\n"), format!("refused 9 at 4\nline 5:   constant 99\n{}\n", meaning(9))),
        (format!("{head}  variable 1\n"), format!("refused 10 at 4\nline 5:   variable 1\n{}\n", meaning(10))),
        (format!("{head}{}", deep.concat()), format!("refused 11 at 68\nline 69: {}{}\n", deep[64], meaning(11))),
        (format!("{whole}guard 000000\n"), format!("refused 12 at 5\nline 6: guard 000000\n{}\n", meaning(12))),
        (format!("{head}variable 0\n"), format!("refused 40 at 5\nline 5: variable 0\nright, line 5:   variable 0\n{}\n", meaning(40))),
        (format!(" {whole}"), format!("refused 40 at 1\nline 1:  system 1\nright, line 1: system 1\n{}\n", meaning(40))),
        (format!("{head}  variable 0"), format!("refused 40 at 5\nline 5:   variable 0\n{}\n", meaning(40))),
        (format!("{head}  apply\n    unit\n"), format!("refused 40 at 6\nline 6:     unit\n{}\n", meaning(40))),
        ("\n".to_string(), format!("refused 40 at 1\nline 1: \n{}\n", meaning(40))),
        (long.clone(), format!("refused 40 at 1\nline 1: {long}\n{}\n", meaning(40))),
        (format!("{long}a"), format!("refused 41 at 0\n{}\n", meaning(41))),
        ("\n".repeat(200_000), format!("refused 41 at 0\n{}\n", meaning(41))),
    ];
    for (text, expected) in cases {
        assert_eq!(printed(&["check"], text.as_bytes()), expected);
        assert_eq!(check(text.as_bytes()), expected.as_bytes());
    }
}

/// What `check` prints of damaged texts, against the independent implementation.
#[test]
fn what_is_wrong_with_damaged_texts() {
    let mut random = Random(47);
    let mut right = 0;
    for round in 0..300 {
        let Ok(text) = write(&table(&mut random, NARROW), 65_536) else { continue };
        let damaged = if round % 2 == 0 { random_damage(&mut random, text) } else { respaced(&mut random, text) };
        let output = run(&["check"], &damaged);
        assert_eq!(output, check(&damaged));
        right += usize::from(output.windows(7).any(|bytes| bytes == b"\nright,"));
    }
    assert!(right > 50, "{right}");
}

/// The text with a leading space more, or one less, in a line.
fn respaced(random: &mut Random, text: Vec<u8>) -> Vec<u8> {
    let mut lines: Vec<Vec<u8>> = text.split_inclusive(|&b| b == b'\n').map(<[u8]>::to_vec).collect();
    let place = random.below(lines.len());
    if lines[place][0] == b' ' && random.below(2) == 0 {
        lines[place].remove(0);
    } else {
        lines[place].insert(0, b' ');
    }
    lines.concat()
}

/// The sentences of docs/REFUSALS.md are the program's.
#[test]
fn explained() {
    let page = include_str!("../../../docs/REFUSALS.md");
    let mut count = 0;
    for line in page.lines().filter(|line| line.starts_with("| ") && line.as_bytes()[2].is_ascii_digit()) {
        let cells: Vec<&str> = line.trim_matches('|').split(" | ").map(str::trim).collect();
        assert_eq!(printed(&["explain", cells[0]], b""), format!("{}\n", cells[1]));
        count += 1;
    }
    assert_eq!(count, 54);
    assert_eq!(printed(&["explain", "13"], b""), "No refusal has this number.\n");
    let help = printed(&[], b"");
    assert!(["text", "words", "leak RHO BOUND CEILING", "deliveries", "senders RHO", "order RHO", "estimate RHO", "audit RHO", "check", "join", "block NAME SET", "widen", "narrow", "manifest", "pack RHO", "explain NUMBER"].iter().all(|command| help.contains(&format!("wiphosega {command}"))));
    for arguments in [&["leaks"][..], &["leak"], &["leak", "x"], &["leak", "0", "x"], &["leak", "0", "0", "a"], &["leak", "0", "0", "123456789"], &["senders"], &["senders", "x"], &["order"], &["order", "x"], &["estimate"], &["audit", "x"], &["explain"], &["explain", "1x"], &["explain", "123456789"], &["block"], &["block", "1"], &["block", "0a", "2"], &["pack"], &["pack", "g"], &["pack", "123456789"]] {
        assert_eq!(printed(arguments, b""), help);
    }
}

/// Two listings, the second laid over the first: the joined listing, and the lines of each of its handlers.
#[test]
fn join_and_block() {
    let mut random = Random(45);
    let mut joins = 0;
    for _ in 0..150 {
        let (base, overlay) = pair(&mut random);
        let (Ok(under), Ok(over)) = (write(&base, 65_536), write(&overlay, 65_536)) else { continue };
        let both = [under, over].concat();
        let mut out = vec![0; 1024];
        let expected = match join(&base, &overlay, &mut out) {
            Ok(count) => write(&out[..count], 65_536).map_err(|refusal| (refusal.number, refusal.place)),
            Err(refusal) => Err((refusal.number, refusal.place)),
        };
        let output = run(&["join"], &both);
        let Ok(text) = expected else {
            let (number, place) = expected.unwrap_err();
            assert_eq!(output, format!("refused {number} at {place}\n").into_bytes());
            continue;
        };
        assert_eq!(output, text);
        joins += 1;
        for (name, set) in keys(&peer::table::read(&read(&text, 1024).unwrap()).unwrap()).into_iter().take(3) {
            let block = lookup(&base, &overlay, name, set);
            let alone = peer::listing::text(&system(&[block.to_vec()]));
            assert_eq!(run(&["block", &name.to_string(), &format!("{set:x}")], &both), alone[b"system 1\n".len()..]);
        }
    }
    assert!(joins > 50, "{joins}");
}

#[test]
fn refusals_of_two_listings() {
    let (base, overlay) = relay();
    let (base, overlay) = (String::from_utf8(text(&base)).unwrap(), String::from_utf8(text(&overlay)).unwrap());
    let said = |arguments: &[&str], first: &str, second: &str| printed(arguments, format!("{first}{second}").as_bytes());
    let join = |first: &str, second: &str| said(&["join"], first, second);
    assert_eq!(join(&base, ""), "refused 101 at 0\n");
    assert_eq!(join("", ""), "refused 1 at 0\n");
    assert_eq!(join(&base.replace("guard 000008", "guard 8"), &overlay), "refused 40 at 10\n");
    assert_eq!(join(&base, &overlay.replace("guard 000008", "guard 8")), "refused 140 at 4\n");
    assert_eq!(join(&base.replace("name 1", "name 40"), &overlay), "refused 9 at 5\n");
    assert_eq!(join(&base, &overlay.replace("  record", "record")), "refused 140 at 9\n");
    assert_eq!(join(&base, &overlay.replace("handler 1", "handler 32")), "refused 105 at 1\n");
    assert_eq!(join(&base, &format!("{overlay}{}", "x\n".repeat(40_000))), "refused 141 at 0\n");
    assert_eq!(join(&"x\n".repeat(400_000), &overlay), "refused 41 at 0\n");
    assert_eq!(said(&["block", "1", "2"], &base, &overlay), "handler 1\npermissions 000002\nguard 000000\n  record\n");
    assert_eq!(said(&["block", "0", "8"], &base, &overlay), "handler 0\npermissions 000008\nguard 000000\n  send 000000\n    name 1\n    variable 0\n");
    assert_eq!(said(&["block", "0", "1000008"], &base, &overlay), "refused 47 at 0\n");
    assert_eq!(said(&["block", "0", "8"], &base, ""), "refused 101 at 0\n");
}

/// Manifests with answers written by hand, random and damaged ones, and texts over the limit.
#[test]
fn manifest() {
    let mut random = Random(44);
    let random_texts = (0..100).map(|_| random_manifest(&mut random)).collect::<Vec<_>>();
    let damaged_texts = random_texts.iter().map(|text| random_damage(&mut random, text.clone())).collect::<Vec<_>>();
    let written = manifests().into_iter().map(|(text, _)| text.as_bytes().to_vec());
    let limits = [of_length(16_384), of_length(16_385), of_length(100_000), Vec::new()];
    for text in written.chain(random_texts).chain(damaged_texts).chain(limits) {
        let expected = match peer::manifest::read(&text) {
            Ok(Manifest { version, set, others }) => format!("version {version} set {set:06x} other {others}\n"),
            Err(number) => format!("refused {number} at 0\n"),
        };
        assert_eq!(printed(&["manifest"], &text), expected, "{:?}", String::from_utf8_lossy(&text));
    }
    let text = br#"{"manifest_version":3,"permissions":["tabs","proxy","scripting"],"host_permissions":["<all_urls>"]}"#;
    assert_eq!(printed(&["manifest"], text), "version 3 set 800202 other 1\n");
}

/// The leaks of docs/EXAMPLES.md, by the program and by the independent implementation.
#[test]
fn examples() {
    let root = concat!(env!("CARGO_MANIFEST_DIR"), "/../..");
    let page = include_str!("../../../docs/EXAMPLES.md");
    let mut count = 0;
    for line in page.lines().filter(|line| line.matches('|').count() == 4 && line.contains(" 0000")) {
        let cells: Vec<&str> = line.trim_matches('|').split('|').map(str::trim).collect();
        let text = std::fs::read(format!("{root}/examples/{}.listing", cells[0])).expect("a listing");
        let output = printed(&["leak", cells[1]], &text);
        assert!(output.starts_with(&format!("leak {} bound 000000 ", cells[2])), "{line}: {output}");
        let rho = u32::from_str_radix(cells[1], 16).unwrap();
        let words = read(&text, 1024).expect("an accepted listing");
        assert_eq!(output, program(&bytes_of(&[vec![rho, 0], words].concat())));
        count += 1;
    }
    assert_eq!(count, 21);
}

/// The lines of every send and every block, written from document 02's sentence: name, required set, guard, in this order.
fn deliveries(table: &Table) -> String {
    let mut lines = String::new();
    for p in (0..table.size()).filter(|&p| table.kind(p) == kind::SEND) {
        let from = table.blocks.iter().rposition(|block| block.start < p).expect("a send stands in a block");
        let (sender, required, target) = (table.permissions(p), table.argument(p), table.part(p, 0));
        for (to, receiver) in table.blocks.iter().enumerate() {
            let named = table.kind(target) != kind::NAME || table.argument(target) == receiver.name;
            let (lacks, needs) = (required & !receiver.permissions, receiver.guard & !sender);
            let outcome = match (named, lacks, needs) {
                (false, _, _) => "other name".to_string(),
                (true, 0, 0) => "delivered".to_string(),
                (true, 0, _) => format!("needs {needs:06x}"),
                _ => format!("lacks {lacks:06x}"),
            };
            lines += &format!("send {p} from {from} to {to} {outcome}\n");
        }
    }
    lines
}

#[test]
fn why_a_send_is_not_delivered() {
    let mut random = Random(52);
    let mut count = 0;
    for words in samples().into_iter().map(|sample| sample.words).chain((0..150).map(|_| table(&mut random, NARROW))) {
        let (Ok(listing), Ok(table)) = (write(&words, 65_536), peer::table::read(&words)) else { continue };
        let expected = deliveries(&table);
        assert_eq!(printed(&["deliveries"], &listing), expected);
        count += expected.lines().count();
    }
    assert!(count > 1000, "{count}");
    let handlers = |required: &str, sender: &str, target: u32| {
        format!("system 2\nhandler 0\npermissions {sender}\nguard 000000\n  send {required}\n    name {target}\n    variable 0\nhandler 1\npermissions 000002\nguard 000008\n  exercise 000002\n")
    };
    let to_one = |text: String| printed(&["deliveries"], text.as_bytes()).lines().nth(1).unwrap_or_default().to_string();
    assert_eq!(to_one(handlers("000004", "000000", 0)), "send 4 from 0 to 1 other name");
    assert_eq!(to_one(handlers("000004", "000000", 1)), "send 4 from 0 to 1 lacks 000004");
    assert_eq!(to_one(handlers("000000", "000000", 1)), "send 4 from 0 to 1 needs 000008");
    assert_eq!(to_one(handlers("000000", "000008", 1)), "send 4 from 0 to 1 delivered");
    assert_eq!(printed(&["deliveries"], b"system 1\n"), "refused 4 at 1\n");
}

/// The lines of every block, from the independent implementation's value sets of the blocks.
fn senders(table: &Table, rho: u32) -> String {
    let estimate = peer::naive::solve(table, rho);
    let row = Layout::of(table).row;
    let mut lines = String::new();
    for (position, block) in table.blocks.iter().enumerate() {
        let has = |x: usize| estimate[2 * block.start * row + x / 32] >> (x % 32) & 1 != 0;
        let mut from: Vec<String> = Vec::new();
        from.extend((0..table.blocks.len()).filter(|&s| has(made(table, table.blocks[s].start))).map(|s| s.to_string()));
        from.extend(has(OPPONENT).then(|| "opponent".to_string()));
        from.extend(from.is_empty().then(|| "-".to_string()));
        lines += &format!("handler {position} name {} from {}\n", block.name, from.join(" "));
    }
    lines
}

#[test]
fn who_may_have_sent() {
    let mut random = Random(53);
    let mut counts = [0; 3];
    let tables: Vec<Vec<u32>> = (0..400).map(|k| if k % 3 == 0 { table(&mut random, NARROW) } else { sensible_table(&mut random, NARROW, 120, 8) }).collect();
    for words in samples().into_iter().map(|sample| sample.words).chain(tables) {
        let (Ok(listing), Ok(table)) = (write(&words, 65_536), peer::table::read(&words)) else { continue };
        let rho = random.permissions(4);
        let expected = senders(&table, rho);
        assert_eq!(printed(&["senders", &format!("{rho:x}")], &listing), expected, "{words:08x?} rho {rho:x}");
        for line in expected.lines() {
            let from: Vec<&str> = line.split(" from ").nth(1).unwrap().split(' ').collect();
            counts[0] += u32::from(from == ["-"]);
            counts[1] += u32::from(from.contains(&"opponent"));
            counts[2] += u32::from(from.len() > 2);
        }
    }
    assert!(counts.iter().all(|&count| count > 20), "{counts:?}");
    let relay = include_bytes!("../../../examples/relay.listing");
    assert_eq!(printed(&["senders", "0"], relay), "handler 0 name 0 from opponent\nhandler 1 name 1 from 0\n");
    assert_eq!(printed(&["senders", "8"], relay), "handler 0 name 0 from opponent\nhandler 1 name 1 from 0 opponent\n");
    let required = include_bytes!("../../../examples/relay-required.listing");
    assert_eq!(printed(&["senders", "0"], required), "handler 0 name 0 from opponent\nhandler 1 name 1 from -\n");
    let ports = printed(&["senders", "1"], include_bytes!("../../../examples/cookies-ports.listing"));
    let lines: String = ports.lines().map(|line| format!("    {line}\n")).collect();
    assert!(include_str!("../../../docs/EXAMPLES.md").contains(&lines), "{ports}");
    assert_eq!(printed(&["senders", "0"], b"system 1\n"), "refused 4 at 1\n");
    assert_eq!(printed(&["senders", "0"], b"system x\n"), "refused 40 at 1\n");
    assert_eq!(printed(&["senders", "1000000"], relay), "refused 20 at 0\n");
}

/// 32 handlers that all send to one another: every line has every position and the opponent.
#[test]
fn the_longest_text_of_senders() {
    let body = |i: u32| send(0, variable(0), term(kind::CONSTANT, i % 4, []));
    let words = system(&(0..32).map(|i| block(i, 1, 0, body(i))).collect::<Vec<_>>());
    let listing = write(&words, 65_536).expect("a listing");
    let everybody: String = (0..32).map(|i| format!(" {i}")).collect();
    let expected: String = (0..32).map(|i| format!("handler {i} name {i} from{everybody} opponent\n")).collect();
    assert_eq!(printed(&["senders", "0"], &listing), expected);
}

/// The ceiling comes after the bound, and 23 at the ceiling stands alone.
#[test]
fn leak_under_a_ceiling() {
    let relay = include_bytes!("../../../examples/relay.listing");
    let whole = printed(&["leak", "0", "0"], relay);
    let facts: usize = whole.lines().next().unwrap().rsplit(' ').next().unwrap().parse().expect("a number of facts");
    assert_eq!(printed(&["leak", "0", "0", &facts.to_string()], relay), whole);
    assert_eq!(printed(&["leak", "0", "0", &(facts - 1).to_string()], relay), format!("refused 23 at {}\n", facts - 1));
    assert_eq!(printed(&["leak", "0", "0", "0"], relay), "refused 23 at 0\n");
    assert_eq!(printed(&["leak", "0", "1000000", "0"], relay), "refused 20 at 0\n");
    assert_eq!(printed(&["leak", "1000000", "0", "0"], relay), "refused 20 at 0\n");
    assert_eq!(printed(&["leak", "0", "0", "x"], relay), printed(&[], b""));
}
