//! Times of the proved calls on listings and manifests, linked by WIPHOSEGA_LIBRARY, beside the peer's: the best of many runs of each in turn.

#[cfg(proved)]
mod proved {
    use peer::generate::{exact_table, Random};
    use peer::listing::{read, text, write};
    use peer::manifest::answer;
    use peer::table::NARROW;
    use peer::verdict::bytes_of;
    use std::hint::black_box;
    use std::time::{Duration, Instant};

    extern "C" {
        /// As include/wiphosega.h declares them.
        fn wiphosega_listing_write(system: *const u8, system_bytes: usize, text: *mut u8, text_bytes: usize) -> u64;
        fn wiphosega_listing_read(text: *const u8, text_bytes: usize, system: *mut u8, system_bytes: usize) -> u64;
        fn wiphosega_manifest(json: *const u8, json_bytes: usize) -> u64;
    }

    const RUNS: usize = 300;

    /// The best times of two calls, in microseconds.
    fn best(mut ours: impl FnMut() -> u64, mut peers: impl FnMut() -> u64) -> [f64; 2] {
        let mut best = [Duration::MAX; 2];
        for _ in 0..RUNS {
            let start = Instant::now();
            black_box(ours());
            best[0] = best[0].min(start.elapsed());
            let start = Instant::now();
            black_box(peers());
            best[1] = best[1].min(start.elapsed());
        }
        best.map(|time| time.as_secs_f64() * 1e6)
    }

    fn line(name: &str, size: usize, [ours, peers]: [f64; 2]) {
        println!("{name:36} {size:6} {ours:10.1} {peers:10.1} {:6.2}", ours / peers);
    }

    /// Two random systems of 1,024 words whose listings are not too long.
    fn listings() {
        println!("{:36} {:>6} {:>10} {:>10} {:>6}", "listing of 1,024 lines", "bytes", "us", "peer us", "ratio");
        let random = |seed: u64| (seed..seed + 100).map(|seed| exact_table(&mut Random(seed), NARROW, 1024)).find(|words| text(words).len() <= 65_536).unwrap();
        let tables = [("a random system", random(1)), ("another one", random(1000))];
        for (name, words) in tables {
            assert_eq!(words.len(), 1024);
            let (bytes, listing) = (bytes_of(&words), text(&words));
            let (mut out, mut back) = (vec![0; 65_536], vec![0; 4096]);
            let written = best(
                || unsafe { wiphosega_listing_write(bytes.as_ptr(), bytes.len(), out.as_mut_ptr(), out.len()) },
                || write(&words, 65_536).map_or(0, |text| text.len() as u64),
            );
            line(&format!("{name}, written"), listing.len(), written);
            let was_read = best(
                || unsafe { wiphosega_listing_read(listing.as_ptr(), listing.len(), back.as_mut_ptr(), back.len()) },
                || read(&listing, 1024).map_or(0, |words| words.len() as u64),
            );
            line(&format!("{name}, read"), listing.len(), was_read);
            assert!(out[..listing.len()] == listing[..] && back == bytes);
        }
    }

    /// A manifest that repeats a piece up to so many bytes, and ends in spaces.
    fn manifest(start: &str, piece: impl Fn(usize) -> String, end: &str, size: usize) -> Vec<u8> {
        let mut text = start.to_string();
        for k in 0.. {
            let next = piece(k);
            if text.len() + next.len() + end.len() > size {
                break;
            }
            text += &next;
        }
        text += end;
        text += &" ".repeat(size - text.len());
        text.into_bytes()
    }

    /// Manifests of up to 16,384 bytes: twice the bytes should take twice the time.
    fn manifests() {
        println!("{:36} {:>6} {:>10} {:>10} {:>6}", "manifest", "bytes", "us", "peer us", "ratio");
        for size in [4_096, 8_192, 16_384] {
            let head = r#"{"manifest_version":3"#;
            let texts = [
                ("one long string", manifest(&format!(r#"{head},"a":""#), |_| "x".into(), r#""}"#, size)),
                ("strings in a list", manifest(&format!(r#"{head},"permissions":["tabs""#), |_| r#","a""#.into(), "]}", size)),
                ("keys", manifest(head, |k| format!(r#","{k}":0"#), "}", size)),
                ("a string that nearly is a host", manifest(&format!(r#"{head},"host_permissions":[""#), |_| ":/".into(), r#""]}"#, size)),
                ("numbers", manifest(&format!(r#"{head},"a":[0"#), |_| ",1.5e3".into(), "]}", size)),
            ];
            for (name, text) in texts {
                assert_eq!(text.len(), size);
                assert_eq!(unsafe { wiphosega_manifest(text.as_ptr(), text.len()) }, answer(&text));
                assert_eq!(answer(&text) >> 32 & 1, 0, "{name}");
                line(name, size, best(|| unsafe { wiphosega_manifest(text.as_ptr(), text.len()) }, || answer(&text)));
            }
        }
    }

    pub fn main() {
        listings();
        manifests();
    }
}

fn main() {
    #[cfg(proved)]
    proved::main();
}
