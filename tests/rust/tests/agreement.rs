//! Both solvers agree on tables of either width, and what they give obeys every rule. PEER_ROUNDS makes the runs longer.

use peer::check::broken;
use peer::estimate::{Layout, FALSE, NEGATIVE, POSITIVE, TRUE, ZERO};
use peer::generate::{call, damaged, random_words, table, Random};
use peer::inputs::inputs;
use peer::naive::{self, pair};
use peer::table::{names_of, read, Table, NARROW, STANDING_BOUND, WIDTHS};
use peer::verdict::{bytes_of, verdict_of_bytes, words_of};
use peer::{estimate, solve};

fn rounds(usual: u64) -> u64 {
    usual * std::env::var("PEER_ROUNDS").map_or(1, |times| times.parse().expect("PEER_ROUNDS is a number"))
}

/// Compares both solvers, and checks the rules if asked; answers the facts.
fn compare(table: &Table, rho: u32, check: bool) -> u32 {
    let mut solved = vec![0xa5a5_a5a5; Layout::of(table).total()];
    solve::solve(table, rho, &mut solved);
    let naive = naive::solve(table, rho);
    assert!(solved == naive, "the solvers differ");
    if check {
        assert_eq!(broken(table, rho, &naive), None);
    }
    estimate::facts(table, &naive)
}

#[test]
fn solvers_agree_on_random_tables() {
    let mut random = Random(1);
    for names in WIDTHS {
        let (mut tables, mut facts, mut large) = (0, 0, 0);
        for round in 0..rounds(8000) {
            let words = table(&mut random, names);
            let table = read(&words).unwrap_or_else(|refusal| panic!("{refusal:?} in {words:08x?}"));
            let rho = random.permissions(4);
            facts += u64::from(compare(&table, rho, round % 4 == 0));
            tables += 1;
            large += u64::from(table.blocks.len() > NARROW as usize && table.blocks.iter().any(|block| block.name >= NARROW));
        }
        println!("{names} names: {tables} tables, {} facts each, {large} of over 32 handlers", facts / tables);
        assert!(names == NARROW || large * 40 > tables, "{large} of {tables}");
    }
}

#[test]
fn solvers_agree_on_the_benchmark() {
    for input in inputs() {
        assert!(input.words.len() <= 1024, "{}", input.name);
        let table = read(&input.words).unwrap_or_else(|refusal| panic!("{}: {refusal:?}", input.name));
        compare(&table, input.rho, input.words.len() <= 256);
    }
}

#[test]
fn solvers_agree_on_damaged_tables() {
    let mut random = Random(2);
    for names in WIDTHS {
        // Accepted and refused by number, where word 0 still says this width, and where it says another or none.
        let mut refusals = [[0; 13]; 2];
        for round in 0..rounds(20_000) {
            let words = if round % 4 == 0 {
                random_words(&mut random)
            } else {
                let words = table(&mut random, names);
                damaged(&mut random, words)
            };
            let width = words.first().and_then(|first| names_of((first >> 24) as u8));
            let counts = &mut refusals[usize::from(width != Some(names))];
            match read(&words) {
                Err(refusal) => counts[refusal.number as usize] += 1,
                Ok(table) => {
                    counts[0] += 1;
                    if table.size() <= 100 {
                        compare(&table, 0, false);
                    }
                }
            }
        }
        println!("{names} names, accepted and refused by number: {refusals:?}");
        // 2 and 11 need a table made for them.
        let seen = refusals[0].iter().enumerate().filter(|(number, _)| ![1, 2, 11].contains(number));
        assert!(seen.into_iter().all(|(_, &count)| count > 0) && refusals[1][1] > 0 && refusals[1][0] > 0, "{refusals:?}");
        // What only a wide table may have is refused where it became narrow: 3, 5 and 9.
        assert!(names == NARROW || [3, 5, 9].iter().all(|&number| refusals[1][number] > 0), "{refusals:?}");
    }
}

/// Calls of the C interface against the naive solver, byte by byte.
#[test]
fn calls_of_the_c_interface() {
    let mut random = Random(5);
    let mut counts = std::collections::BTreeMap::new();
    for round in 0..rounds(10_000) {
        let mut call = call(&mut random, WIDTHS[round as usize % 2]);
        let before = call.clone();
        let answer = verdict_of_bytes(&call.system, call.rho, call.bound, &mut call.estimate, &mut call.work);
        *counts.entry((answer >> 16 & 0xff) * (answer >> 32)).or_insert(0) += 1;
        let mut expected = before.clone();
        if answer >> 32 == 0 {
            let words = words_of(&call.system);
            let table = read(&words).unwrap();
            let naive = naive::solve(&table, call.rho);
            let leak = estimate::leak(&table, call.rho, &naive);
            let bound = if call.bound == STANDING_BOUND { 0 } else { call.bound };
            assert_eq!(answer, u64::from(leak) + if leak & !bound != 0 { 1 << 24 } else { 0 });
            expected.estimate[..4 * naive.len()].copy_from_slice(&bytes_of(&naive));
            expected.work[..16 * words.len()].fill(0);
        }
        assert!(call.estimate == expected.estimate && call.work == expected.work);
    }
    println!("accepted (0) and refused calls: {counts:?}");
    assert!([0, 1, 3, 4, 5, 6, 7, 8, 9, 10, 12, 20, 21, 22, 30, 31].iter().all(|number| counts.contains_key(number)), "{counts:?}");
}

/// A fact taken away is found, unless a smaller set still obeys the rules, and a stray bit always.
#[test]
fn the_checker_sees_changes() {
    let mut random = Random(3);
    let (mut taken, mut seen) = (0, 0);
    for round in 0..rounds(4000) {
        let words = table(&mut random, WIDTHS[round as usize % 2]);
        let table = read(&words).unwrap();
        let rho = random.permissions(4);
        let mut estimate = naive::solve(&table, rho);
        let held: Vec<usize> = (0..estimate.len()).filter(|&at| estimate[at] != 0).collect();
        if !held.is_empty() && table.size() <= 60 {
            let at = *random.pick(&held);
            let fact = loop {
                let fact = 1 << random.below(32);
                if estimate[at] & fact != 0 {
                    break fact;
                }
            };
            estimate[at] ^= fact;
            taken += 1;
            seen += u64::from(broken(&table, rho, &estimate).is_some());
            estimate[at] ^= fact;
            let last = estimate.len() - 1;
            estimate[last] |= 1 << (25 + random.below(7));
            assert_eq!(broken(&table, rho, &estimate), Some(0));
        }
    }
    println!("{taken} facts taken away, {seen} missed by a rule");
    assert!(taken > 500 && seen * 20 > taken * 19);
}

/// The sign results are exactly those of numbers near zero.
#[test]
fn signs_of_numbers() {
    for x in NEGATIVE..=POSITIVE {
        for y in NEGATIVE..=POSITIVE {
            let of_sign = |wanted| (-2..=2i128).filter(move |&n| estimate::sign(n) == wanted);
            let (mut sums, mut truths) = (vec![], vec![]);
            for (n, m) in of_sign(x).flat_map(|n| of_sign(y).map(move |m| (n, m))) {
                sums.push(estimate::sign(n + m));
                truths.push(if n < m { TRUE } else { FALSE });
            }
            for (operation, mut expected) in [(0, sums), (1, truths)] {
                expected.sort();
                expected.dedup();
                assert_eq!(pair(operation, x, y), expected);
            }
        }
    }
    assert_eq!(ZERO, NEGATIVE + 1);
}
