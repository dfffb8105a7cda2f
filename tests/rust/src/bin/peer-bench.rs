//! Solves the system on standard input as often as the argument says and prints its leak and facts.

use peer::estimate::{facts, leak};
use peer::table::{Refusal, MOST_WORDS};
use peer::verdict::{analyse, input, refusal_line, slices};
use std::io::Read;

fn run(bytes: &[u8], times: usize) -> Result<String, Refusal> {
    let (rho, bound, words) = input(bytes, MOST_WORDS)?;
    let (mut estimate, mut work) = slices();
    let mut table = analyse(&words, rho, bound, &mut estimate, &mut work)?;
    for _ in 1..times {
        table = analyse(std::hint::black_box(&words), rho, bound, &mut estimate, &mut work)?;
    }
    Ok(format!("leak {:06x} facts {}\n", leak(&table, rho, &estimate), facts(&table, &estimate)))
}

fn main() {
    let times = std::env::args().nth(1).map_or(1, |times| times.parse().expect("a number of repetitions"));
    let mut bytes = Vec::new();
    std::io::stdin().read_to_end(&mut bytes).expect("standard input can be read");
    print!("{}", run(&bytes, times).unwrap_or_else(|refusal| refusal_line(&refusal)));
}
