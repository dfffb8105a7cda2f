//! Runs the analyser's benchmark program, named by the argument, and the peer's on every input, and prints times and ratios.

use peer::inputs::inputs;
use peer::verdict::bytes_of;
use std::io::Write;
use std::path::Path;
use std::process::{Command, Stdio};
use std::time::Duration;

extern "C" {
    /// POSIX getrusage; the four first numbers are user and system time, each in seconds and microseconds.
    fn getrusage(who: i32, usage: *mut [i64; 18]) -> i32;
}

/// The processor time of all children that have ended, which other programs on the machine disturb less than the clock.
fn children_time() -> Duration {
    let mut usage = [0; 18];
    let of_children = -1;
    assert_eq!(unsafe { getrusage(of_children, &mut usage) }, 0);
    Duration::from_micros((1_000_000 * (usage[0] + usage[2]) + usage[1] + usage[3]) as u64)
}

/// The best times of one repetition and of many are taken from this many runs each.
const RUNS: usize = 9;
/// How long the many repetitions should take.
const ENOUGH: Duration = Duration::from_millis(40);

fn run(program: &Path, input: &[u8], times: u64) -> (Duration, String) {
    let start = children_time();
    let mut child = Command::new(program)
        .arg(times.to_string())
        .stdin(Stdio::piped())
        .stdout(Stdio::piped())
        .spawn()
        .expect("the program can be started");
    child.stdin.take().unwrap().write_all(input).expect("the program reads its input");
    let output = child.wait_with_output().expect("the program ends");
    (children_time() - start, String::from_utf8(output.stdout).expect("the program prints text"))
}

/// How many repetitions take long enough.
fn repetitions(program: &Path, input: &[u8]) -> u64 {
    let mut times = 8;
    while run(program, input, times).0 < ENOUGH && times < 1 << 20 {
        times *= 2;
    }
    times
}

/// The geometric mean.
fn mean(ratios: &[f64]) -> f64 {
    (ratios.iter().map(|ratio| ratio.ln()).sum::<f64>() / ratios.len() as f64).exp()
}

/// The worst order's time by the best order's, for each family of inputs that differ in their order alone.
fn orders(times: &[(String, f64)]) -> Vec<(String, f64)> {
    let time = |name: &str| times.iter().find(|(other, _)| other == name).map(|(_, time)| *time);
    let forward = times.iter().filter(|(name, _)| name.contains("-forward-"));
    forward
        .map(|(name, _)| {
            let each: Vec<f64> = ["forward", "backward", "mixed"].iter().filter_map(|order| time(&name.replace("forward", order))).collect();
            let (worst, best) = each.iter().fold((0.0, f64::MAX), |(worst, best), &t| (f64::max(worst, t), f64::min(best, t)));
            (name.replace("-forward", ""), worst / best)
        })
        .collect()
}

fn main() {
    let program = std::env::args().nth(1).expect("the analyser's benchmark program");
    let programs = [Path::new(&program).to_path_buf(), std::env::current_exe().unwrap().with_file_name("peer-bench")];
    let (mut ratios, mut times) = (Vec::new(), Vec::new());
    println!("{:28} {:>5} {:>10} {:>10} {:>6}", "input", "words", "us", "peer us", "ratio");
    for input in inputs() {
        let bytes = bytes_of(&[vec![input.rho, 0], input.words.clone()].concat());
        let lines = programs.each_ref().map(|program| run(program, &bytes, 1).1);
        assert_eq!(lines[0], lines[1], "the programs differ on {}", input.name);
        let many = programs.each_ref().map(|program| repetitions(program, &bytes));
        let mut best = [[Duration::MAX; 2]; 2];
        for _ in 0..RUNS {
            for (k, program) in programs.iter().enumerate() {
                for (best, times) in best[k].iter_mut().zip([1, 1 + many[k]]) {
                    *best = run(program, &bytes, times).0.min(*best);
                }
            }
        }
        let micros = |k: usize| best[k][1].saturating_sub(best[k][0]).as_secs_f64() * 1e6 / many[k] as f64;
        let ratio = micros(0) / micros(1);
        println!("{:28} {:5} {:10.1} {:10.1} {ratio:6.2}", input.name, input.words.len(), micros(0), micros(1));
        ratios.push(ratio);
        times.push((input.name, micros(0)));
    }
    println!("geometric mean {:.2}, largest {:.2}", mean(&ratios), ratios.iter().copied().fold(0.0, f64::max));
    for (family, ratio) in orders(&times) {
        println!("{family:28} worst order by best {ratio:.2}");
    }
}
