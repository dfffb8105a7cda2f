//! Times of the proved check of an estimate beside those of the proved analysis of the same system, linked by WIPHOSEGA_LIBRARY: the best of many
//! runs of each in turn, on the inputs of at most 256 words.

#[cfg(proved)]
mod proved {
    use peer::estimate::Layout;
    use peer::inputs::inputs;
    use peer::table::read;
    use peer::verdict::bytes_of;
    use std::hint::black_box;
    use std::time::{Duration, Instant};

    extern "C" {
        /// As include/wiphosega.h declares them.
        fn wiphosega_check(system: *const u8, system_bytes: usize, rho: u32, estimate: *const u8, estimate_bytes: usize) -> u64;
        fn wiphosega_verdict(
            system: *const u8,
            system_bytes: usize,
            rho: u32,
            bound: u32,
            estimate: *mut u8,
            estimate_bytes: usize,
            work: *mut u8,
            work_bytes: usize,
        ) -> u64;
    }

    const RUNS: usize = 200;

    pub fn run() {
        println!("{:36} {:>6} {:>10} {:>10} {:>6}", "check of an estimate", "words", "us", "analysis", "ratio");
        let mut largest: f64 = 0.0;
        for input in inputs().into_iter().filter(|input| input.words.len() <= 256) {
            let table = read(&input.words).expect("a valid table");
            let (system, mut estimate, mut work) = (bytes_of(&input.words), vec![0; 4 * Layout::of(&table).total()], vec![0; 4096]);
            let mut best = [Duration::MAX; 2];
            let mut answers = [0; 2];
            for _ in 0..RUNS {
                let start = Instant::now();
                answers[0] = black_box(unsafe {
                    wiphosega_verdict(system.as_ptr(), system.len(), input.rho, 0xff_ffff, estimate.as_mut_ptr(), estimate.len(), work.as_mut_ptr(), work.len())
                });
                best[0] = best[0].min(start.elapsed());
                let start = Instant::now();
                answers[1] = black_box(unsafe { wiphosega_check(system.as_ptr(), system.len(), input.rho, estimate.as_ptr(), estimate.len()) });
                best[1] = best[1].min(start.elapsed());
            }
            assert_eq!(answers[0], answers[1], "{}", input.name);
            let [analysis, check] = best.map(|time| time.as_secs_f64() * 1e6);
            largest = largest.max(check / analysis);
            println!("{:36} {:6} {check:10.1} {analysis:10.1} {:6.2}", input.name, input.words.len(), check / analysis);
        }
        println!("largest ratio {largest:.2}");
    }
}

fn main() {
    #[cfg(proved)]
    proved::run();
}
