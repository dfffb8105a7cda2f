//! Prints for each sample of document 01 its answer.

use peer::samples::samples;
use peer::verdict::{answer, slices, verdict};

fn main() {
    for sample in samples() {
        let (mut estimate, mut work) = slices();
        let result = verdict(&sample.words, sample.rho, sample.bound, &mut estimate, &mut work).map(|(_, verdict)| verdict);
        let facts = result.map_or(String::new(), |verdict| format!(" facts {}", verdict.facts));
        println!("{}: {:09x}{facts}", sample.name, answer(&result));
    }
}
