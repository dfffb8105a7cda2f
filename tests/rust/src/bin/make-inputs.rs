//! Writes the benchmark's inputs to the directory that the argument names, as the programs read them.

use peer::verdict::bytes_of;

fn main() {
    let directory = std::path::PathBuf::from(std::env::args().nth(1).expect("a directory"));
    std::fs::create_dir_all(&directory).expect("the directory can be made");
    for input in peer::inputs::inputs() {
        let bytes = bytes_of(&[vec![input.rho, 0], input.words].concat());
        std::fs::write(directory.join(&input.name), bytes).expect("the input can be written");
    }
}
