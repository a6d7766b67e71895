// The model as a program: it reads a stream and prints what `hallcheck` must print.

mod model;

use std::io::{Read, Write};

fn main() {
    let mut input = Vec::new();
    std::io::stdin().take(model::LIMIT as u64 + 1).read_to_end(&mut input).unwrap();
    std::io::stdout().write_all(model::output(&input).as_bytes()).unwrap();
}
