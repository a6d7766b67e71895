// Writes the stream of a seed to standard output: streams SEED.

mod streams;

use std::io::Write;

fn main() {
    let seed = std::env::args()
        .nth(1)
        .and_then(|word| word.parse().ok())
        .expect("usage: streams SEED");
    let (kind, stream) = streams::stream(seed);
    eprintln!("{kind}, {} bytes", stream.len());
    std::io::stdout().write_all(&stream).unwrap();
}
