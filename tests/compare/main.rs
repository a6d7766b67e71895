// Compares a program with the model, byte for byte: on the cases of a folder, then on generated streams.
//
//     compare CASES KEEP SEED COUNT WORDS..
//
// CASES is the folder of cases (NAME.hex, and NAME.out, the output written by hand). KEEP is the folder for streams that fail,
// SEED and COUNT say which streams are made, and WORDS are the program's command. The last line is: N passed, M failed.
// What would compare nothing fails: no case, half a case, a COUNT of 0.

#[path = "../model/model.rs"]
mod model;
#[path = "../streams/streams.rs"]
mod streams;

use std::fs;
use std::io::Write;
use std::path::{Path, PathBuf};
use std::process::{Command, Stdio};
use std::sync::atomic::{AtomicU64, Ordering};
use std::sync::Mutex;
use std::thread;
use std::time::{Duration, Instant};

// So many failures are shrunk, each for so long; so many are told by their seed.
const SHRUNK: usize = 3;
const TOLD: usize = 20;
const SHRINKING: Duration = Duration::from_secs(40);

struct Program {
    words: Vec<String>,
    keep: PathBuf,
}

impl Program {
    fn command(&self) -> Command {
        let mut command = Command::new(&self.words[0]);
        command.args(&self.words[1..]).stdout(Stdio::piped()).stderr(Stdio::null());
        command
    }

    // What the program writes for a stream. One that ends badly gets a line that no output has.
    fn output(&self, stream: &[u8], worker: usize) -> Vec<u8> {
        let path = self.keep.join(format!("input-{worker}"));
        fs::write(&path, stream).unwrap();
        let file = fs::File::open(&path).unwrap();
        let ended = self
            .command()
            .stdin(Stdio::from(file))
            .spawn()
            .and_then(|child| child.wait_with_output())
            .unwrap();
        said(ended)
    }

    // The same, with the input handed over in small pieces.
    fn output_in_pieces(&self, stream: &[u8], seed: u64) -> Vec<u8> {
        let mut child = self.command().stdin(Stdio::piped()).spawn().unwrap();
        let mut pipe = child.stdin.take().unwrap();
        let stream = stream.to_vec();
        let feeder = thread::spawn(move || {
            let mut random = streams::Random::new(seed);
            let most = 1 + stream.len() as u64 / 100;
            let mut rest = &stream[..];
            while !rest.is_empty() {
                let size = (1 + random.below(most) as usize).min(rest.len());
                // the program need not read what is past its limit
                if pipe.write_all(&rest[..size]).is_err() {
                    return;
                }
                rest = &rest[size..];
                thread::sleep(Duration::from_micros(20));
            }
        });
        let ended = child.wait_with_output().unwrap();
        feeder.join().unwrap();
        said(ended)
    }
}

fn said(ended: std::process::Output) -> Vec<u8> {
    let mut output = ended.stdout;
    if !ended.status.success() {
        output.extend(format!("the program ended with {}\n", ended.status).bytes());
    }
    output
}

// Hex digits, with spaces and line ends anywhere and comments from # on.
fn read_hex(path: &Path) -> Vec<u8> {
    let text = fs::read_to_string(path).unwrap_or_else(|error| panic!("{}: {error}", path.display()));
    let digits: Vec<u32> = text
        .lines()
        .flat_map(|line| line.split('#').next().unwrap().chars())
        .filter(|c| !c.is_whitespace())
        .map(|c| c.to_digit(16).unwrap_or_else(|| panic!("{}: {c} is no hex digit", path.display())))
        .collect();
    assert!(digits.len() % 2 == 0, "{}: half a byte", path.display());
    digits.chunks(2).map(|pair| (pair[0] * 16 + pair[1]) as u8).collect()
}

// The records of a stream; what is no whole record is one piece at the end.
fn records(stream: &[u8]) -> Vec<Vec<u8>> {
    let mut rest = stream;
    let mut pieces = Vec::new();
    while let Some(&kind) = rest.first() {
        let size = match kind {
            1..=9 => 1 + model::BODY[usize::from(kind) - 1],
            _ => rest.len(),
        };
        let (piece, after) = rest.split_at(size.min(rest.len()));
        pieces.push(piece.to_vec());
        rest = after;
    }
    pieces
}

fn write_hex(pieces: &[Vec<u8>]) -> String {
    // the fields of each kind
    const FIELDS: [&[usize]; 9] = [&[1], &[1, 1, 1], &[], &[2, 1, 4, 1, 2], &[2], &[], &[1, 4], &[1, 1], &[1]];
    let mut text = String::new();
    for piece in pieces {
        let mut breaks = vec![1];
        if let 1..=9 = piece[0] {
            for width in FIELDS[usize::from(piece[0]) - 1] {
                breaks.push(breaks[breaks.len() - 1] + width);
            }
        }
        for (at, byte) in piece.iter().enumerate() {
            if breaks.contains(&at) {
                text.push(' ');
            }
            text.push_str(&format!("{byte:02X}"));
        }
        text.push('\n');
    }
    text
}

// Leaves out records, then turns bytes to 0, as long as the program still differs from the model.
fn shrink(stream: &[u8], differs: &dyn Fn(&[u8]) -> bool) -> Vec<Vec<u8>> {
    let until = Instant::now() + SHRINKING;
    if stream.len() > model::LIMIT {
        return records(stream);
    }
    let mut pieces = records(stream);
    let mut chunk = pieces.len().div_ceil(2).max(1);
    loop {
        let mut at = 0;
        let before = pieces.len();
        while at < pieces.len() && Instant::now() < until {
            let mut fewer = pieces.clone();
            fewer.drain(at..(at + chunk).min(pieces.len()));
            if differs(&fewer.concat()) {
                pieces = fewer;
            } else {
                at += chunk;
            }
        }
        if Instant::now() >= until || (chunk == 1 && pieces.len() == before) {
            break;
        }
        if pieces.len() == before || chunk > pieces.len() {
            chunk = chunk.div_ceil(2).max(1);
        }
    }
    for piece in 0..pieces.len() {
        for at in 1..pieces[piece].len() {
            let was = pieces[piece][at];
            if was == 0 || Instant::now() >= until {
                continue;
            }
            pieces[piece][at] = 0;
            if !differs(&pieces.concat()) {
                pieces[piece][at] = was;
            }
        }
    }
    pieces
}

// The first line in which two outputs differ.
fn first_difference(program: &[u8], model: &str) -> String {
    let program = String::from_utf8_lossy(program);
    let (mut theirs, mut ours) = (program.split_inclusive('\n'), model.split_inclusive('\n'));
    let mut number = 0;
    loop {
        number += 1;
        match (theirs.next(), ours.next()) {
            (a, b) if a == b => assert!(a.is_some(), "the outputs are equal"),
            (a, b) => {
                return format!(
                    "line {number} of the output: {:?}, must be {:?}",
                    a.unwrap_or("none"),
                    b.unwrap_or("none")
                )
            }
        }
    }
}

struct Count {
    passed: u64,
    failed: u64,
}

impl Count {
    fn add(&mut self, name: &str, program: &[u8], model: &str) {
        if program == model.as_bytes() {
            self.passed += 1;
        } else {
            self.failed += 1;
            println!("{name}: {}", first_difference(program, model));
        }
    }

    fn fail(&mut self, line: &str) {
        self.failed += 1;
        println!("{line}");
    }
}

// The names of the cases: of every file in the folder, so that half a case is seen whichever half is missing.
fn case_names(folder: &Path) -> Vec<String> {
    let Ok(entries) = fs::read_dir(folder) else {
        return Vec::new();
    };
    let mut names: Vec<String> = entries
        .map(|entry| entry.unwrap().path().file_stem().unwrap().to_string_lossy().into_owned())
        .collect();
    names.sort();
    names.dedup();
    names
}

fn run_cases(program: &Program, folder: &Path, count: &mut Count) {
    let names = case_names(folder);
    if names.is_empty() {
        count.fail(&format!("there is no case in {}", folder.display()));
    }
    for name in names {
        let (path, written) = (folder.join(format!("{name}.hex")), folder.join(format!("{name}.out")));
        if let Some(missing) = [&path, &written].into_iter().find(|part| !part.is_file()) {
            count.fail(&format!("case {name}: {} is missing", missing.display()));
            continue;
        }
        let stream = read_hex(&path);
        let model = model::output(&stream);
        let written = fs::read_to_string(&written).unwrap_or_else(|error| panic!("{}: {error}", written.display()));
        count.add(&format!("case {name}"), &program.output(&stream, 0), &model);
        count.add(&format!("case {name}, the model against {name}.out"), model.as_bytes(), &written);
    }
}

fn run_streams(program: &Program, first: u64, streams: u64, count: &mut Count) {
    if streams == 0 {
        count.fail("a COUNT of 0: no stream is compared");
    }
    let next = AtomicU64::new(0);
    let failures: Mutex<Vec<u64>> = Mutex::new(Vec::new());
    let workers = thread::available_parallelism().map_or(1, |n| n.get());
    thread::scope(|scope| {
        for worker in 0..workers {
            let (next, failures) = (&next, &failures);
            scope.spawn(move || loop {
                let at = next.fetch_add(1, Ordering::Relaxed);
                if at >= streams {
                    return;
                }
                let seed = first + at;
                let (_, stream) = streams::stream(seed);
                let model = model::output(&stream);
                let output = if at % 8 == 7 {
                    program.output_in_pieces(&stream, seed)
                } else {
                    program.output(&stream, worker)
                };
                if output != model.as_bytes() {
                    failures.lock().unwrap().push(seed);
                }
            });
        }
    });
    let mut failures = failures.into_inner().unwrap();
    failures.sort_unstable();
    count.passed += streams - failures.len() as u64;
    count.failed += failures.len() as u64;
    for (at, &seed) in failures.iter().enumerate().take(TOLD) {
        let (kind, stream) = streams::stream(seed);
        println!("seed {seed} ({kind}, {} bytes) fails", stream.len());
        if at < SHRUNK {
            tell(program, seed, &stream);
        }
    }
}

// Shrinks a stream that failed, prints it, and keeps it.
fn tell(program: &Program, seed: u64, stream: &[u8]) {
    let differs = |stream: &[u8]| program.output(stream, 0) != model::output(stream).as_bytes();
    if !differs(stream) {
        println!("  it passes when its input comes at once: it fails only in small pieces");
        return;
    }
    let pieces = shrink(stream, &differs);
    let shrunk = pieces.concat();
    println!("  {}", first_difference(&program.output(&shrunk, 0), &model::output(&shrunk)));
    let path = program.keep.join(format!("seed-{seed}.hex"));
    fs::write(&path, format!("# shrunk from the stream of seed {seed}\n{}", write_hex(&pieces))).unwrap();
    println!(
        "  shrunk to {} records, kept as {} (a case for tests/cases):",
        pieces.len(),
        path.display()
    );
    for line in write_hex(&pieces).lines().take(40) {
        println!("    {}", &line[..line.len().min(200)]);
    }
}

fn main() {
    let words: Vec<String> = std::env::args().collect();
    assert!(words.len() > 5, "usage: compare CASES KEEP SEED COUNT WORDS..");
    let program = Program {
        words: words[5..].to_vec(),
        keep: PathBuf::from(&words[2]),
    };
    fs::create_dir_all(&program.keep).unwrap();
    let mut count = Count { passed: 0, failed: 0 };
    run_cases(&program, Path::new(&words[1]), &mut count);
    let first = words[3].parse().expect("SEED is a number");
    let streams = words[4].parse().expect("COUNT is a number");
    run_streams(&program, first, streams, &mut count);
    println!("{} passed, {} failed", count.passed, count.failed);
    if count.failed > 0 {
        std::process::exit(1);
    }
}
