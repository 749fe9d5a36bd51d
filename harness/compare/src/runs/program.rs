//! The program `sitechange`: what it prints for its input, beside the paper's words and the
//! original's list.

use std::io::Write;
use std::process::{Command, Stdio};

use crate::paper::READING_LIMIT;
use crate::random::Rng;
use crate::runs::book::Book;
use crate::runs::draw;
use crate::runs::table::{named, Change, KINDS};

/// How many triplets the network's list can have: 26m + 10n + 9k + 2R.
const MOST: usize = 57;

/// Runs the program once.
fn printed(program: &str, input: &[u8]) -> Result<String, String> {
    let mut child = Command::new(program)
        .stdin(Stdio::piped())
        .stdout(Stdio::piped())
        .spawn()
        .map_err(|error| format!("{}: {}", program, error))?;
    // The program may end before it has read all of a long input.
    let _ = child.stdin.take().expect("a pipe").write_all(input);
    let output = child.wait_with_output().map_err(|error| error.to_string())?;
    if !output.status.success() {
        return Err(format!("{} ended with {}", program, output.status));
    }
    String::from_utf8(output.stdout).map_err(|error| error.to_string())
}

/// "prints number and triplet count, then for an accepted change the triplets in its cells, in
/// list order: row, column in decimal, the double's bits as 16 hexadecimal digits. Input other
/// than 12 bytes prints `1 0`; any refusal prints only its first line."
fn due(input: &[u8]) -> String {
    if input.len() != 12 {
        return "1 0\n".to_string();
    }
    let word = |at: usize| u32::from_le_bytes(input[at..at + 4].try_into().expect("four bytes"));
    let change = Change { head: word(0), low: word(4), high: word(8) };
    let mut scenario = draw::bench();
    scenario.sheets = [4, 4, 8].map(|size| vec![0; size * MOST]);
    let mut book = Book::new(&scenario);
    let answer = book.step(change);
    let mut text = format!("{} {}\n", answer.number, answer.count);
    if answer.number == 0 {
        let cells = named(&book.site, &book.site.oracle().block_starts(), change);
        for &(row, column, bits) in &book.list {
            if cells.contains(&(row, column)) {
                text += &format!("{} {} {:016x}\n", row, column, bits);
            }
        }
    }
    text
}

/// Every kind at its first indexes with sound and unsound values, words at random, and inputs of
/// other lengths.
fn inputs() -> Vec<Vec<u8>> {
    let bytes =
        |change: Change| change.words().iter().flat_map(|word| word.to_le_bytes()).collect();
    let above = f64::from_bits(READING_LIMIT.to_bits() + 1);
    let sound =
        [6.0, 0.0, -0.0, 1.0, -1.0, 0.25, -0.25, 1e-6, 0.250001, -0.249999, 5e-324, 1e12, -1e12];
    let unsound = [above, -above, 1e300, f64::INFINITY, f64::NEG_INFINITY, f64::NAN];
    let values: Vec<f64> = sound.into_iter().chain(unsound).collect();
    let mut all: Vec<Vec<u8>> = Vec::new();
    for kind in 0..16 {
        for index in [0, 1, 2, 0x0FFF_FFFF] {
            all.extend(values.iter().map(|&value| bytes(Change::new(kind, index, value))));
        }
    }
    let mut rng = Rng::new(1, 0);
    for _ in 0..200 {
        let kind = 1 + rng.below(KINDS.len()) as u32;
        let words = [kind << 28, rng.next() as u32, rng.next() as u32];
        all.push(words.iter().flat_map(|word| word.to_le_bytes()).collect());
    }
    let example = bytes(Change::new(2, 0, 6.0));
    for length in [0, 1, 11, 13, 24, 4096, 70_000] {
        all.push(example.iter().cycle().take(length).copied().collect());
    }
    all
}

/// Holds the program to the paper on all inputs; answers how many there were, or the first
/// difference.
pub fn hold(program: &str) -> Result<usize, String> {
    let all = inputs();
    for input in &all {
        let (got, expected) = (printed(program, input)?, due(input));
        if got != expected {
            let shown = crate::report::hex(&input[..input.len().min(24)]);
            return Err(format!(
                "on {} bytes {}: expected {:?}, got {:?}",
                input.len(),
                shown,
                expected,
                got
            ));
        }
    }
    Ok(all.len())
}
