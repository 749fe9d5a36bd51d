//! Whether all that docs/PROOFS.md cites is there: each name in a table's columns of definitions and
//! theorems is declared in some crate, and each file named is a file or a folder of one.
//!
//!   cited [FOLDER]      the repository's folder (.)

use std::collections::HashSet;
use std::path::{Path, PathBuf};
use std::{env, fs, process};

/// Words before a declared name.
const MODIFIERS: [&str; 9] =
    ["pub", "abbrev", "unfoldable", "record", "data", "struct", "enum", "const", "fn"];

/// Every file below a folder, but what a build made in a folder out/.
fn files(folder: &Path, found: &mut Vec<PathBuf>) {
    let Ok(entries) = fs::read_dir(folder) else { return };
    for path in entries.flatten().map(|entry| entry.path()) {
        if path.is_dir() {
            if !path.ends_with("out") {
                files(&path, found);
            }
        } else {
            found.push(path);
        }
    }
}

/// The names that a line of a crate's file declares: behind its modifiers all words up to a colon or,
/// where a modifier says what is declared, up to a parenthesis, a brace or the like.
fn declared(line: &str, names: &mut HashSet<String>) {
    let line = line.trim();
    let line = line.strip_prefix("extern \"C\" ").unwrap_or(line);
    let end = line.find([':', '(', '{', '=', '<', ';', ',']).unwrap_or(line.len());
    let said = line[..end].split_whitespace().any(|word| MODIFIERS[3..].contains(&word));
    if !said && !line[end..].starts_with(':') {
        return;
    }
    for word in line[..end].split_whitespace() {
        if word == "--" || word == "//" || word == "use" {
            return;
        }
        if !MODIFIERS.contains(&word) && word != "extern" && word != "\"C\"" {
            names.insert(word.trim_matches(|c| c == '«' || c == '»').to_string());
        }
    }
}

/// Texts between single backquotes.
fn quoted(text: &str) -> impl Iterator<Item = &str> {
    text.split('`').skip(1).step_by(2)
}

/// Texts such as books/specs/Matrix and bench/must-fail/another-count.edit, without the crates' folder before them.
fn places(text: &str) -> impl Iterator<Item = &str> {
    let outside = |c: char| !(c.is_ascii_alphanumeric() || "/_.-".contains(c));
    let named = |word: &&str| {
        let mut parts = word.split('/');
        let crate_named = parts.next().is_some_and(|part| !part.is_empty());
        crate_named && parts.next().is_some_and(|part| ["specs", "proofs", "src", "must-fail"].contains(&part))
    };
    text.split(outside).map(|word| word.trim_end_matches(['.', '-'])).filter(named)
}

fn main() {
    let root = PathBuf::from(env::args().nth(1).unwrap_or_else(|| ".".to_string()));
    let (crates, document) = (root.join("crates"), root.join("docs/PROOFS.md"));
    let Ok(text) = fs::read_to_string(&document) else {
        eprintln!("cited: {} can't be read", document.display());
        process::exit(2);
    };
    let (mut found, mut names) = (Vec::new(), HashSet::new());
    files(&crates, &mut found);
    let own = |path: &PathBuf| path.extension().is_some_and(|e| e == "antt" || e == "rt");
    for file in found.iter().filter(|path| own(path)) {
        for line in fs::read_to_string(file).unwrap_or_default().lines() {
            declared(line, &mut names);
        }
    }
    let (mut cited, mut missing) = (0, 0);
    let mut miss = |line: usize, what: &str, why: &str| {
        println!("docs/PROOFS.md:{}: {what}: {why}", line + 1);
        missing += 1;
    };
    for (number, line) in text.lines().enumerate() {
        for place in places(line) {
            cited += 1;
            let path = crates.join(place);
            let there = ["", ".antt", ".rt"].iter().any(|end| {
                let mut path = path.clone().into_os_string();
                path.push(end);
                Path::new(&path).exists()
            });
            if !there {
                miss(number, place, "no such file or folder below crates");
            }
        }
        if !line.starts_with('|') {
            continue;
        }
        for name in line.split('|').skip(2).flat_map(quoted) {
            let last = name.rsplit("::").next().unwrap_or(name);
            cited += 1;
            if !names.contains(last) {
                miss(number, name, "no crate declares it");
            }
        }
    }
    println!("cited: {cited} names and files, {missing} missing");
    process::exit(i32::from(missing > 0 || cited == 0));
}
