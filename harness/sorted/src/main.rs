//! Whether each must-fail edit is refused because a fact fails, and not because the proof's text no
//! longer fits the edited program. Reads what `rt ci` or `rt must-fail` prints.
//!
//!   sorted FOLDER FILE                     the repository's folder, and what was printed
//!   sorted --whole FOLDER FILE ERRORS      prints the lines of read.txt: ERRORS has the whole errors
//!
//! rt says of each edit what the check came to, and behind `refused, as it must be: ` the first 160
//! characters of the first error or note that is not a proof file's complaint of a name that is
//! gone or of another declaration that was not admitted; where there is no other, rt says so, and that
//! is no failed fact. Failed facts are:
//! - a note of what the checker's own search leaves unproved;
//! - omega finds numbers at which what is known holds and the goal does not;
//! - search or grind finds no proof of a goal;
//! - all rewritings are made, and the two sides of the equation that is left are not equal;
//! - two terms that have to be equal are compared, and are not;
//! - one statement is needed and another is given. A statement is a relation, a part of a contract or
//!   what a crate declares as a family of types, as `Runs` or `Alike`.
//! The last is no failed fact where the two are different relations, where they differ only in how many
//! steps back they look, or where a need of another name is given: there the proof no longer fits, as where a
//! rewriting finds nothing, or where a name, a field or an argument is not there. An error of no kind
//! named here is a failure too: it is to be read, and then named. So is an edit that was refused by a
//! limit of the prover alone, that is not refused, that cannot be applied or read, or of which nothing is said.
//!
//! 160 characters often end before what decides. For such an edit the whole error was judged by these very
//! rules, and read.txt, beside src/, has the edit with what rt shows of it: only that text counts. Where an edit
//! or a proof changes it, `harness/errors CRATE/EDIT..` prints the whole error, and `--whole` the line.

use std::collections::{HashMap, HashSet};
use std::path::Path;
use std::{env, fs, process};

#[derive(Debug, PartialEq, Clone, Copy)]
enum Kind {
    Fact,
    Misfit,
    /// Refused only by a limit of the prover.
    Limit,
    /// Not refused, not tried, or no edit of the file as it stands.
    Bad,
    /// rt shows less than decides.
    CutOff,
    Unknown,
}

/// How many characters rt shows of an error.
const SHOWN: usize = 160;

/// Texts of a failed fact.
const FACTS: [&str; 5] = [
    "`omega`: the goal does not follow from what it read",
    "`search`: no proof of `",
    "`grind`: the goal does not follow",
    "has no last argument, so what it leaves must be a path whose two ends are equal, and `",
    "does not hold (this comparison",
];

/// The two ends of a text of a failed fact that names a part of the goal between them.
const PART: [&str; 2] = [
    "`omega`: the part `",
    "of the goal does not follow from what it read",
];

/// How the checker says of two sides, or of two types, that they differ.
const DIFFER: [&str; 2] = ["differ only where one has", "first differ where one has"];

/// How it says so of what it computed.
const COMPUTED: &str = "computed as far as they go, the two types";

/// Texts of a proof that no longer fits.
const MISFITS: [&str; 9] = [
    "no occurrence of the path's",
    "not in scope",
    "has no field",
    "that can be named from here",
    "explicit argument more than",
    "explicit arguments more than",
    "takes no argument",
    "is not a constructor",
    "is not a definition",
];

/// How the checker names what a goal of a contract asks: two of them are two goals.
const ASKS: &str = "Asks-";

/// Relations: two of them are two statements, and neither is the other's failure.
const RELATIONS: [(&str, &str); 8] = [
    ("◌≡◌", "≡"),
    ("Path", "≡"),
    ("≡", "≡"),
    ("◌≤◌", "≤"),
    ("≤", "≤"),
    ("◌<◌", "<"),
    ("<", "<"),
    ("≠", "≠"),
];

/// Parts of a contract, as the checker names them: the last three are what a call requires, in two ways, and several clauses, a record of
/// them.
const CONTRACTS: [&str; 7] = ["Post", "Learnt", "Asked", "Pre", "AllOf", CLAIMS, "record"];

/// How it names what calls require: `(..Tie.the-claims).6`, with the call's place.
const CLAIMS: &str = "the-claims";

/// How the checker marks a part of a text that it left out.
const LEFT_OUT: &str = "…[";

/// What rt says before the text of a refusal.
const REFUSED: &str = "refused, as it must be";

/// Whether rt's text is cut off.
fn is_cut(text: &str) -> bool {
    text.chars().count() >= SHOWN
}

/// The text between the first backquotes after a phrase, and what follows it.
fn quoted<'a>(text: &'a str, phrase: &str) -> Option<(&'a str, &'a str)> {
    let from = text.find(phrase)? + phrase.len();
    let open = from + text[from..].find('`')? + 1;
    let close = open + text[open..].find('`')?;
    Some((&text[open..close], &text[close + 1..]))
}

/// What a type says first: the relation that stands outside all parentheses (anywhere, where the
/// checker left out a part of the text), or else its first word without the modules before it.
fn head(term: &str) -> &str {
    let (mut depth, mut words) = (0i32, Vec::new());
    for word in term.split_whitespace() {
        if depth == 0 || term.contains(LEFT_OUT) {
            words.push(word);
        }
        let count = |set: &str| word.chars().filter(|c| set.contains(*c)).count() as i32;
        depth += count("({") - count(")}");
    }
    let outside = |word: &&&str| relation(word).is_some();
    let first = words.first().copied().unwrap_or("");
    if first.contains(".Tie.the-claims).") {
        return CLAIMS;
    }
    let said = words.iter().skip(1).find(outside).copied().unwrap_or(first);
    said.rsplit('.').next().unwrap_or(said)
}

/// The relation of a name.
fn relation(name: &str) -> Option<&'static str> {
    let last = name.rsplit('.').next().unwrap_or(name);
    RELATIONS
        .iter()
        .find(|(it, _)| *it == last)
        .map(|(_, is)| *is)
}

/// A term without the steps back.
fn without_steps(term: &str) -> String {
    term.replace(".before", "")
}

/// The two terms that are said to differ, where both are shown.
fn place(text: &str) -> Option<(&str, &str)> {
    let at = DIFFER.iter().filter_map(|it| text.rfind(it)).max()?;
    let (one, rest) = quoted(&text[at..], "where one has")?;
    let (other, _) = quoted(rest, "the other has")?;
    Some((one, other))
}

/// The kind of an error that says which type is needed and which is given.
fn mismatch(text: &str, families: &HashSet<String>) -> Kind {
    let Some((needed, _)) = quoted(text, "expected type") else {
        return Kind::Unknown;
    };
    let Some((given, _)) = quoted(text, "but this has type") else {
        return Kind::Unknown;
    };
    let heads = [head(needed), head(given)];
    let asks = |head: &&str| head.starts_with(ASKS);
    if heads.iter().any(|head| head.starts_with("Need-")) || heads.iter().all(asks) {
        return Kind::Misfit;
    }
    // `a < b` is written `suc a ≤ b` too: where both are computed and differ further in, they are one relation
    let computed = text.contains(COMPUTED);
    match (relation(heads[0]), relation(heads[1])) {
        (Some(a), Some(b)) if a != b && !computed => return Kind::Misfit,
        _ => {}
    }
    // where the checker left out a part of what is given, what is needed decides
    let cut = |term: &str| term.contains(LEFT_OUT);
    let said = |head: &str| {
        let contract = CONTRACTS.contains(&head) || head.starts_with(ASKS);
        relation(head).is_some() || contract || families.contains(head)
    };
    if !said(heads[0]) || !(said(heads[1]) || cut(given)) {
        return Kind::Unknown;
    }
    match place(text) {
        Some((a, b)) if without_steps(a) == without_steps(b) => Kind::Misfit,
        _ => Kind::Fact,
    }
}

/// The kind of an error by its text, of which rt may show only the beginning.
fn kind(text: &str, shown: bool, families: &HashSet<String>) -> Kind {
    if text.starts_with("note: ") {
        let unproved = text.contains(": it is not proved that ");
        return if unproved { Kind::Fact } else { Kind::Unknown };
    }
    let Some((at, said)) = text.split_once(": error: ") else {
        return Kind::Unknown;
    };
    if at.contains(' ') {
        return Kind::Unknown;
    }
    if FACTS.iter().any(|fact| said.contains(fact)) || PART.iter().all(|part| said.contains(part)) {
        return Kind::Fact;
    }
    if said.contains("but this has type") && !(shown && is_cut(text)) {
        return mismatch(said, families);
    }
    if MISFITS.iter().any(|misfit| said.contains(misfit)) {
        return Kind::Misfit;
    }
    if shown {
        return Kind::CutOff;
    }
    Kind::Unknown
}

/// The kind of what rt says of an edit, and what decides it.
fn judged<'a>(said: &'a str, shown: bool, families: &HashSet<String>) -> (Kind, &'a str) {
    let Some(rest) = said.strip_prefix(REFUSED) else {
        return (Kind::Bad, said);
    };
    if rest.starts_with(" (only by a limit") {
        return (Kind::Limit, said);
    }
    if rest.starts_with(" (") {
        return (Kind::Misfit, said);
    }
    let text = rest.strip_prefix(": ").unwrap_or(rest);
    (kind(text, shown, families), text)
}

/// The edits whose whole error was read, each with what rt shows of it behind the place.
const READ: &str = include_str!("../read.txt");

/// Whether an error, as rt shows it, is the one that was read of an edit.
fn was_read(edit: &str, text: &str, read: &str) -> bool {
    let Some((_, said)) = text.split_once(": error: ") else {
        return false;
    };
    read.lines()
        .filter(|line| !line.starts_with('#'))
        .filter_map(|line| line.split_once(": "))
        .any(|(name, shown)| name == edit && shown == said)
}

/// What rt says of each edit, by `crate/label`.
fn told(log: &str) -> HashMap<String, &str> {
    let line = |line| {
        let (edit, said) = str::strip_prefix(line, "rt: must-fail ")?.split_once(".edit: ")?;
        Some((edit.to_string(), said))
    };
    log.lines().filter_map(line).collect()
}

/// The family of types that a line declares: `record Runs (..) : Type 0`, `Alike : Float → Float → Type 0`.
fn family(line: &str) -> Option<&str> {
    let line = line.trim().trim_end_matches(" where");
    let signature = line.strip_suffix("Type 0")?.trim_end();
    let mut words = line
        .split_whitespace()
        .skip_while(|word| ["pub", "abbrev", "unfoldable", "record", "data"].contains(word));
    let name = words.next()?;
    let taken = signature.ends_with('→') || words.next()?.starts_with(['(', '{']);
    (taken && !name.starts_with(['(', '-'])).then_some(name)
}

/// The families of types that the crates below a folder declare.
fn families(folder: &Path, found: &mut HashSet<String>) {
    for path in fs::read_dir(folder)
        .into_iter()
        .flatten()
        .flatten()
        .map(|entry| entry.path())
    {
        if path.is_dir() {
            // what a build made is no crate's text
            if path.file_name().is_some_and(|name| name != "out") {
                families(&path, found);
            }
        } else if path.extension().is_some_and(|e| e == "antt") {
            let text = fs::read_to_string(&path).unwrap_or_default();
            found.extend(text.lines().filter_map(family).map(str::to_string));
        }
    }
}

/// The must-fail edits, as `crate/label`.
fn edits(crates: &Path) -> Vec<String> {
    let mut found = Vec::new();
    for entry in fs::read_dir(crates).into_iter().flatten().flatten() {
        let krate = entry.file_name().to_string_lossy().to_string();
        for edit in fs::read_dir(entry.path().join("must-fail"))
            .into_iter()
            .flatten()
            .flatten()
        {
            let name = edit.file_name().to_string_lossy().to_string();
            if let Some(label) = name.strip_suffix(".edit") {
                found.push(format!("{krate}/{label}"));
            }
        }
    }
    found.sort();
    found
}

/// What a file has, or an end with what is wrong.
fn read(file: &str) -> String {
    match fs::read(file) {
        Ok(text) => String::from_utf8_lossy(&text).to_string(),
        Err(error) => {
            eprintln!("sorted: {file}: {error}");
            process::exit(2);
        }
    }
}

/// Prints a line for each edit whose error, as rt shows it, does not decide, and as a whole is a failed fact.
fn write_read(root: &str, file: &str, errors: &str) {
    let (shown, whole) = (read(file), read(errors));
    let (shown, whole) = (told(&shown), told(&whole));
    let mut statements = HashSet::new();
    let crates = Path::new(root).join("crates");
    families(&crates, &mut statements);
    for edit in &edits(&crates) {
        let Some((kind, text)) = shown.get(edit).map(|it| judged(it, true, &statements)) else {
            continue;
        };
        if kind != Kind::CutOff {
            continue;
        }
        let said = text.split_once(": error: ").map_or(text, |(_, said)| said);
        match whole.get(edit).map(|it| judged(it, false, &statements)) {
            // Where it cuts a quoted term, rt closes the quote.
            Some((Kind::Fact, error)) if error.contains(said.trim_end_matches('`')) => println!("{edit}: {said}"),
            Some((kind, error)) => eprintln!("{edit}: {kind:?}: {error}"),
            None => eprintln!("{edit}: nothing is said of it"),
        }
    }
}

fn main() {
    let words: Vec<String> = env::args().skip(1).collect();
    let words: Vec<&str> = words.iter().map(String::as_str).collect();
    let (root, file) = match words.as_slice() {
        ["--whole", root, file, errors] => return write_read(root, file, errors),
        [root, file] => (root, file),
        _ => {
            eprintln!("usage: sorted FOLDER FILE, or sorted --whole FOLDER FILE ERRORS");
            process::exit(2);
        }
    };
    let crates = Path::new(root).join("crates");
    let log = read(file);
    let (all, said) = (edits(&crates), told(&log));
    let mut statements = HashSet::new();
    families(&crates, &mut statements);
    let (mut facts, mut misfits, mut limits, mut bad, mut unknown, mut missing) =
        (0, 0, 0, 0, 0, 0);
    for edit in &all {
        let Some(said) = said.get(edit) else {
            println!("{edit}: nothing is said of it");
            missing += 1;
            continue;
        };
        let (mut kind, text) = judged(said, true, &statements);
        if kind == Kind::CutOff && was_read(edit, text, READ) {
            kind = Kind::Fact;
        }
        let (count, what) = match kind {
            Kind::Fact => (&mut facts, ""),
            Kind::Misfit => (&mut misfits, "the proof no longer fits"),
            Kind::Limit => (&mut limits, "only a limit of the prover"),
            Kind::Bad => (&mut bad, "not refused"),
            Kind::CutOff => (&mut unknown, "rt shows less than decides"),
            Kind::Unknown => (&mut unknown, "an error of no known kind"),
        };
        *count += 1;
        if kind != Kind::Fact {
            println!("{edit}: {what}: {text}");
        }
    }
    println!(
        "sorted: {} edits: {facts} refused by a fact, {misfits} by a proof that no longer fits, {limits} by a limit, \
         {unknown} by an error that is not known, {bad} not refused, {missing} of which nothing is said",
        all.len()
    );
    process::exit(i32::from(facts != all.len() || all.is_empty()));
}

#[cfg(test)]
mod tests {
    use super::*;

    /// The kind of a whole error.
    fn kind(text: &str) -> Kind {
        let text = format!("./proofs/f/Answers.antt:1:2: error: {text}");
        super::kind(&text, false, &HashSet::from(["Runs".to_string()]))
    }

    /// The kind of what rt shows.
    fn shown(text: &str) -> Kind {
        let text: String = text.chars().take(SHOWN).collect();
        super::kind(&text, true, &HashSet::new())
    }

    fn judged(said: &str) -> Kind {
        super::judged(said, true, &HashSet::new()).0
    }

    /// What is needed and what is given, as the checker says it.
    fn mismatched(needed: &str, given: &str, a: &str, b: &str) -> String {
        format!(
            "`returns`: as printed, the two types differ only where one has `{a}` (expected), at \
             the start, and the other has `{b}` (found) expected type `{needed}`, but this has type `{given}`"
        )
    }

    #[test]
    fn facts() {
        let texts = [
            "`returns-3`: `omega`: the goal does not follow from what it read. All of that holds, and the goal fails, at `x` = 513.",
            "`encode-doubles-requires`: `omega`: the part `.0` of the goal does not follow from what it read. All of that holds, and the part fails, at `x` = 1, `y` = 0.",
            "`put-spec`: `search`: no proof of `InSlice T15 1 9` was found. It stopped 5 lemmas deep",
            "`returns`: give a proof of that as the last argument, `rw L t`, or add what is missing to the list \
             `rw` has no last argument, so what it leaves must be a path whose two ends are equal, and `Path Float (le a b) (lt a b)` is none",
            "`returns`: expected type `Runs x y`, but this has type `Runs x z`",
            "`returns`: expected type `x ◌≡◌ y`, but this has type `mathlib.Core.Path.◌≡◌ x z`",
        ];
        for text in texts {
            assert_eq!(kind(text), Kind::Fact, "{text}");
        }
        let text = mismatched(
            "lt nought c.args.x ≡ true",
            "Row.get 2 T2.locals ≡ true",
            "lt",
            "le",
        );
        assert_eq!(kind(&text), Kind::Fact);
        let text = mismatched(
            "P.View.Asks-returns c",
            "record {puts : Puts a; most : b ≤ c}",
            "not a",
            "a",
        );
        assert_eq!(kind(&text), Kind::Fact);
        let text = mismatched(
            "P.Reads.Post c.κs",
            "mathlib.Core.Path.◌≡◌ 2 (first_of ts)",
            "3",
            "2",
        );
        assert_eq!(kind(&text), Kind::Fact);
        let text = mismatched(
            "(P.Tie.the-claims).6 ([], tt)",
            "Runs 6543 x",
            "(P.Tie.the-claims)",
            "Runs",
        );
        assert_eq!(kind(&text), Kind::Fact);
        let text = mismatched(
            "Nat.◌<◌ (f 9) x",
            "Nat.◌≤◌ (suc (f 8)) x",
            "Nat.◌<◌",
            "Nat.◌≤◌",
        );
        let text = format!("{text} computed as far as they go, the two types differ only where one has `9` (expected) and the other has `8` (found)");
        assert_eq!(kind(&text), Kind::Fact);
        let text = mismatched(
            "f (g x) ≡ y",
            "f (each (λ i. as_row…[1823 bytes]…s ∷ []))",
            "g x",
            "each",
        );
        assert_eq!(kind(&text), Kind::Fact);
    }

    #[test]
    fn begun() {
        let texts = [
            "./proofs/KktIdx/new/Answers.antt:18:22: error: `returns`: `omega`: the goal does not follow from what it read. All of that holds, and the goal fails, at `c.args",
            "note: src/lib.rt:154:1: it is not proved that what the function ensures holds when it returns (`returns-in-Both`)",
        ];
        for text in texts {
            assert_eq!(shown(text), Kind::Fact, "{text}");
        }
        let texts = [
            "./proofs/dc/lay_counted/Answers.antt:27:13: error: `returns`: as printed, the two types differ only where one has `c.args.cap` (expected), right after `mathlib.",
            "./proofs/active_of/Answers.antt:14:7: error: `returns`: give a proof of that as the last argument, `rw L t` (`rw L ?` shows it as a hole's goal), or add what is ",
            "./proofs/put_short/Answers.antt:36:113: error: `loop-i-preserved`: as printed, the two sides first differ where one has `Rattle.kkt.specs.Walks.item_in (borrow.",
            "./proofs/unknown/Answers.antt:20:31: error: `returns-then-not-in_range`: expected type `4 ≡ unknown_number c.args.base`, but this has type `3 ≡ unknown_number (",
            "./proofs/kkt/Answers.antt:20:31: error: `returns-then-not-in_range-clause-value`: `omega`: the part `.0` of the goal does not follow from wha",
        ];
        for text in texts {
            assert_eq!(shown(text), Kind::CutOff, "{text}");
        }
        let text = "./proofs/f/Answers.antt:1:2: error: `returns`: record `Lts.Else2` has no field `if-room-lt1` (nearest: .if-room-lt0)";
        assert_eq!(shown(text), Kind::Misfit);
    }

    #[test]
    fn declared_families() {
        assert_eq!(
            family("pub record Runs (A : Type 0) (n : ℕ) : Type 0 where"),
            Some("Runs")
        );
        assert_eq!(
            family("  abbrev pub Alike : Float → Float → Type 0"),
            Some("Alike")
        );
        assert_eq!(family("pub record Counts : Type 0 where"), None);
        assert_eq!(family("get_or : {A : Type 0} → List A → ℕ → A → A"), None);
    }

    #[test]
    fn misfits() {
        let texts = [
            "`returns`: `rw`: no occurrence of the path's left endpoint in the goal: write the family yourself",
            "`returns`: `≡` is not in scope",
            "`returns`: record `Lts.Else2` has no field `if-room-lt1` (nearest: .if-room-lt0)",
            "`returns`: `goal.returns-2`: module `Rattle.a.proofs.f.Goals` has no `returns-2` that can be named from here",
            "`f-spec`: this call writes 1 explicit argument more than `spec` takes",
            "`returns`: expected type `x ◌<◌ y`, but this has type `x ◌≤◌ y`",
        ];
        for text in texts {
            assert_eq!(kind(text), Kind::Misfit, "{text}");
        }
        let text = mismatched(
            "Nat.◌<◌ (?0 c) (?1 c)",
            "Nat.◌≤◌ (get 5) (get 4)",
            "Nat.◌<◌",
            "Nat.◌≤◌",
        );
        assert_eq!(kind(&text), Kind::Misfit);
        let text = mismatched("P.Tie.Need-returns-2", "P.Tie.Need-returns-3", "2", "3");
        assert_eq!(kind(&text), Kind::Misfit);
        let text = mismatched("P.View.Asks-returns c", "P.View.Asks-returns-2 c", "2", "3");
        assert_eq!(kind(&text), Kind::Misfit);
        let text = mismatched(
            "f c.before.args ≡ x",
            "f c.args ≡ x",
            "c.before.args",
            "c.args",
        );
        assert_eq!(kind(&text), Kind::Misfit);
    }

    #[test]
    fn unknowns() {
        assert_eq!(kind("`returns`: something else is wrong"), Kind::Unknown);
        assert_eq!(
            kind(&mismatched("Float", "x ≡ y", "Float", "x")),
            Kind::Unknown
        );
        assert_eq!(
            super::kind("src/lib.rt:1:1: no error", false, &HashSet::new()),
            Kind::Unknown
        );
        let text = "note: src/lib.rt:1:1: a thing to know";
        assert_eq!(super::kind(text, false, &HashSet::new()), Kind::Unknown);
    }

    #[test]
    fn recorded() {
        let read = "# a remark\nkkt/other: `law`: expected type `A`\n";
        let text = "./proofs/Laws.antt:1:2: error: `law`: expected type `A`";
        assert!(was_read("kkt/other", text, read));
        assert!(!was_read("kkt/another", text, read));
        assert!(!was_read(
            "kkt/other",
            "./proofs/Laws.antt:1:2: error: `law`: expected type `B`",
            read
        ));
        assert!(!was_read("kkt/other", "`law`: expected type `A`", read));
    }

    #[test]
    fn verdicts() {
        let fact = ": note: src/lib.rt:1:1: it is not proved that the loop ends, by its measure";
        assert_eq!(judged(&[REFUSED, fact].concat()), Kind::Fact);
        assert_eq!(judged(REFUSED), Kind::Unknown);
        let names = " (only because a proof file names what the edit took away, so this says little of the contract: change a value and keep the names): ./proofs/f/Answers.antt:14:42: error: `returns`";
        assert_eq!(judged(&[REFUSED, names].concat()), Kind::Misfit);
        let limit = " (only by a limit of the prover, which gave no verdict, so this says less of the contract: choose a change that it refuses sooner): antt ran out of stack";
        assert_eq!(judged(&[REFUSED, limit].concat()), Kind::Limit);
        for said in [
            "NOT REFUSED: the crate is still proved with this edit",
            "BAD EDIT: an 'old:' text is in src/lib.rt 0 times, and not once",
            "NOT TRIED: its check was killed",
        ] {
            assert_eq!(judged(said), Kind::Bad, "{said}");
        }
    }

    #[test]
    fn lines() {
        let log = "rt: ok; must-fail edits: 2 refused\n\
                   rt: must-fail a/one.edit: refused, as it must be: x: error: y\n\
                   rt: must-fail b/two-more.edit: NOT REFUSED: z\n";
        let found = told(log);
        assert_eq!(found.len(), 2);
        assert_eq!(found["a/one"], "refused, as it must be: x: error: y");
        assert_eq!(found["b/two-more"], "NOT REFUSED: z");
    }
}
