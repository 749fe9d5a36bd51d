//! Compares the static library's exports with the original Rust and with the paper's
//! number table, on generated networks, good and damaged.

mod abi;
mod bytes;
mod calls;
mod damage;
mod generate;
mod marks;
#[cfg(feature = "mock")]
mod mock;
mod paper;
mod parameters;
mod program_marks;
mod programs;
mod random;
mod record;
mod record_program;
mod report;
mod runs;
mod sensitivity;
mod shrink;
mod slot;
mod solutions;
mod states;
mod table;
#[cfg(target_os = "linux")]
mod watch;

use std::process::ExitCode;
use std::time::{Duration, Instant};

use abi::Memory;
use bytes::Bytes;
use calls::{check, Args, Lend, Op, Site, OPS};
use damage::{Damage, Place};
use marks::mark_network;
use paper::{bytes_of_doubles, bytes_of_words, Count, Lent};
use parameters::Parameters;
use random::Rng;
use report::{call_rows, print_rows, CallTally, Coverage, Mismatch, FLOOR, SHEET_FLOOR};
use runs::Runs;
use sensitivity::Sensitivity;
use table::{Cases, Table};

const HELP: &str = "\
compare: runs the exports beside the original Rust on generated networks

  --cases N     at least N good and N damaged networks, and half as many good ones on which
                only the calls with a solution sheet and those on the program run, near the
                thresholds of snapping, and a sixth as many runs of site changes (200000);
                of a quarter of the networks columns of the parameters are asked, on nearly a
                fifth selectors, contractions and unit scales, and on a seventh the same
                calls on bytes
  --seconds N   stop after N seconds, which is a failure before --cases is reached (240)
  --long        no time bound, and five times as many networks unless --cases says how many;
                fewer than 2000000 cases over all calls are a failure
  --seed N      another seed gives other networks (1)
  --quick       neither the time bound nor the coverage floors count as failures
  --record N FILE
                compares nothing, but writes N small networks with solution sheets and the
                original's matrix of each to FILE, one a line
  --record-opf N FILE
                compares nothing, but writes N small networks with a solver's vectors and the
                original's program, solution sheet and marginal values of each to FILE
  --program FILE
                compares no exports, but what the program sitechange, built as FILE, prints
  --help        this text

Prints what was covered, and a table with a row for each exported call: whether it takes bytes
or words, the cases run, those of them that were refused (of a right side: that were empty), and
the mismatches; then the seed and one summary line. A case is one call with every lent byte
checked. Exit code 0 if every call did what it must, 1 if not, 2 if a call was never compared.";

/// Networks of either kind, unless the options say how many, and so many times more in a long run.
const NETWORKS: u64 = 200_000;
const LONGER: u64 = 5;
/// The fewest cases over all calls of a long run.
const LONG_CASES: u64 = 2_000_000;

struct Options {
    cases: u64,
    /// No bound in a long run.
    seconds: Option<u64>,
    seed: u64,
    quick: bool,
    record: Option<(u64, String)>,
    record_opf: Option<(u64, String)>,
    program: Option<String>,
}

fn options() -> Result<Option<Options>, String> {
    let (mut cases, mut seconds, mut long) = (None, 240, false);
    let mut options = Options {
        cases: 0,
        seconds: None,
        seed: 1,
        quick: false,
        record: None,
        record_opf: None,
        program: None,
    };
    let mut words = std::env::args().skip(1);
    while let Some(option) = words.next() {
        let mut number = || -> Result<u64, String> {
            let word = words.next().ok_or(format!("{} needs a number", option))?;
            word.parse().map_err(|_| format!("{} is not a number", word))
        };
        match option.as_str() {
            "--cases" => cases = Some(number()?),
            "--seconds" => seconds = number()?,
            "--long" => long = true,
            "--seed" => options.seed = number()?,
            "--quick" => options.quick = true,
            "--record" | "--record-opf" => {
                let count = number()?;
                let file = words.next().ok_or(format!("{} needs a file", option))?;
                match option.as_str() {
                    "--record" => options.record = Some((count, file)),
                    _ => options.record_opf = Some((count, file)),
                }
            }
            "--program" => options.program = Some(words.next().ok_or("--program needs a file")?),
            "--help" | "-h" => return Ok(None),
            _ => return Err(format!("unknown option {}", option)),
        }
    }
    options.cases = cases.unwrap_or(if long { LONGER * NETWORKS } else { NETWORKS });
    options.seconds = (!long).then_some(seconds);
    Ok(Some(options))
}

/// After the first mismatch, so many more networks are searched for a smaller one.
const FURTHER: u64 = 4_000;

/// Numbers of cases with a solution sheet alone start here.
const SOLVED_CASES: u64 = 1 << 40;
/// Numbers of runs of site changes start here.
const RUN_CASES: u64 = 1 << 41;

struct Run {
    seed: u64,
    memory: Memory,
    cover: Coverage,
    damages: Vec<Damage>,
    pairs: Vec<(usize, usize)>,
    good: u64,
    damaged: u64,
    solved: u64,
    largest: u64,
    damaged_sheets: u64,
    tallies: Vec<CallTally>,
    smallest: Option<Mismatch>,
    runs: Runs,
    parameters: Parameters,
    sensitivity: Sensitivity,
    bytes: Bytes,
}

impl Run {
    fn new(seed: u64) -> Run {
        let damages = damage::all();
        let count = damages.len();
        let pairs = (0..count).flat_map(|b| (0..b).map(move |a| (a, b))).collect();
        Run {
            seed,
            memory: Memory::new(seed),
            cover: Coverage::new(count),
            damages,
            pairs,
            good: 0,
            damaged: 0,
            solved: 0,
            largest: 0,
            damaged_sheets: 0,
            tallies: vec![CallTally::default(); OPS.len()],
            smallest: None,
            runs: Runs::new(),
            parameters: Parameters::new(),
            sensitivity: Sensitivity::new(),
            bytes: Bytes::new(),
        }
    }

    fn table(&self) -> Table {
        let ops = OPS.iter().zip(&self.tallies).enumerate();
        let ops = ops.map(|(place, (op, tally))| {
            let refused = tally.calls - self.cover.accepted(place);
            (op.export(), Cases { run: tally.calls, refused, mismatches: tally.mismatches })
        });
        let others = self.runs.cases().chain([self.parameters.cases()]);
        Table::new(ops.chain(others).chain(self.sensitivity.cases()).chain(self.bytes.cases()))
    }

    fn mismatches(&self) -> u64 {
        let calls: u64 = self.tallies.iter().map(|tally| tally.mismatches).sum();
        let columns = self.parameters.mismatches + self.sensitivity.mismatches();
        calls + self.runs.mismatches + columns + self.bytes.mismatches()
    }

    fn one_good(&mut self, serial: u64) {
        let case = 2 * serial;
        let mut rng = self.case(case);
        let sizes = generate::sizes(&mut rng, serial);
        let lent = generate::parts(&mut rng, &sizes).encode();
        let site = Site::new(lent);
        assert!(site.held.lowest() == 0, "case {}: a good network is accepted", case);
        self.visit(&site, case, &mut rng, |op| op.rounds);
        self.derivatives(&site, case);
    }

    /// Two of three serial numbers break one rule, the third breaks two.
    fn one_damaged(&mut self, serial: u64) {
        let case = 2 * serial + 1;
        let mut rng = self.case(case);
        let third = (serial / 3) as usize;
        if serial % 3 < 2 {
            let turn = 2 * third + (serial % 3) as usize;
            let kind = turn % self.damages.len();
            let place = Place::ALL[turn / self.damages.len() % 3];
            let site = self.damage(serial, &mut rng, &[(kind, place)]);
            let damage = self.damages[kind];
            let number = site.held.lowest();
            assert!(number == damage.number(), "case {}: {} gives {}", case, damage.name(), number);
            self.cover.hit_alone(kind, place);
            self.visit(&site, case, &mut rng, |_| 1);
            self.derivatives(&site, case);
        } else {
            // A step that shares no factor with the number of pairs meets them all.
            let pair = third.wrapping_mul(1_000_003) % self.pairs.len();
            let (first, second) = self.pairs[pair];
            let places = (rng.pick(&Place::ALL), rng.pick(&Place::ALL));
            let site = self.damage(serial, &mut rng, &[(first, places.0), (second, places.1)]);
            self.cover.hit_pair(pair, first, second);
            self.visit(&site, case, &mut rng, |_| 1);
            self.derivatives(&site, case);
        }
    }

    /// A good network whose readings lie near the thresholds of snapping: each call that
    /// takes a solution sheet or is about the program, once with all in order and half of the
    /// time with anything.
    fn one_solved(&mut self, serial: u64) {
        let case = SOLVED_CASES + serial;
        let mut rng = self.case(case);
        let sizes = generate::solved_sizes(&mut rng, serial);
        let mut parts = generate::parts(&mut rng, &sizes);
        solutions::tune(&mut rng, &mut parts);
        programs::tune(&mut rng, &mut parts);
        let site = Site::new(parts.encode());
        assert!(site.held.lowest() == 0, "case {}: a good network is accepted", case);
        self.solved += 1;
        self.largest += u64::from(Count::ALL.iter().all(|&c| parts.count(c) == c.limit()));
        self.memory.fill_network(&site.lent);
        let calls = || OPS.iter().enumerate();
        for (place, op) in calls().filter(|(_, op)| op.solved() || op.programmed()) {
            let before = self.cover.accepted(place);
            let args = op.draw_sound(&site, &mut rng);
            self.call(place, &site, &args, case, &mut rng);
            if rng.percent(50) {
                let args = op.draw(&site, &mut rng);
                self.call(place, &site, &args, case, &mut rng);
            }
            self.tallies[place].networks += u64::from(self.cover.accepted(place) > before);
        }
        self.derivatives(&site, case);
    }

    /// Columns of the parameters, what is made of such columns, and both on bytes, each on a share
    /// of the networks.
    fn derivatives(&mut self, site: &Site, case: u64) {
        let origin = self.origin(case);
        self.parameters.visit(site, self.seed, case, &origin);
        self.sensitivity.visit(site, self.seed, case, &origin);
        self.bytes.visit(site, self.seed, case, &origin);
    }

    /// A run of site changes.
    fn one_run(&mut self, serial: u64) {
        let case = RUN_CASES + serial;
        let mut rng = self.case(case);
        let origin = self.origin(case);
        self.runs.one(&mut rng, serial, &self.damages, &origin);
    }

    fn origin(&self, case: u64) -> String {
        format!("seed {}, case {}", self.seed, case)
    }

    fn case(&self, case: u64) -> Rng {
        #[cfg(target_os = "linux")]
        watch::note_case(case);
        Rng::new(self.seed, case)
    }

    fn damage(&self, serial: u64, rng: &mut Rng, kinds: &[(usize, Place)]) -> Site {
        let sizes = generate::sizes(rng, serial);
        let damages: Vec<_> =
            kinds.iter().map(|&(kind, place)| (self.damages[kind], place)).collect();
        Site::new(damage::damaged(rng, sizes, &damages))
    }

    /// Makes every call on a network, those with a solution sheet or raw vectors on half of the
    /// damaged ones, and those on the program with all in order too on the accepted ones.
    fn visit(&mut self, site: &Site, case: u64, rng: &mut Rng, rounds: fn(&Op) -> usize) {
        if site.held.lowest() == 0 {
            self.good += 1;
        } else {
            self.damaged += 1;
        }
        mark_network(site, &mut self.cover);
        self.memory.fill_network(&site.lent);
        let accepted = site.held.lowest() == 0;
        let with_sheet = accepted || rng.percent(50);
        self.damaged_sheets += u64::from(with_sheet && !accepted);
        let takes = |op: &Op| op.solved() || (op.programmed() && !op.lists.is_empty());
        let calls = OPS.iter().enumerate().filter(|(_, op)| with_sheet || !takes(op));
        for (place, op) in calls.filter(|(_, op)| !op.typed() || site.whole()) {
            let before = self.cover.accepted(place);
            for _ in 0..rounds(op) {
                let args = op.draw(site, rng);
                self.call(place, site, &args, case, rng);
            }
            if accepted && op.programmed() {
                let args = op.draw_sound(site, rng);
                self.call(place, site, &args, case, rng);
            }
            self.tallies[place].networks += u64::from(self.cover.accepted(place) > before);
        }
    }

    fn call(&mut self, place: usize, site: &Site, args: &Args, case: u64, rng: &mut Rng) {
        let cover = Some(&mut self.cover);
        self.tallies[place].calls += 1;
        if let Some(found) = check(place, site, args, &mut self.memory, rng, cover) {
            self.keep(found, case);
        }
    }

    fn keep(&mut self, mut found: Mismatch, case: u64) {
        self.tallies[found.op].mismatches += 1;
        found.origin = self.origin(case);
        if self.smallest.as_ref().map_or(true, |least| found.size() < least.size()) {
            self.smallest = Some(found);
        }
    }

    /// The paper's bench network with its sheet, and the network without anything.
    fn fixed(&mut self) {
        let (bench, solution) = calls::bench();
        let empty = Lent {
            wiring: bytes_of_words(&[0; paper::HEAD]),
            readings: bytes_of_doubles(&[100.0]),
            ..Lent::default()
        };
        for (lent, solution) in [(bench, &solution[..]), (empty, &[0.0])] {
            let site = Site::new(lent);
            assert!(site.held.lowest() == 0, "a fixed network is accepted");
            let mut rng = Rng::new(self.seed, u64::MAX - 1);
            self.visit(&site, 0, &mut rng, |_| 20);
            for (place, op) in OPS.iter().enumerate().filter(|(_, op)| op.solved()) {
                let lists = vec![bytes_of_doubles(solution)];
                let lends = vec![Lend::default(); op.sheets.len()];
                let args = Args { lists, lends, ..Args::default() };
                self.call(place, &site, &args, 0, &mut rng);
            }
            self.parameters.fixed(&site, solution, self.seed);
            self.sensitivity.fixed(&site, solution, self.seed);
            self.bytes.fixed(&site, solution, self.seed);
            for (place, _) in OPS.iter().enumerate().filter(|(_, op)| op.sheets.len() == 9) {
                for one in 0..programs::OUTPUTS {
                    for lends in [programs::one_short(one, 0), programs::one_short(one, 3)] {
                        let args = Args { lends, ..Args::default() };
                        self.call(place, &site, &args, 0, &mut rng);
                    }
                }
            }
        }
        self.bytes.greatest(self.seed);
        self.runs.bench();
    }
}

/// Runs to the end, the time bound, or a while after the first mismatch.
fn run(options: &Options, run: &mut Run) -> bool {
    let until = options.seconds.map(|seconds| Instant::now() + Duration::from_secs(seconds));
    run.fixed();
    let mut serial = 0;
    let mut last = u64::MAX;
    while run.good < options.cases || run.damaged < options.cases {
        if until.map_or(false, |until| Instant::now() >= until) {
            return false;
        }
        if serial >= last {
            break;
        }
        run.one_good(serial);
        run.one_damaged(serial);
        if serial % 2 == 0 {
            run.one_solved(serial / 2);
        }
        if serial % 6 == 0 {
            run.one_run(serial / 6);
        }
        serial += 1;
        if run.mismatches() > 0 && last == u64::MAX {
            last = serial + FURTHER;
        }
    }
    true
}

/// What a run comes to.
enum Outcome {
    Passed,
    Failed,
    /// Calls that no case was of.
    NeverCompared(Vec<&'static str>),
}

fn compare(options: &Options) -> Outcome {
    #[cfg(target_os = "linux")]
    watch::start(
        options.seconds.map_or(0, |seconds| seconds.saturating_add(30).min(1 << 30) as u32),
    );
    let start = Instant::now();
    let mut tally = Run::new(options.seed);
    let in_time = run(options, &mut tally);
    let time = start.elapsed();
    let low = tally.cover.print(&tally.damages) + tally.runs.print() + tally.parameters.print();
    let low = low + tally.sensitivity.print(options.cases) + tally.bytes.print();
    let low = low + print_rows(&call_rows(&tally.tallies, options.cases));
    if let Some(mismatch) = tally.smallest.take() {
        shrink::shrink(mismatch, &mut tally.memory, options.seed).print();
    }
    if low > 0 {
        println!(
            "coverage: {} rows below the floor of {} ({} for solution sheets, programs and runs of \
             changes)",
            low, FLOOR, SHEET_FLOOR
        );
    }
    println!(
        "solution sheets: on {} accepted networks, of which {} near the thresholds and {} of \
         these with all counts at their limits; on {} damaged ones",
        tally.good + tally.solved,
        tally.solved,
        tally.largest,
        tally.damaged_sheets
    );
    println!("runs of changes: {}, {} changes", tally.runs.count(), tally.runs.calls());
    let networks = [
        ("parameter columns", tally.parameters.networks()),
        ("sensitivity", tally.sensitivity.networks()),
        ("on bytes", tally.bytes.networks()),
    ];
    for (what, (accepted, damaged)) in networks {
        println!("{}: {} accepted and {} damaged networks", what, accepted, damaged);
    }
    let table = tally.table();
    let Cases { run: cases, mismatches, .. } = table.total();
    table.print(options.seed);
    println!(
        "time: {:.1} s, {:.2} us a case with its check",
        time.as_secs_f64(),
        time.as_secs_f64() * 1e6 / cases.max(1) as f64
    );
    let enough = options.seconds.is_some() || cases >= LONG_CASES;
    if !enough {
        println!("a long run has at least {} cases", LONG_CASES);
    }
    if let Some(seconds) = options.seconds.filter(|_| !in_time) {
        println!("stopped by the time bound of {} seconds", seconds);
    }
    println!(
        "compare: {} good and {} damaged networks, {} cases, {} mismatches",
        tally.good, tally.damaged, cases, mismatches
    );
    let passed = enough && (options.quick || (low == 0 && in_time));
    match table.never_compared() {
        _ if mismatches > 0 => Outcome::Failed,
        never if !never.is_empty() => Outcome::NeverCompared(never),
        _ if passed => Outcome::Passed,
        _ => Outcome::Failed,
    }
}

fn main() -> ExitCode {
    let options = match options() {
        Ok(Some(options)) => options,
        Ok(None) => {
            println!("{}", HELP);
            return ExitCode::SUCCESS;
        }
        Err(error) => {
            eprintln!("compare: {}; --help shows the options", error);
            return ExitCode::from(2);
        }
    };
    if let Err(error) = oracle::self_test() {
        println!("compare: the oracle fails its own test: {}", error);
        return ExitCode::FAILURE;
    }
    let recorders: [(_, fn(u64, u64, &str) -> std::io::Result<()>); 2] =
        [(&options.record, record::write), (&options.record_opf, record_program::write)];
    for (what, write) in recorders {
        if let Some((count, file)) = what {
            return match write(options.seed, *count, file) {
                Ok(()) => ExitCode::SUCCESS,
                Err(error) => {
                    eprintln!("compare: {}: {}", file, error);
                    ExitCode::from(2)
                }
            };
        }
    }
    if let Some(program) = &options.program {
        return match runs::program::hold(program) {
            Ok(inputs) => {
                println!("sitechange: {} inputs, 0 mismatches", inputs);
                ExitCode::SUCCESS
            }
            Err(error) => {
                println!("sitechange: mismatch {}", error);
                ExitCode::FAILURE
            }
        };
    }
    match compare(&options) {
        Outcome::Passed => ExitCode::SUCCESS,
        Outcome::Failed => ExitCode::FAILURE,
        Outcome::NeverCompared(calls) => {
            println!("compare: never compared: {}", calls.join(", "));
            ExitCode::from(2)
        }
    }
}
