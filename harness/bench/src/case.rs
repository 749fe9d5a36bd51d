//! The networks that are timed, each with a solution sheet, as words, as bytes and as the original holds it.

use oracle::{Network, Oracle, Solved};
use std::hint::black_box;

/// Buses, branches and generators: small, medium, and each at its limit.
const SIZES: [Size; 3] = [Size { n: 20, m: 30, k: 8 }, Size { n: 100, m: 150, k: 60 }, Size { n: 256, m: 512, k: 256 }];

/// Every fourth generator has a piecewise cost, of so many segments.
const PIECEWISE_TURN: usize = 4;
const SEGMENTS: usize = 3;

/// Terms of each linear row.
const FLOW_TERMS: usize = 3;
const GENERATION_TERMS: usize = 2;

#[derive(Clone, Copy)]
pub struct Size {
    pub n: usize,
    pub m: usize,
    pub k: usize,
}

/// A network as bytes, its fields named as those of words.
pub struct Bytes {
    pub wiring: Vec<u8>,
    pub readings: Vec<u8>,
    pub term_index: Vec<u8>,
    pub term_coefficient: Vec<u8>,
}

/// One network with its solution.
pub struct Case {
    pub size: Size,
    pub words: Network,
    pub bytes: Bytes,
    pub original: Oracle,
    pub sheet: Vec<f64>,
    pub sheet_bytes: Vec<u8>,
    pub solved: Solved,
}

impl Case {
    fn new(size: Size) -> Case {
        let words = network(size);
        let bytes = Bytes {
            wiring: word_bytes(&words.wiring),
            readings: double_bytes(&words.readings),
            term_index: word_bytes(&words.term_index),
            term_coefficient: double_bytes(&words.term_coefficient),
        };
        let original = Oracle::new(&words);
        let sheet = solution(original.solution_len());
        let (sheet_bytes, solved) = (double_bytes(&sheet), original.solved(&sheet));
        Case { size, words, bytes, original, sheet, sheet_bytes, solved }
    }

    pub fn all() -> Vec<Case> {
        SIZES.map(Case::new).into()
    }

    /// Reference buses, segments, linear rows, terms.
    fn other_counts(&self) -> [usize; 4] {
        [3, 4, 5, 6].map(|at| self.words.wiring[at] as usize)
    }

    pub fn linear_rows(&self) -> usize {
        self.other_counts()[2]
    }

    pub fn has_piecewise_cost(&self, generator: usize) -> bool {
        self.words.wiring[9 + 2 * self.size.m + self.size.k + generator] > 0
    }

    /// The sheet turned into the original's structures and let go: its calls on a sheet begin with that.
    pub fn read_sheet(&self) {
        black_box(self.original.solved(black_box(&self.sheet)));
    }

    /// The most triplets that such a network's matrix can have: with room for them the list is written in
    /// one pass.
    pub fn most_triplets(&self) -> usize {
        let (Size { n, m, k }, [r, s, q, t]) = (self.size, self.other_counts());
        26 * m + 10 * n + 9 * k + 5 * s + 2 * r + 4 * t + 2 * q
    }

    /// The same of the program's P and A.
    pub fn most_program_triplets(&self) -> [usize; 2] {
        let (Size { n, m, k }, [r, s, _, t]) = (self.size, self.other_counts());
        [k, 13 * m + 3 * k + 3 * n + r + 2 * s + 2 * t]
    }
}

/// A meshed network: branch e joins bus e to a bus some steps on, every tenth twice.
///
/// Besides buses, branches and generators it has a piecewise cost of three segments at every fourth generator,
/// and some linear rows (4 of n 20, 7 of n 100, 12 of n 256), each of three flow and two generation terms:
/// limited above, below, on both sides, and to one value, in turn.
fn network(Size { n, m, k }: Size) -> Network {
    let mut state = 0x9e37_79b9_7f4a_7c15u64;
    let mut next = |below: usize| {
        state = state.wrapping_mul(6364136223846793005).wrapping_add(1442695040888963407);
        ((state >> 33) as usize) % below
    };
    let segments: Vec<usize> =
        (0..k).map(|j| if j % PIECEWISE_TURN == PIECEWISE_TURN - 1 { SEGMENTS } else { 0 }).collect();
    let (s, q) = (segments.iter().sum(), 4 + n / 32);
    let t = q * (FLOW_TERMS + GENERATION_TERMS);
    let mut wiring: Vec<u32> = [n, m, k, 1, s, q, t, 1, 1].iter().map(|&x| x as u32).collect();
    let from: Vec<u32> = (0..m).map(|e| (e % n) as u32).collect();
    let to: Vec<u32> = (0..m).map(|e| ((e + 1 + next(7)) % n) as u32).collect();
    wiring.extend(&from);
    wiring.extend(&to);
    wiring.extend((0..k).map(|_| next(n) as u32));
    wiring.extend(segments.iter().map(|&count| count as u32));
    wiring.push(0);
    wiring.extend((0..k + 2 * m).map(|_| 1u32));
    wiring.extend((0..q).map(|row| [1u32, 2, 3, 3][row % 4]));
    wiring.extend((0..q).map(|_| FLOW_TERMS as u32));
    wiring.extend((0..q).map(|_| GENERATION_TERMS as u32));
    let mut readings = vec![100.0];
    let mut many = |count: usize, low: f64, step: f64| {
        for i in 0..count {
            readings.push(low + step * (i % 17) as f64);
        }
    };
    many(m, -9.0, 0.25);
    many(m, 1.0, 0.0);
    many(m, 0.0, 0.01);
    many(m, 0.0, 0.02);
    many(m, 2.0, 0.1);
    many(m, -0.5, 0.0);
    many(m, 0.5, 0.0);
    many(k, 0.0, 0.0);
    many(k, 2.0, 0.1);
    many(k, 1.0, 0.05);
    many(k, 1.0, 0.3);
    many(k, 0.0, 0.0);
    many(n, 30.0, 0.0);
    many(n, 0.0, 0.1);
    many(n, 0.0, 0.0);
    many(n, 0.0, 0.0);
    // Slopes that rise from segment to segment, each taking over at 0.8 more than the one before.
    readings.extend((0..s).map(|i| 1.0 + 0.5 * (i % SEGMENTS) as f64));
    readings.extend((0..s).map(|i| [0.0, -0.4, -1.2][i % SEGMENTS]));
    readings.extend((0..q).map(|row| 150.0 + row as f64));
    readings.extend((0..q).map(|row| if row % 4 == 3 { 150.0 + row as f64 } else { -150.0 }));
    let mut term_index = Vec::new();
    for row in 0..q {
        term_index.extend((0..FLOW_TERMS).map(|i| ((7 * row + 11 * i) % m) as u32));
        term_index.extend((0..GENERATION_TERMS).map(|i| ((3 * row + 5 * i) % k) as u32));
    }
    let term_coefficient = (0..t).map(|i| 0.5 + 0.25 * (i % 5) as f64).collect();
    Network { wiring, readings, term_index, term_coefficient }
}

/// A solution sheet for such a network: words around 1, none of them zero, so that limits
/// are met on both sides of their thresholds.
pub fn solution(words: usize) -> Vec<f64> {
    (0..words).map(|i| 0.1 + 0.37 * (i % 11) as f64 - 0.25 * (i % 7) as f64).collect()
}

pub fn double_bytes(words: &[f64]) -> Vec<u8> {
    words.iter().flat_map(|x| x.to_le_bytes()).collect()
}

pub fn word_bytes(words: &[u32]) -> Vec<u8> {
    words.iter().flat_map(|x| x.to_le_bytes()).collect()
}

pub fn words(bytes: &[u8]) -> Vec<u32> {
    bytes.chunks_exact(4).map(|word| u32::from_le_bytes(word.try_into().unwrap())).collect()
}

pub fn doubles(bytes: &[u8]) -> Vec<f64> {
    bytes.chunks_exact(8).map(|word| f64::from_le_bytes(word.try_into().unwrap())).collect()
}

/// Holds an export's words to the original's, bit for bit.
pub fn hold(got: &[f64], due: &[f64]) {
    let bits = |words: &[f64]| words.iter().map(|x| x.to_bits()).collect::<Vec<u64>>();
    assert!(bits(got) == bits(due), "not the original's words");
}

/// An export's triplets in three sheets, as long as they are lent.
pub struct Lists<I, V> {
    pub rows: Vec<I>,
    pub cols: Vec<I>,
    pub values: Vec<V>,
}

pub type WordLists = Lists<u32, f64>;
pub type ByteLists = Lists<u8, u8>;

impl WordLists {
    pub fn of_words(room: usize) -> WordLists {
        Lists { rows: vec![0; room], cols: vec![0; room], values: vec![0.0; room] }
    }

    /// Every triplet of the original, in its place.
    pub fn hold(&self, due: &[(usize, usize, f64)]) {
        for (place, &(row, col, value)) in due.iter().enumerate() {
            assert_eq!((self.rows[place] as usize, self.cols[place] as usize), (row, col));
            assert_eq!(self.values[place].to_bits(), value.to_bits());
        }
    }
}

impl ByteLists {
    pub fn of_bytes(room: usize) -> ByteLists {
        Lists { rows: vec![0; 4 * room], cols: vec![0; 4 * room], values: vec![0; 8 * room] }
    }

    pub fn hold(&self, due: &[(usize, usize, f64)]) {
        let (rows, cols) = (words(&self.rows), words(&self.cols));
        Lists { rows, cols, values: doubles(&self.values) }.hold(due);
    }
}

/// An export called on a network of words or of bytes, with its other arguments as they stand.
macro_rules! on {
    ($export:ident, $net:expr $(, $rest:expr)* $(,)?) => {
        $export(
            $net.wiring.as_ptr(), $net.wiring.len(), $net.readings.as_ptr(), $net.readings.len(),
            $net.term_index.as_ptr(), $net.term_index.len(),
            $net.term_coefficient.as_ptr(), $net.term_coefficient.len()
            $(, $rest)*
        )
    };
}

pub(crate) use on;
