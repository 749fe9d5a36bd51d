//! Every way to break one rule of numbers 1 to 3, alone or two at a time.

use crate::generate::{above, below, parts, Sizes};
use crate::paper::{
    set_word, word, Count, Field, Lent, Parts, Wire, ALLOW_SHED, BASE_HIGH, BASE_LOW, HEAD,
    OBJECTIVE, READING_LIMIT,
};
use crate::random::Rng;

/// Where in a list the damage stands.
#[derive(Clone, Copy, Debug, PartialEq, Eq)]
pub enum Place {
    First,
    Middle,
    Last,
}

impl Place {
    pub const ALL: [Place; 3] = [Place::First, Place::Middle, Place::Last];

    fn of(self, length: usize) -> usize {
        match self {
            Place::First => 0,
            Place::Middle => length / 2,
            Place::Last => length - 1,
        }
    }

    /// A list has to be this long for the three places to differ.
    fn least(self) -> usize {
        match self {
            Place::First => 1,
            Place::Last => 2,
            Place::Middle => 3,
        }
    }
}

/// A lent slice; the two term slices may also be cut together.
#[derive(Clone, Copy, Debug, PartialEq, Eq)]
pub enum Slice {
    Wiring,
    Readings,
    TermIndex,
    TermCoefficient,
    BothTerms,
}

#[derive(Clone, Copy, Debug, PartialEq, Eq)]
pub enum Cut {
    Short,
    Long,
    Ragged,
    Empty,
}

/// Counts so large that a length or a sum worked out in 32 bits is the right one again.
#[derive(Clone, Copy, Debug, PartialEq, Eq)]
pub enum Wrap {
    Buses,
    BranchesBuses,
    GeneratorsReferencesBuses,
    ReferencesRows,
    Segments,
    Terms,
}

#[derive(Clone, Copy, Debug, PartialEq, Eq)]
pub enum Off {
    Above,
    Below,
    Wrapping,
}

/// A word outside its values: the first one past them, or one far past them.
#[derive(Clone, Copy, Debug, PartialEq, Eq)]
pub enum Past {
    Just,
    Far,
}

/// A double outside its limits: the next one past either, or anything farther.
#[derive(Clone, Copy, Debug, PartialEq, Eq)]
pub enum Fault {
    NotANumber,
    Infinite,
    JustAbove,
    JustBelow,
    Far,
}

impl Fault {
    pub const ALL: [Fault; 5] =
        [Fault::NotANumber, Fault::Infinite, Fault::JustAbove, Fault::JustBelow, Fault::Far];
}

#[derive(Clone, Copy, Debug, PartialEq, Eq)]
pub enum Damage {
    // Number 1.
    HeadCut,
    Length(Slice, Cut),
    CountAbove(Count),
    CountHuge(Count),
    CountWraps(Wrap),
    SegmentSum(Off),
    SegmentsTotal(Off),
    FlowTermSum(Off),
    GenerationTermSum(Off),
    TermsTotal(Off),
    // Number 2.
    WireWord(Wire, Past),
    AllowShed(Past),
    Objective(Past),
    FlowIndex(Past),
    GenerationIndex(Past),
    // Number 3.
    Reading(Field, Fault),
    Coefficient(Fault),
}

/// All kinds of damage, in the order of the report.
pub fn all() -> Vec<Damage> {
    let mut kinds = vec![Damage::HeadCut];
    for slice in [Slice::Wiring, Slice::Readings, Slice::TermIndex, Slice::TermCoefficient] {
        for cut in [Cut::Short, Cut::Long, Cut::Ragged] {
            kinds.push(Damage::Length(slice, cut));
        }
    }
    for slice in [Slice::Readings, Slice::TermIndex, Slice::TermCoefficient, Slice::BothTerms] {
        kinds.push(Damage::Length(slice, Cut::Empty));
    }
    kinds.push(Damage::Length(Slice::BothTerms, Cut::Short));
    kinds.push(Damage::Length(Slice::BothTerms, Cut::Long));
    kinds.extend(Count::ALL.iter().map(|&count| Damage::CountAbove(count)));
    kinds.extend(Count::ALL.iter().map(|&count| Damage::CountHuge(count)));
    let wraps = [
        Wrap::Buses,
        Wrap::BranchesBuses,
        Wrap::GeneratorsReferencesBuses,
        Wrap::ReferencesRows,
        Wrap::Segments,
        Wrap::Terms,
    ];
    kinds.extend(wraps.iter().map(|&wrap| Damage::CountWraps(wrap)));
    let sums: [fn(Off) -> Damage; 3] =
        [Damage::SegmentSum, Damage::FlowTermSum, Damage::GenerationTermSum];
    for sum in sums {
        kinds.extend([sum(Off::Above), sum(Off::Below), sum(Off::Wrapping)]);
    }
    for total in [Damage::SegmentsTotal as fn(Off) -> Damage, Damage::TermsTotal] {
        kinds.extend([total(Off::Above), total(Off::Below)]);
    }
    for past in [Past::Just, Past::Far] {
        for wire in Wire::ALL {
            if !is_count_list(wire) {
                kinds.push(Damage::WireWord(wire, past));
            }
        }
        kinds.extend([Damage::AllowShed(past), Damage::Objective(past)]);
        kinds.extend([Damage::FlowIndex(past), Damage::GenerationIndex(past)]);
    }
    for field in Field::ALL {
        kinds.extend(Fault::ALL.iter().map(|&fault| Damage::Reading(field, fault)));
    }
    kinds.extend(Fault::ALL.iter().map(|&fault| Damage::Coefficient(fault)));
    kinds
}

/// Lists whose words are summed (number 1) and have no range of their own.
fn is_count_list(wire: Wire) -> bool {
    matches!(wire, Wire::Segments | Wire::FlowTerms | Wire::GenerationTerms)
}

impl Damage {
    /// The number that the damage alone brings about.
    pub fn number(self) -> u8 {
        match self {
            Damage::HeadCut
            | Damage::Length(..)
            | Damage::CountAbove(_)
            | Damage::CountHuge(_)
            | Damage::CountWraps(_)
            | Damage::SegmentSum(_)
            | Damage::SegmentsTotal(_)
            | Damage::FlowTermSum(_)
            | Damage::GenerationTermSum(_)
            | Damage::TermsTotal(_) => 1,
            Damage::WireWord(..)
            | Damage::AllowShed(_)
            | Damage::Objective(_)
            | Damage::FlowIndex(_)
            | Damage::GenerationIndex(_) => 2,
            Damage::Reading(..) | Damage::Coefficient(_) => 3,
        }
    }

    pub fn name(self) -> String {
        match self {
            Damage::HeadCut => "wiring shorter than its head".to_string(),
            Damage::Length(slice, cut) => format!("{} {}", slice_name(slice), cut_name(cut)),
            Damage::CountAbove(count) => format!("{} one above its limit", count.name()),
            Damage::CountHuge(count) => format!("{} huge", count.name()),
            Damage::CountWraps(wrap) => format!("counts wrap in 32 bits: {}", wrap_name(wrap)),
            Damage::SegmentSum(off) => format!("segments per generator sum {}", off_name(off, "S")),
            Damage::SegmentsTotal(off) => format!("S with its readings one {}", side_name(off)),
            Damage::FlowTermSum(off) => format!("flow-term counts sum {}", off_name(off, "T")),
            Damage::GenerationTermSum(off) => {
                format!("generation-term counts sum {}", off_name(off, "T"))
            }
            Damage::TermsTotal(off) => format!("T with its terms one {}", side_name(off)),
            Damage::WireWord(wire, past) => format!("{} {}", wire.name(), past_name(past)),
            Damage::AllowShed(past) => format!("allow_shed {}", past_name(past)),
            Damage::Objective(past) => format!("objective {}", past_name(past)),
            Damage::FlowIndex(past) => format!("flow-term index {}", past_name(past)),
            Damage::GenerationIndex(past) => format!("generation-term index {}", past_name(past)),
            Damage::Reading(field, fault) => format!("{} {}", field.name(), fault_name(fault)),
            Damage::Coefficient(fault) => format!("coefficient {}", fault_name(fault)),
        }
    }

    /// Whether the damage stands at a place of a list, so that the place matters.
    pub fn placed(self) -> bool {
        match self {
            Damage::SegmentSum(off) => off == Off::Above,
            Damage::FlowTermSum(off) | Damage::GenerationTermSum(off) => off == Off::Above,
            Damage::Reading(field, _) => field != Field::Base,
            Damage::WireWord(..)
            | Damage::FlowIndex(_)
            | Damage::GenerationIndex(_)
            | Damage::Coefficient(_) => true,
            _ => false,
        }
    }

    /// Makes sure that there is something to break.
    pub fn size_up(self, place: Place, sizes: &mut Sizes) {
        let least = place.least();
        match self {
            Damage::Length(slice, cut) => {
                let terms = !matches!(slice, Slice::Wiring | Slice::Readings);
                if terms && cut != Cut::Long {
                    sizes.at_least(Count::Terms, 1);
                }
            }
            Damage::CountAbove(count) => sizes.set(count, count.limit() + 1),
            Damage::CountWraps(Wrap::Segments) => sizes.at_least(Count::Generators, 1),
            Damage::CountWraps(Wrap::Terms) => sizes.at_least(Count::Rows, 1),
            Damage::SegmentSum(Off::Above) => sizes.at_least(Count::Generators, least),
            Damage::SegmentSum(Off::Below) => sizes.at_least(Count::Segments, 1),
            Damage::SegmentSum(Off::Wrapping) => sizes.at_least(Count::Generators, 2),
            Damage::SegmentsTotal(Off::Below) => sizes.at_least(Count::Segments, 1),
            Damage::FlowTermSum(Off::Below) => sizes.flow_terms = sizes.flow_terms.max(1),
            Damage::GenerationTermSum(Off::Below) => {
                sizes.generation_terms = sizes.generation_terms.max(1)
            }
            Damage::FlowTermSum(Off::Above) | Damage::GenerationTermSum(Off::Above) => {
                sizes.at_least(Count::Rows, least)
            }
            Damage::FlowTermSum(_) | Damage::GenerationTermSum(_) => sizes.at_least(Count::Rows, 2),
            Damage::TermsTotal(Off::Below) => sizes.at_least(Count::Terms, 1),
            Damage::WireWord(wire, _) => sizes.at_least(wire.length(), least),
            Damage::FlowIndex(_) => sizes.flow_terms = sizes.flow_terms.max(least),
            Damage::GenerationIndex(_) => {
                sizes.generation_terms = sizes.generation_terms.max(least)
            }
            Damage::Reading(field, _) => {
                if let Some(count) = field.length() {
                    sizes.at_least(count, least);
                }
            }
            Damage::Coefficient(_) => sizes.at_least(Count::Terms, least),
            _ => {}
        }
    }

    /// Damage to a list's words, with every length still as its count says.
    pub fn break_parts(self, place: Place, rng: &mut Rng, parts: &mut Parts) {
        match self {
            Damage::SegmentSum(off) => break_sum(rng, place, off, parts.wire_mut(Wire::Segments)),
            Damage::FlowTermSum(off) => break_sum(rng, place, off, parts.wire_mut(Wire::FlowTerms)),
            Damage::GenerationTermSum(off) => {
                break_sum(rng, place, off, parts.wire_mut(Wire::GenerationTerms))
            }
            Damage::SegmentsTotal(off) => {
                step(&mut parts.head[Count::Segments as usize], off);
                grow(parts.field_mut(Field::Slopes), off);
                grow(parts.field_mut(Field::Intercepts), off);
            }
            Damage::TermsTotal(off) => {
                step(&mut parts.head[Count::Terms as usize], off);
                grow(&mut parts.term_index, off);
                grow(&mut parts.term_coefficient, off);
            }
            Damage::WireWord(wire, past) => {
                let end = match wire {
                    Wire::RowMasks => 4,
                    Wire::GeneratorFlags | Wire::ThermalFlags | Wire::AngleFlags => 2,
                    _ => parts.count(Count::Buses),
                };
                let list = parts.wire_mut(wire);
                if !list.is_empty() {
                    let at = place.of(list.len());
                    list[at] = past_end(rng, end, past);
                }
            }
            Damage::AllowShed(past) => parts.head[ALLOW_SHED] = past_end(rng, 2, past),
            Damage::Objective(past) => parts.head[OBJECTIVE] = past_end(rng, 3, past),
            Damage::FlowIndex(past) => break_term(rng, place, past, Count::Branches, parts),
            Damage::GenerationIndex(past) => break_term(rng, place, past, Count::Generators, parts),
            Damage::Reading(field, fault) => {
                let list = parts.field_mut(field);
                if !list.is_empty() {
                    let at = place.of(list.len());
                    list[at] = if field == Field::Base {
                        broken_base(rng, fault)
                    } else {
                        broken_double(rng, fault, READING_LIMIT)
                    };
                }
            }
            Damage::Coefficient(fault) => {
                let list = &mut parts.term_coefficient;
                if !list.is_empty() {
                    let at = place.of(list.len());
                    list[at] = broken_double(rng, fault, READING_LIMIT);
                }
            }
            _ => {}
        }
    }

    /// Damage to count words and to the lengths of slices.
    pub fn break_slices(self, rng: &mut Rng, lent: &mut Lent) {
        match self {
            Damage::HeadCut => {
                let left = 4 * rng.below(HEAD);
                lent.wiring.truncate(left);
            }
            Damage::Length(Slice::BothTerms, cut) => {
                cut_slice(rng, &mut lent.term_index, 4, cut);
                cut_slice(rng, &mut lent.term_coefficient, 8, cut);
            }
            Damage::Length(slice, cut) => {
                let (bytes, size) = match slice {
                    Slice::Wiring => (&mut lent.wiring, 4),
                    Slice::Readings => (&mut lent.readings, 8),
                    Slice::TermIndex => (&mut lent.term_index, 4),
                    _ => (&mut lent.term_coefficient, 8),
                };
                cut_slice(rng, bytes, size, cut);
            }
            Damage::CountHuge(count) if lent.wiring.len() >= 4 * HEAD => {
                let any = rng.next() as u32 | 0x0001_0000;
                let huge = rng.pick(&[u32::MAX, 0x8000_0000, 0x4000_0000, 0x1_0000, any]);
                set_word(&mut lent.wiring, count as usize, huge);
            }
            Damage::CountWraps(wrap) => wrap_counts(lent, wrap),
            _ => {}
        }
    }
}

/// A network of about these sizes with these damages: first sizes, then words, then lengths.
pub fn damaged(rng: &mut Rng, mut sizes: Sizes, damages: &[(Damage, Place)]) -> Lent {
    for (damage, place) in damages {
        damage.size_up(*place, &mut sizes);
    }
    sizes.fit();
    let mut parts = parts(rng, &sizes);
    for (damage, place) in damages {
        damage.break_parts(*place, rng, &mut parts);
    }
    let mut lent = parts.encode();
    for (damage, _) in damages {
        damage.break_slices(rng, &mut lent);
    }
    lent
}

fn slice_name(slice: Slice) -> &'static str {
    match slice {
        Slice::Wiring => "wiring",
        Slice::Readings => "readings",
        Slice::TermIndex => "term_index",
        Slice::TermCoefficient => "term_coefficient",
        Slice::BothTerms => "both term slices",
    }
}

fn cut_name(cut: Cut) -> &'static str {
    match cut {
        Cut::Short => "one word short",
        Cut::Long => "one word long",
        Cut::Ragged => "not a whole number of words",
        Cut::Empty => "empty",
    }
}

fn wrap_name(wrap: Wrap) -> &'static str {
    match wrap {
        Wrap::Buses => "n",
        Wrap::BranchesBuses => "m, n",
        Wrap::GeneratorsReferencesBuses => "k, R, n",
        Wrap::ReferencesRows => "R, q",
        Wrap::Segments => "S",
        Wrap::Terms => "T",
    }
}

fn off_name(off: Off, total: &str) -> String {
    match off {
        Off::Above => format!("one above {}", total),
        Off::Below => format!("one below {}", total),
        Off::Wrapping => format!("2^32 above {}", total),
    }
}

fn side_name(off: Off) -> &'static str {
    match off {
        Off::Below => "below the sum",
        _ => "above the sum",
    }
}

fn past_name(past: Past) -> &'static str {
    match past {
        Past::Just => "just past its values",
        Past::Far => "far past its values",
    }
}

fn fault_name(fault: Fault) -> &'static str {
    match fault {
        Fault::NotANumber => "not a number",
        Fault::Infinite => "infinite",
        Fault::JustAbove => "just above its upper limit",
        Fault::JustBelow => "just below its lower limit",
        Fault::Far => "far outside its limits",
    }
}

fn step(word: &mut u32, off: Off) {
    *word = match off {
        Off::Below => word.wrapping_sub(1),
        _ => word.wrapping_add(1),
    };
}

fn grow<T: Default>(list: &mut Vec<T>, off: Off) {
    match off {
        Off::Below => {
            list.pop();
        }
        _ => list.push(T::default()),
    }
}

fn break_sum(rng: &mut Rng, place: Place, off: Off, list: &mut [u32]) {
    if list.is_empty() {
        return;
    }
    let at = place.of(list.len());
    match off {
        Off::Above => list[at] = list[at].wrapping_add(1),
        Off::Below => {
            if let Some(some) = list.iter_mut().find(|word| **word > 0) {
                *some -= 1;
            }
        }
        Off::Wrapping => {
            // Two words that together add 2^32, while neither wraps by itself.
            let part = rng.pick(&[5000u32, 0x8000_0000, 0x4000_0000, u32::MAX - 5000]);
            let other = (at + 1) % list.len();
            list[at] = list[at].wrapping_add(part);
            list[other] = list[other].wrapping_add(part.wrapping_neg());
        }
    }
}

fn past_end(rng: &mut Rng, end: usize, past: Past) -> u32 {
    let end = end as u32;
    match past {
        Past::Just => end,
        // Words whose low bits alone would pass, and the greatest.
        Past::Far => {
            let low = if end == 0 { 0 } else { rng.below(end as usize) as u32 };
            rng.pick(&[
                end + 1,
                u32::MAX,
                0x8000_0000 | low,
                0x0001_0000 | low,
                0x0000_0400 | low,
                0x0100_0000 | low,
            ])
        }
    }
}

/// Breaks the first, middle or last term of one kind.
fn break_term(rng: &mut Rng, place: Place, past: Past, kind: Count, parts: &mut Parts) {
    let mut at = Vec::new();
    let mut next = 0usize;
    for row in 0..parts.wire(Wire::FlowTerms).len() {
        let flow = parts.wire(Wire::FlowTerms)[row] as usize;
        let generation = parts.wire(Wire::GenerationTerms)[row] as usize;
        let own = if kind == Count::Branches {
            next..next.saturating_add(flow)
        } else {
            next.saturating_add(flow)..next.saturating_add(flow).saturating_add(generation)
        };
        next = next.saturating_add(flow).saturating_add(generation);
        at.extend(own.take_while(|&place| place < parts.term_index.len()));
    }
    if !at.is_empty() {
        let end = parts.count(kind);
        parts.term_index[at[place.of(at.len())]] = past_end(rng, end, past);
    }
}

/// A NaN: quiet or signalling, either sign, the shortest payloads and any other.
pub fn not_a_number(rng: &mut Rng) -> f64 {
    let payload = rng.next() & 0x000F_FFFF_FFFF_FFFF | 1;
    let fraction = rng.pick(&[0x0008_0000_0000_0000, 1, 0x000F_FFFF_FFFF_FFFF, payload]);
    let sign = rng.pick(&[0, 0x8000_0000_0000_0000u64]);
    f64::from_bits(sign | 0x7FF0_0000_0000_0000 | fraction)
}

/// A double that breaks the rule "finite, magnitude at most `limit`".
pub fn broken_double(rng: &mut Rng, fault: Fault, limit: f64) -> f64 {
    let sign = rng.pick(&[1.0, -1.0]);
    match fault {
        Fault::NotANumber => not_a_number(rng),
        Fault::Infinite => sign * f64::INFINITY,
        Fault::JustAbove => above(limit),
        Fault::JustBelow => -above(limit),
        Fault::Far => sign * rng.pick(&[limit * 2.0, limit * 1e6, 1e300, f64::MAX]),
    }
}

/// A base outside its limits.
pub fn broken_base(rng: &mut Rng, fault: Fault) -> f64 {
    match fault {
        Fault::NotANumber => not_a_number(rng),
        Fault::Infinite => rng.pick(&[f64::INFINITY, f64::NEG_INFINITY]),
        Fault::JustAbove => above(BASE_HIGH),
        Fault::JustBelow => below(BASE_LOW),
        Fault::Far => {
            let high = [2e6, READING_LIMIT, f64::MAX];
            let low = [0.0, -0.0, -BASE_LOW, -100.0, f64::MIN_POSITIVE, -BASE_HIGH];
            if rng.percent(30) {
                rng.pick(&high)
            } else {
                rng.pick(&low)
            }
        }
    }
}

fn cut_slice(rng: &mut Rng, bytes: &mut Vec<u8>, size: usize, cut: Cut) {
    match cut {
        Cut::Short => {
            let left = bytes.len().saturating_sub(size);
            bytes.truncate(left);
        }
        Cut::Long => bytes.extend(std::iter::repeat(0).take(size)),
        Cut::Ragged => {
            let odd = rng.between(1, size - 1);
            if bytes.len() >= size && rng.percent(50) {
                let left = bytes.len() - odd;
                bytes.truncate(left);
            } else {
                bytes.extend(std::iter::repeat(0).take(odd));
            }
        }
        Cut::Empty => bytes.clear(),
    }
}

/// Adds multiples of powers of two that vanish from 4m + 3k + R + 3q and from
/// 7m + 5k + 4n + 2S + 2q modulo 2^32.
fn wrap_counts(lent: &mut Lent, wrap: Wrap) {
    if lent.wiring.len() < 4 * HEAD {
        return;
    }
    let (m, k, r) = (
        word(&lent.wiring, Count::Branches as usize) as usize,
        word(&lent.wiring, Count::Generators as usize) as usize,
        word(&lent.wiring, Count::References as usize) as usize,
    );
    let q = word(&lent.wiring, Count::Rows as usize) as usize;
    let mut add = |place: usize, power: u32| {
        if 4 * (place + 1) <= lent.wiring.len() {
            let old = word(&lent.wiring, place);
            set_word(&mut lent.wiring, place, old.wrapping_add(1 << power));
        }
    };
    match wrap {
        Wrap::Buses => add(Count::Buses as usize, 30),
        Wrap::BranchesBuses => {
            add(Count::Branches as usize, 30);
            add(Count::Buses as usize, 28);
        }
        Wrap::GeneratorsReferencesBuses => {
            add(Count::Generators as usize, 31);
            add(Count::References as usize, 31);
            add(Count::Buses as usize, 29);
        }
        Wrap::ReferencesRows => {
            add(Count::References as usize, 31);
            add(Count::Rows as usize, 31);
        }
        Wrap::Segments => {
            // The first generator's segments follow, so that their sum agrees too.
            add(Count::Segments as usize, 31);
            add(HEAD + 2 * m + k, 31);
        }
        Wrap::Terms => {
            // 2^30 terms more are 2^32 bytes more; the first row's flow terms follow.
            add(Count::Terms as usize, 30);
            add(HEAD + 4 * m + 3 * k + r + q, 30);
        }
    }
}
