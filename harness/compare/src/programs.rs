//! Draws what calls on the program take: a solver's raw vectors, and room for nine outputs.

use crate::calls::{draw_lend, Lend, Length, Site};
use crate::generate::value;
use crate::paper::{Field, Parts};
use crate::random::Rng;

/// Some demands so small that a bus is fixed in the matrix, yet has a shed column.
pub fn tune(rng: &mut Rng, parts: &mut Parts) {
    for demand in parts.field_mut(Field::Demand) {
        if rng.percent(4) {
            *demand = 1e-7;
        }
    }
}

/// Words of a raw vector; a few where the network has no readable size.
pub fn length(site: &Site, length: Length) -> usize {
    site.program.map_or(3, |program| length.of_program(&program))
}

/// A raw vector in order, its words plain, at zero or of any magnitude.
pub fn sound(rng: &mut Rng, site: &Site, of: Length) -> Vec<f64> {
    let words = length(site, of);
    if rng.percent(20) {
        return (0..words).map(|_| rng.pick(&[0.0, -0.0, 1.0, -1.0, 0.25])).collect();
    }
    (0..words).map(|_| value(rng)).collect()
}

/// The outputs of assembly.
pub const OUTPUTS: usize = 9;

/// Room that the program fits exactly or generously, with or without bytes left over, or one of
/// the outputs one word short, or any room.
pub fn draw_lends(rng: &mut Rng) -> Vec<Lend> {
    let mut lends = vec![Lend::default(); OUTPUTS];
    let one = rng.below(OUTPUTS);
    let form = rng.below(100);
    match form {
        0..=9 => {}
        10..=39 => {
            for lend in &mut lends {
                lend.words = if form < 25 { rng.between(1, 5) as i32 } else { 0 };
                lend.leftover = if form < 20 { 0 } else { rng.between(0, 7) as u8 };
            }
        }
        40..=79 => {
            lends[one].words = -1;
            lends[one].leftover = if form < 60 { 0 } else { rng.between(1, 7) as u8 };
            for (_, lend) in lends.iter_mut().enumerate().filter(|(place, _)| *place != one) {
                lend.words = if form % 2 == 0 { 0 } else { rng.between(0, 5) as i32 };
            }
        }
        80..=89 => lends[one] = draw_lend(rng),
        _ => lends.fill_with(|| draw_lend(rng)),
    }
    lends
}

/// Every output exactly full but one, which is one word short.
pub fn one_short(one: usize, leftover: u8) -> Vec<Lend> {
    let mut lends = vec![Lend::default(); OUTPUTS];
    lends[one] = Lend { words: -1, leftover };
    lends
}

/// Raw vectors that had their program's length get that of another network's.
pub fn refit(lists: &mut [Vec<u8>], lengths: &[(&str, Length)], old: &Site, new: &Site) {
    if let (Some(old), Some(new)) = (&old.program, &new.program) {
        let raw = lists.iter_mut().zip(lengths).filter(|(_, length)| length.1.is_raw());
        for (list, &(_, length)) in raw {
            if list.len() == 8 * length.of_program(old) {
                list.resize(8 * length.of_program(new), 0);
            }
        }
    }
}
