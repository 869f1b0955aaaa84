//! Whole inputs of the program `tray`: the lengths at which its answer changes, then random trays.

use super::boards::{each, random_profile, EACH};
use super::random::Random;

pub type Tray = Vec<u8>;

/// No board, one, the request's 400, one more, and 2,048, the most whose records the program's output holds. More: 32. Lengths that are no multiple
/// of ten: 29, or 32 where that holds too.
const LENGTHS: [usize; 21] = [
    0, 10, 20, 3_990, 4_000, 4_010, 20_470, 20_480, 20_490, 20_500, 30_000, 100_000, 1, 9, 11, 3_999, 4_005, 20_481, 20_489, 20_491,
    20_499,
];

/// Accepted boards and boards of each refusal in turn, from another one on in each tray.
fn of_length(i: usize) -> Tray {
    let boards = (i..i + EACH).map(each).collect::<Vec<_>>().concat();
    boards.into_iter().cycle().take(LENGTHS[i]).collect()
}

fn random(r: &mut Random) -> Tray {
    let boards = match r.below(4) {
        0 => r.below(64),
        1 => 2_041 + r.below(10),
        _ => r.below(2_048),
    };
    let mut tray: Tray = (0..boards).flat_map(|_| random_profile(r)).collect();
    if r.once_in(8) {
        tray.truncate(tray.len().saturating_sub(1 + r.below(9) as usize));
    }
    tray
}

/// The trays of a run; cut off after `count`.
pub fn trays(seed: u64, count: usize) -> impl Iterator<Item = Tray> {
    let mut r = Random(seed);
    let first = (0..LENGTHS.len()).map(of_length);
    first.chain(std::iter::repeat_with(move || random(&mut r))).take(count)
}
