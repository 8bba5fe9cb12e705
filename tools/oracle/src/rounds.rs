//! Rounds of calls in random order, on the queue and on the sender alike.

use crate::any_code::any_code;
use crate::random::Random;
use cea608_types::tables::Code;

/// The queue or the sender that `replay` keeps, beside what answers for it.
pub trait Beside {
    type Pieces;
    fn push(&mut self, code: Code);
    fn reset(&mut self);
    /// Sets a state, and brings what answers into the same one.
    fn set_well_formed(&mut self, pieces: &Self::Pieces);
    /// All that can be asked and changes nothing.
    fn look(&mut self);
    /// How many codes wait or are held.
    fn n_codes(&self) -> usize;
}

/// What rounds are made of, besides.
pub trait Steps: Beside {
    fn any_well_formed(random: &mut Random) -> Self::Pieces;
    fn take(&mut self, random: &mut Random);
    /// Takes out all that is inside, and goes on for a while.
    fn run_out(&mut self);
}

/// How many codes wait or are held when a stretch of calls turns from pushing to taking: none, few,
/// nearly 64, 64, and some that press on against the limit.
const LEVELS: [usize; 14] = [0, 0, 1, 1, 2, 2, 3, 32, 62, 63, 64, 65, 70, 80];

const STRETCHES: usize = 8;

/// Each round is from a reset on, or from a state set piece by piece. After every call it is asked
/// what can be asked of the state.
pub fn rounds<A: Steps>(asked: &mut A, random: &mut Random, rounds: usize) {
    for round in 0..rounds {
        if round % 3 == 0 {
            asked.reset();
        } else {
            asked.set_well_formed(&A::any_well_formed(random));
        }
        asked.look();
        for _ in 0..STRETCHES {
            let level = random.pick(&LEVELS);
            stretch(asked, random, level);
        }
        if round % 5 == 0 {
            asked.run_out();
        }
    }
}

/// Pushes until so many are inside, or for a while against the limit, taking now and then, and then
/// takes some.
pub fn stretch(asked: &mut impl Steps, random: &mut Random, level: usize) {
    for _ in 0..level + 8 {
        if asked.n_codes() >= level {
            break;
        }
        asked.push(any_code(random));
        asked.look();
        if random.below(8) == 0 {
            asked.take(random);
            asked.look();
        }
    }
    for _ in 0..random.below(2 + level as u32) {
        asked.take(random);
        asked.look();
    }
    if random.below(40) == 0 {
        asked.reset();
        asked.look();
    }
}
