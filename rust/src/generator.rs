//! Makes traces for comparisons: accepted ones, no bytes among them, near misses of every refusal, damaged and random
//! bytes, and traces at the limits. A trace depends only on a seed and its number.

mod damage;
mod draft;
mod mistakes;
mod settings;
mod spread;

use draft::Draft;
use settings::Settings;
use std::cell::Cell;

/// The largest number of a kind.
const KINDS: u16 = 16;

/// The first of the kinds that only version 2 knows; the others follow it.
const FIRST_OF_VERSION_2: u16 = 15;

/// One in so many accepted traces of few events has no bytes.
const NO_BYTES: usize = 170;

/// A small pseudorandom generator (splitmix64).
#[derive(Clone, Debug)]
pub struct Random {
    state: Cell<u64>,
}

impl Random {
    /// The numbers that belong to a seed and the number of a trace.
    #[must_use]
    pub fn new(seed: u64, number: u64) -> Self {
        let random = Random { state: Cell::new(seed) };
        random.state.set(random.next() ^ number.wrapping_mul(0xd134_2543_de82_ef95));
        random
    }

    /// The next number; all 64 bits are drawn.
    pub fn next(&self) -> u64 {
        let state = self.state.get().wrapping_add(0x9e37_79b9_7f4a_7c15);
        self.state.set(state);
        let mixed = (state ^ (state >> 30)).wrapping_mul(0xbf58_476d_1ce4_e5b9);
        let mixed = (mixed ^ (mixed >> 27)).wrapping_mul(0x94d0_49bb_1331_11eb);
        mixed ^ (mixed >> 31)
    }

    /// A number below a bound, which is at least 1.
    pub fn below(&self, bound: usize) -> usize {
        ((u128::from(self.next()) * bound as u128) >> 64) as usize
    }

    /// A two-byte number from `first` to `last`, both included.
    pub fn between(&self, first: u16, last: u16) -> u16 {
        first + self.below(usize::from(last - first) + 1) as u16
    }

    /// True once in so many times.
    pub fn once_in(&self, times: usize) -> bool {
        self.below(times) == 0
    }

    /// One of the choices, of which there is at least one.
    pub fn pick<T: Copy>(&self, choices: &[T]) -> T {
        choices[self.below(choices.len())]
    }
}

/// How a trace was made.
#[derive(Clone, Copy, Debug, PartialEq, Eq)]
pub enum Family {
    /// An accepted trace of few events, or no bytes, which are a trace with no events.
    Small,
    /// An accepted trace of up to 2,048 events.
    Large,
    /// A trace with a record that some rule turns away.
    NearMiss,
    /// A trace whose bytes were damaged; of no bytes, often a few that are no record.
    Damaged,
    /// Random bytes, seldom none, or random records.
    Random,
    /// A trace at a limit, or one past it.
    Limit,
}

/// All families, in the order of their numbers.
pub const FAMILIES: [Family; 6] =
    [Family::Small, Family::Large, Family::NearMiss, Family::Damaged, Family::Random, Family::Limit];

/// Makes traces, with buffers that are kept between them.
pub struct Generator {
    draft: Draft,
}

impl Default for Generator {
    fn default() -> Self {
        Self::new()
    }
}

impl Generator {
    /// A generator with empty buffers.
    #[must_use]
    pub fn new() -> Self {
        Generator { draft: Draft::new() }
    }

    /// The trace that belongs to a seed and a number, and how it was made.
    pub fn trace(&mut self, seed: u64, number: u64) -> (&[u8], Family) {
        let random = Random::new(seed, number);
        let family = match random.below(1_000) {
            0 => Family::Large,
            1..=649 => Family::Small,
            650..=869 => Family::NearMiss,
            870..=969 => Family::Damaged,
            970..=984 => Family::Random,
            _ => Family::Limit,
        };
        self.make(family, &random);
        (&self.draft.bytes, family)
    }

    /// Makes a trace of a family.
    fn make(&mut self, family: Family, random: &Random) {
        match family {
            Family::Small => self.small(random),
            Family::Large => self.large(random),
            Family::NearMiss => mistakes::near_miss(&mut self.draft, random),
            Family::Damaged => {
                self.small(random);
                damage::damage(&mut self.draft.bytes, random);
            }
            Family::Random if random.once_in(2) => damage::random_bytes(&mut self.draft.bytes, random),
            Family::Random => mistakes::random_records(&mut self.draft, random),
            Family::Limit => self.limit(random),
        }
    }

    /// An accepted trace of few events, or no bytes. Each third one has many hand-overs by signals, which take more
    /// events, as regions do.
    fn small(&mut self, random: &Random) {
        if random.once_in(NO_BYTES) {
            self.draft.bytes.clear();
            return;
        }
        let events = match random.below(20) {
            0 => random.between(40, 120),
            1..=2 => random.between(0, 17),
            _ => random.between(18, 44),
        };
        if random.once_in(3) {
            self.draft.begin_several(random);
            let settings = Settings::draw_hand_overs(random);
            self.draft.grow(events + 16, &settings, random);
            return;
        }
        self.draft.begin_some(random);
        let settings = Settings::draw(random);
        let regions = if self.draft.version == 2 { 14 } else { 0 };
        self.draft.grow(events + regions, &settings, random);
    }

    /// An accepted trace of up to 2,048 events.
    fn large(&mut self, random: &Random) {
        let events = random.between(200, 2_048);
        let (threads, locations) = (random.between(1, 8), random.between(1, 256));
        self.draft.begin(random.between(1, 2), threads, locations);
        let used = random.between(1, locations).min(64);
        self.draft.use_some(used, random);
        let settings = Settings::draw_large(random);
        self.draft.grow(events, &settings, random);
    }

    /// A trace at a limit or one past it: events, crashes, threads, locations.
    fn limit(&mut self, random: &Random) {
        let settings = Settings::draw(random);
        let draft = &mut self.draft;
        match random.below(20) {
            0..=3 => many_events(draft, settings, random),
            4..=8 => many_crashes(draft, &settings, random),
            9..=13 => {
                draft.begin(random.between(1, 2), random.between(8, 9), random.between(2, 4));
                draft.use_some(2, random);
                draft.grow(random.between(0, 40), &settings, random);
            }
            _ => {
                draft.begin(random.between(1, 2), random.between(1, 3), random.between(256, 257));
                draft.use_some(2, random);
                draft.use_last();
                draft.grow(random.between(0, 40), &settings, random);
            }
        }
    }
}

/// A trace of 2,047 to 2,050 events, most of them fences. Any record may be the last; often event 2,049 is an open or a
/// close.
fn many_events(draft: &mut Draft, mut settings: Settings, random: &Random) {
    draft.begin_some(random);
    draft.grow(random.between(0, 60), &settings, random);
    let thread = draft.some_thread(random);
    while draft.events < 2_040 {
        draft.sfence(thread);
    }
    settings.crash = 2_000;
    if random.once_in(2) {
        draft.grow(2_048, &settings, random);
        mistakes::record_from(draft, FIRST_OF_VERSION_2, random);
        return;
    }
    draft.grow(random.pick(&[2_047, 2_048, 2_048, 2_048, 2_049, 2_050]), &settings, random);
    if random.once_in(2) {
        let rule = random.pick(&[2, 3, 3, 4, 5, 5, 5, 7, 8, 9, 12, 18, 19]);
        mistakes::make_mistake(draft, rule, &settings, random);
    }
}

/// A trace of seven or eight crashes.
fn many_crashes(draft: &mut Draft, settings: &Settings, random: &Random) {
    draft.begin_some(random);
    let crashes = random.between(7, 8);
    while draft.crashes < crashes {
        draft.crash(settings, random);
        draft.grow_without_crash(random.between(0, 8), settings, random);
    }
}

#[cfg(test)]
mod tests {
    use super::*;

    #[test]
    fn random_numbers_stay_in_range_and_reach_its_ends() {
        let random = Random::new(1, 2);
        let mut met = [0; 4];
        (0..1_000).for_each(|_| met[usize::from(random.between(3, 6)) - 3] += 1);
        assert!(met.iter().all(|&times| times > 150), "{met:?}");
        assert_eq!(random.below(1), 0);
        let _ = random.between(0, u16::MAX);
    }

    #[test]
    fn seeds_and_numbers_give_other_numbers() {
        let first: Vec<u64> = (0..100).map(|number| Random::new(7, number).next()).collect();
        let second: Vec<u64> = (0..100).map(|number| Random::new(8, number).next()).collect();
        let mut all = [first, second].concat();
        all.sort_unstable();
        all.dedup();
        assert_eq!(all.len(), 200);
    }
}
