//! How the events of a trace are drawn.

use super::Random;

/// How often each kind of event is drawn, and how crossing loads choose their sources.
pub struct Settings {
    pub issue: usize,
    pub commit: usize,
    pub load: usize,
    pub flush: usize,
    pub fence: usize,
    pub skip: usize,
    pub locked: usize,
    pub signal: usize,
    pub wait: usize,
    /// Opens and closes, in traces that may have them.
    pub region: usize,
    /// Of 100 steps, how many hand a store on by a load.
    pub hand_on: usize,
    /// Of 100 steps, how many are hand-overs by a signal.
    pub hand_over: usize,
    /// Of 100 steps, how many are compare-and-swap chains.
    pub swap_chain: usize,
    /// Of 10,000 events, how many are crashes.
    pub crash: usize,
    /// The least commits of a stretch that ends in a crash.
    pub commits: usize,
    /// The most loads that follow a crash at once.
    pub loads_after_crash: usize,
    /// Of 100 of them, how many are locked operations.
    pub locked_after_crash: usize,
    /// Of 100 of them that are in no region, how many have one in front, in traces that may have regions.
    pub regions_after_crash: usize,
    /// What stays of a stretch's stores after a crash, as the loads see it.
    pub memory: Memory,
    /// Of 1,000 crossing loads, how many read anything that the load rule allows. Those in a torn region all do.
    pub any_source: usize,
    /// Of 100 regions, how many are torn: their loads read half-written data.
    pub torn: usize,
    /// Of 100 closes of torn regions, how many count the loads: such a trace is often broken.
    pub wrong_sum: usize,
}

/// What stays of a stretch's stores after a crash.
#[derive(Clone, Copy)]
pub enum Memory {
    /// The first stores in the order of commits: such a trace is robust.
    InOrder,
    /// The first stores of each thread.
    ByThread,
    /// All stores of the thread that committed last, and the first ones of each other thread: a trace in which that
    /// thread stored what others handed on is often broken.
    LastThread,
    /// The first stores of each location: such a trace is often broken.
    ByLocation,
}

impl Settings {
    /// Some settings for a trace of few events.
    pub fn draw(random: &Random) -> Self {
        Settings {
            issue: random.below(6) + 6,
            commit: random.below(8) + 6,
            load: random.below(7) + 1,
            flush: random.below(2),
            fence: random.below(2),
            skip: random.pick(&[0, 0, 0, 1, 2]),
            locked: random.pick(&[0, 0, 1, 4]),
            signal: random.pick(&[0, 0, 0, 1]),
            wait: random.pick(&[0, 0, 0, 1]),
            region: random.pick(&[0, 1, 2, 4]),
            hand_on: random.pick(&[0, 0, 15, 40]),
            hand_over: random.pick(&[0, 0, 0, 20]),
            swap_chain: random.pick(&[0, 0, 20, 60]),
            crash: random.pick(&[1_000, 5_000, 9_000, 9_000]),
            commits: random.pick(&[0, 2, 4, 4, 5, 5, 5, 6, 6, 6]),
            loads_after_crash: random.pick(&[8, 24, 32]),
            locked_after_crash: random.pick(&[0, 0, 10, 40]),
            regions_after_crash: random.pick(&[0, 40, 100, 100]),
            memory: random.pick(&[Memory::InOrder, Memory::ByThread, Memory::ByLocation, Memory::ByLocation]),
            any_source: random.pick(&[0, 300, 600, 1_000]),
            torn: random.pick(&[0, 10, 40]),
            wrong_sum: random.pick(&[0, 60, 100]),
        }
    }

    /// Some settings for a trace of few events with many hand-overs by signals, few other orders between threads, and a
    /// memory that keeps the order of each thread alone: if the trace is broken, that is most often by the hand-overs.
    pub fn draw_hand_overs(random: &Random) -> Self {
        Settings {
            issue: 2,
            load: 1,
            skip: 0,
            locked: random.pick(&[0, 0, 1]),
            signal: 1,
            wait: 1,
            hand_on: random.pick(&[0, 0, 10]),
            hand_over: random.pick(&[40, 70]),
            swap_chain: 0,
            crash: 9_000,
            commits: random.pick(&[3, 4, 5, 6]),
            loads_after_crash: 24,
            locked_after_crash: 0,
            memory: random.pick(&[Memory::ByThread, Memory::LastThread, Memory::LastThread, Memory::LastThread]),
            any_source: 0,
            ..Settings::draw(random)
        }
    }

    /// Some settings for a trace of many events: few crashes, and sources that seldom break the trace early.
    pub fn draw_large(random: &Random) -> Self {
        Settings {
            crash: random.pick(&[10, 30, 50]),
            memory: random.pick(&[Memory::InOrder, Memory::InOrder, Memory::ByThread]),
            any_source: random.pick(&[0, 0, 1, 10]),
            wrong_sum: random.pick(&[0, 0, 1, 10]),
            ..Settings::draw(random)
        }
    }
}
