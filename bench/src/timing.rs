//! Interleaved repeats of two sides, and what they come to.
use crate::lists::{Kind, KINDS};

/// What is measured, and how long: a repeat takes `least` seconds or one turn, and all repeats of a pair about `most` seconds. A turn has
/// `shortest` requests or more.
#[derive(Clone, Copy)]
pub struct Plan {
    pub qubits: &'static [usize],
    pub kinds: &'static [Kind],
    pub shortest: usize,
    pub repeats: usize,
    pub fewest: usize,
    pub least: f64,
    pub most: f64,
}

pub const FULL: Plan =
    Plan { qubits: &[5, 20, 128], kinds: &KINDS, shortest: 2, repeats: 25, fewest: 7, least: 1e-3, most: 0.3 };

pub const QUICK: Plan =
    Plan { qubits: &[5, 128], kinds: &[Kind::Sparse, Kind::Dense], shortest: 1, repeats: 5, fewest: 3, least: 1e-4, most: 0.015 };

/// Seconds a call as medians; the median and the quartiles of the ratios theirs / ours of the single repeats.
#[derive(Clone, Copy)]
pub struct Figures {
    pub ours: f64,
    pub theirs: f64,
    pub ratio: f64,
    pub low: f64,
    pub high: f64,
}

#[repr(C)]
struct Timespec {
    seconds: i64,
    nanoseconds: i64,
}

extern "C" {
    fn clock_gettime(clock: i32, time: *mut Timespec) -> i32;
}

/// The thread's own processor time: what other processes take is not in it.
fn now() -> f64 {
    const THREAD_CPUTIME: i32 = 3;
    let mut time = Timespec { seconds: 0, nanoseconds: 0 };
    assert_eq!(unsafe { clock_gettime(THREAD_CPUTIME, &mut time) }, 0, "no processor time");
    time.seconds as f64 + 1e-9 * time.nanoseconds as f64
}

/// Seconds a turn, over `count` turns.
fn seconds(count: usize, turn: &mut impl FnMut()) -> f64 {
    let start = now();
    for _ in 0..count {
        turn();
    }
    (now() - start) / count as f64
}

/// How many turns take `least` seconds, and how long those took.
fn count_for(least: f64, turn: &mut impl FnMut()) -> (usize, f64) {
    let mut count = 1;
    loop {
        let taken = seconds(count, turn) * count as f64;
        if taken >= least {
            return (count, taken);
        }
        let wanted = (count as f64 * 1.2 * least / taken.max(1e-9)).ceil() as usize;
        count = wanted.clamp(count + 1, 10 * count);
    }
}

fn quantile(sorted: &[f64], part: f64) -> f64 {
    let place = part * (sorted.len() - 1) as f64;
    let (below, above) = (sorted[place.floor() as usize], sorted[place.ceil() as usize]);
    below + (above - below) * place.fract()
}

fn rising(mut values: Vec<f64>) -> Vec<f64> {
    values.sort_by(f64::total_cmp);
    values
}

/// Measures turns of `calls` calls.
pub fn compare(plan: Plan, calls: usize, mut ours: impl FnMut(), mut theirs: impl FnMut()) -> Figures {
    let (many, long) = count_for(plan.least, &mut ours);
    let (few, longer) = count_for(plan.least, &mut theirs);
    let repeats = ((plan.most / (long + longer)) as usize).clamp(plan.fewest, plan.repeats);
    let pairs: Vec<(f64, f64)> = (0..repeats).map(|_| (seconds(many, &mut ours), seconds(few, &mut theirs))).collect();
    let ours = quantile(&rising(pairs.iter().map(|pair| pair.0).collect()), 0.5);
    let theirs = quantile(&rising(pairs.iter().map(|pair| pair.1).collect()), 0.5);
    let ratios = rising(pairs.iter().map(|pair| pair.1 / pair.0).collect());
    let each = |turn: f64| turn / calls as f64;
    let [low, ratio, high] = [0.25, 0.5, 0.75].map(|part| quantile(&ratios, part));
    Figures { ours: each(ours), theirs: each(theirs), ratio, low, high }
}
