// Times: the median of many samples, or of the few that a budget holds.
use std::time::{Duration, Instant};
/// The median time of a call in nanoseconds, and the number of samples.
#[derive(Default)]
pub struct Time { pub nanos: f64, pub samples: usize }
const BUDGET: Duration = Duration::from_millis(1500);
const MOST: usize = 501;
/// A sample of a short call is of many calls.
const SAMPLE: Duration = Duration::from_millis(1);
/// `f` makes so many calls and gives their time, without what lies between them.
pub fn clock(mut f: impl FnMut(usize) -> Duration) -> Time {
    let start = Instant::now();
    let first = f(1);
    let mut calls = 1;
    while start.elapsed() < BUDGET / 10 && f(calls) < SAMPLE { calls *= 2; }
    let mut v: Vec<f64> = if calls == 1 { vec![first.as_nanos() as f64] } else { Vec::new() };
    while v.is_empty() || start.elapsed() < BUDGET && v.len() < MOST { v.push(f(calls).as_nanos() as f64 / calls as f64); }
    v.sort_by(|a, b| a.total_cmp(b));
    Time { nanos: v[v.len() / 2], samples: v.len() }
}
/// A time in words; `*` if it was measured once only.
pub fn shown(t: &Time) -> String {
    let (x, unit) = match t.nanos { x if x < 1e4 => (x, "ns"), x if x < 1e7 => (x / 1e3, "us"), x if x < 1e10 => (x / 1e6, "ms"), x => (x / 1e9, "s") };
    format!("{x:.0} {unit}{}", if t.samples == 1 { "*" } else { "" })
}
