// The proved operations and the compiled Rust, timed on the same requests. docs/PERFORMANCE.md says what is counted.
#[path = "../../oracle/src/stubs.rs"]
mod stubs;
pub use stubs::*;
#[path = "../../oracle/sources/clone.rs"]
#[allow(dead_code)]
mod clone;
#[path = "../../oracle/sources/fallocate.rs"]
#[allow(dead_code)]
mod fallocate;
#[path = "../../oracle/sources/write.rs"]
#[allow(dead_code)]
mod write;
#[path = "../../oracle/sources/regular_extent_item.rs"]
mod cow_write;
#[path = "../../oracle/src/oracle.rs"]
mod oracle;
#[path = "../../oracle/src/lent.rs"]
#[allow(dead_code)]
mod lent;
#[path = "../../oracle/src/ours.rs"]
#[allow(dead_code)]
mod ours;
#[path = "../../oracle/src/applying.rs"]
#[allow(dead_code)]
mod applying;
#[path = "../../oracle/src/gen.rs"]
#[allow(dead_code)]
mod gen;
mod applied;
mod clock;
mod pass;
mod workloads;
use clock::{clock, shown, Time};
use lent::Lent;
use oracle::{Outcome, Request};
use ours::Outputs;
use std::hint::black_box;
use std::time::{Duration, Instant};

/// Room for any plan of the request.
fn outputs(l: &Lent) -> Outputs {
    let n = (2 * l.list.len() + l.source.len()) / 70 + 16 + l.places.len();
    Outputs::new([71 * n, 2 * n, 2 * n, 2 * n, 3 * n, 40], 9)
}
fn rooms(l: &Lent) -> [usize; 6] {
    let o = outputs(l);
    [o.edits.len(), o.lines[0].len(), o.lines[1].len(), o.lines[2].len(), o.lines[3].len(), o.lines[4].len()]
}
/// Our calls alone: what is lent and the outputs stand ready.
fn ours(l: &Lent) -> Time {
    let mut o = outputs(l);
    clock(|k| { let t = Instant::now(); for _ in 0..k { black_box(o.call(black_box(l))); } t.elapsed() })
}
/// The Rust's calls alone: the facts stand ready in the stubs, and what is handed to the commit is freed after the time is taken.
fn rust(r: &Request) -> Time {
    let mut fs = oracle::volume(r);
    clock(|k| {
        let mut d = Duration::ZERO;
        for _ in 0..k {
            let t = Instant::now();
            black_box(oracle::ask(black_box(&mut fs), r).is_ok());
            d += t.elapsed();
            fs.captured.take();
        }
        d
    })
}
/// What of it two stubs take: items handed over, a `Vec` each, and the lent places tested, for extents of these lengths.
fn stubs(r: &Request, wanted: &[u64]) -> Time {
    let fs = oracle::volume(r);
    clock(|k| {
        let t = Instant::now();
        for _ in 0..k {
            for f in &r.facts.files { black_box(fs.items_of(f.ino).is_ok()); }
            if !wanted.is_empty() { black_box(fs.find_data_extents(wanted).is_ok()); }
        }
        t.elapsed()
    })
}
fn pass(l: &Lent) -> Time {
    clock(|k| { let t = Instant::now(); for _ in 0..k { black_box(pass::read(black_box(l))); } t.elapsed() })
}
/// A workload's answer on both sides, which must be alike before anything is timed, and the lengths of the extents wanted.
fn alike(name: &str, n: usize, r: &Request, l: &Lent, due: workloads::Due) -> (Outcome, Vec<u64>) {
    let (us, bad) = ours::run(l, rooms(l));
    if let Some(why) = bad { panic!("{name} of {n}: {why}"); }
    let (theirs, wanted) = match due { workloads::Due::Ours(k) => (Outcome::Refused(k), Vec::new()), _ => oracle::run(r) };
    if us != theirs { panic!("{name} of {n}: the answers differ"); }
    match (&us, due) {
        (Outcome::Plan(p), workloads::Due::Lines(k)) => assert_eq!(workloads::lines(p), k, "{name} of {n}: lines"),
        (Outcome::Refused(k), workloads::Due::Refused(j) | workloads::Due::Ours(j)) => assert_eq!(*k, j, "{name} of {n}"),
        _ => panic!("{name} of {n}: another kind of answer"),
    }
    (us, wanted)
}
/// The times of one workload at one size.
struct Figures { name: String, records: usize, ours: Time, rust: Option<Time>, stubs: Option<Time>, pass: Option<Time>, growth: Option<f64> }
impl Figures {
    fn ratio(&self) -> Option<f64> { self.rust.as_ref().map(|r| r.nanos / self.ours.nanos) }
    fn passes(&self) -> Option<f64> { self.pass.as_ref().map(|p| self.ours.nanos / p.nanos) }
    fn print(&self) {
        let time = |t: &Option<Time>| t.as_ref().map_or("-".into(), shown);
        let number = |x: Option<f64>| x.map_or("-".into(), |x| if x < 0.1 { format!("{x:.4}") } else { format!("{x:.2}") });
        line(&self.name, [&self.records.to_string(), &shown(&self.ours), &time(&self.rust), &number(self.ratio()), &time(&self.stubs), &time(&self.pass), &number(self.passes()), &number(self.growth)]);
    }
}
fn line(name: &str, columns: [&str; 8]) {
    print!("{name:<33}");
    for (c, w) in columns.iter().zip([7, 10, 10, 10, 10, 10, 10, 8]) { print!(" {c:>w$}"); }
    println!();
}
/// What docs/PERFORMANCE.md wants, and what of it these figures miss.
fn missed(all: &[Figures]) {
    let mut none = true;
    let mut say = |f: &Figures, what: String| { none = false; println!("missed: {} at {}: {what}", f.name.trim(), f.records) };
    for f in all {
        let refused = f.name.starts_with("refused");
        let least = match f.records { 16 => 4.0, 65536 => 8.0, _ => 0.0 };
        if let (Some(x), false) = (f.ratio(), refused) { if x < least { say(f, format!("{x:.4} times the Rust's speed, {least} wanted")); } }
        let most = if refused { 2.0 } else { 4.0 };
        if let Some(x) = f.passes() { if x > most { say(f, format!("{x:.1} passes, at most {most} wanted")); } }
        if let (65536, Some(x)) = (f.records, f.growth) { if x > 20.0 { say(f, format!("{x:.1} times as long as 4,096, at most 20 wanted")); } }
    }
    if none { println!("no goal missed"); }
}
fn main() {
    let a: Vec<String> = std::env::args().collect();
    let sizes: Vec<usize> = match a.get(1).map(|s| s.as_str()) { None | Some("all") => vec![16, 256, 4096, 65536], Some(s) => s.split(',').map(|x| x.parse().expect("a number of records")).collect() };
    let only = a.get(2).map(|s| s.as_str()).unwrap_or("");
    // a third word `ours`: our calls alone, for a profiler
    if a.get(3).is_some_and(|w| w == "ours") {
        for w in workloads::ALL.iter().filter(|w| w.name.contains(only)) {
            for &n in &sizes { println!("{} at {n}: {}", w.name, shown(&ours(&Lent::new(&(w.make)(n))))); }
        }
        return;
    }
    line("workload", ["records", "ours", "Rust", "Rust/ours", "stubs", "one pass", "ours/pass", "growth"]);
    let mut all: Vec<Figures> = Vec::new();
    let mut add = |mut f: Figures| {
        f.growth = all.iter().find(|g: &&Figures| g.name == f.name && g.records * 16 == f.records).map(|g| f.ours.nanos / g.ours.nanos);
        f.print();
        all.push(f);
    };
    for w in workloads::ALL.iter().filter(|w| w.name.contains(only)) {
        for &records in &sizes {
            let r = (w.make)(records);
            let l = Lent::new(&r);
            let due = (w.due)(records);
            let (answer, wanted) = alike(w.name, records, &r, &l, due);
            let beside = !matches!(due, workloads::Due::Ours(_));
            add(Figures {
                name: w.name.into(), records, ours: ours(&l), rust: beside.then(|| rust(&r)), stubs: beside.then(|| stubs(&r, &wanted)), pass: w.pass.then(|| pass(&l)), growth: None,
            });
            let Outcome::Plan(p) = answer else { continue };
            let Some((o, t)) = applied::times(&r, &l, &p) else { continue };
            add(Figures { name: format!("  {}, applied", w.name), records, ours: o, rust: Some(t), stubs: None, pass: None, growth: None });
        }
    }
    missed(&all);
}
