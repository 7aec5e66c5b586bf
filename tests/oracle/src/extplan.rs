// The Rust as extplan: an input's answer; many inputs in one run, each ended by a line `---` (`--- no line end`, where its last line
// has none); and answers compared.
use crate::branches;
use crate::form;
use crate::gen;
use crate::lent::Lent;
use crate::oracle::{self, Op, Outcome, Request};
use crate::text;
use std::collections::BTreeMap;
use std::io::{Read, Write};

/// Where the holes are so long that the Rust would lay out pieces for hours: what it says before it does. 12 is not due, and text has no
/// room for so many places, so 26 is due unless a refusal up to 18 is: of the range, or of the old end's sector alone.
fn too_long(r: &Request) -> Option<Outcome> {
    let Op::Fallocate(o, n, keep) = r.op else { return None };
    let sum = gen::holes(r);
    if sum <= gen::MOST || r.total < sum { return None; }
    let mut t = r.clone();
    t.total = 0;
    let first = oracle::run(&t).0;
    if first != Outcome::Refused(12) { return Some(first); }
    let size = r.facts.files[0].size;
    if o + n <= size || size % r.sector == 0 { return Some(Outcome::Refused(if r.facts.generation == u64::MAX { 13 } else { 26 })); }
    t.op = Op::Fallocate(size, 1, keep);
    let f = &mut t.facts.files[0];
    let kept: Vec<bool> = f.items.iter().map(|(_, d)| crate::superblock::le64(d, 21) != 0).collect();
    let mut keep = kept.iter();
    f.items.retain(|_| *keep.next().unwrap());
    let mut keep = kept.iter();
    f.shared.retain(|_| *keep.next().unwrap());
    Some(match oracle::run(&t).0 { Outcome::Plan(_) => Outcome::Refused(26), other => other })
}
/// A request's outcome: 1 to 4 by a plain reading, else the Rust's.
pub fn outcome(r: &Request) -> Outcome {
    match Lent::new(r).refusal() { 0 => too_long(r).unwrap_or_else(|| oracle::run(r).0), n => Outcome::Refused(n) }
}
/// What extplan prints.
pub fn answer(input: &[u8]) -> String {
    match form::read(input) { Ok(r) => text::outcome(&outcome(&r)), Err(f) => format!("(line {})\n", f.line) }
}
fn stdin() -> Vec<u8> {
    let mut t = Vec::new();
    std::io::stdin().read_to_end(&mut t).unwrap();
    t
}
/// The inputs or answers of a run.
pub fn parts(t: &[u8]) -> Vec<Vec<u8>> {
    let mut all = Vec::new();
    let mut part = Vec::new();
    for l in t.split_inclusive(|b| *b == b'\n') {
        match l {
            b"---\n" => all.push(std::mem::take(&mut part)),
            b"--- no line end\n" => { part.pop(); all.push(std::mem::take(&mut part)) }
            _ => part.extend(l),
        }
    }
    if !part.is_empty() { all.push(part); }
    all
}
/// An input as it stands in a run.
pub fn ended(input: &[u8]) -> Vec<u8> {
    let mut v = input.to_vec();
    v.extend(if input.is_empty() || input.ends_with(b"\n") { &b"---\n"[..] } else { b"\n--- no line end\n" });
    v
}
fn fail(what: &str, e: std::io::Error) -> ! { eprintln!("{what}: {e}"); std::process::exit(2) }
fn out(bytes: &[u8]) { std::io::stdout().lock().write_all(bytes).unwrap(); }
/// One input, whole: what the program extplan does.
pub fn one() { out(answer(&stdin()).as_bytes()); }
/// Many inputs.
pub fn text() { for p in parts(&stdin()) { out(&ended(answer(&p).as_bytes())); } }
/// Many inputs through a program, a process each.
pub fn through(program: &str) {
    use std::process::{Command, Stdio};
    for p in parts(&stdin()) {
        let mut c = Command::new(program).stdin(Stdio::piped()).stdout(Stdio::piped()).spawn().unwrap_or_else(|e| fail(program, e));
        let _ = c.stdin.take().unwrap().write_all(&p); // it may not want all of it
        let o = c.wait_with_output().unwrap();
        out(&ended(&o.stdout));
    }
}
/// The kinds and branches that an input's answer meets, the Rust's outcome if it comes to one, and the answer due.
pub fn met(input: &[u8], mut add: impl FnMut(&str)) -> (Option<(Request, Outcome)>, String) {
    let r = match form::read(input) {
        Ok(r) => r,
        Err(f) => {
            add(&format!("LINE: {}", f.why));
            return (None, format!("(line {})\n", f.line));
        }
    };
    let o = outcome(&r);
    add(&format!("{}: {}", match r.op { Op::Punch(..) => "punch", Op::Fallocate(..) => "fallocate", Op::Clone(..) => "clone" }, branches::kind(&o)));
    if let Outcome::Refused(1..=4) = o {} else { branches::met(&o, &r, add); }
    let due = text::outcome(&o);
    (Some((r, o)), due)
}
/// Many inputs and, in a file, some program's answers to them: the differences and, if asked, how often each kind and branch was met.
pub fn compare(answers: &str, counts: bool) -> bool {
    let inputs = parts(&stdin());
    let got = parts(&std::fs::read(answers).unwrap_or_else(|e| fail(answers, e)));
    let mut n: BTreeMap<String, u64> = BTreeMap::new();
    let mut bad = got.len().abs_diff(inputs.len());
    if bad > 0 { println!("{} inputs, {} answers", inputs.len(), got.len()); }
    let mut panicked = 0;
    for (p, g) in inputs.iter().zip(&got) {
        let (o, due) = met(p, |b| *n.entry(b.to_string()).or_default() += 1);
        let passes = o.is_some_and(|(r, o)| branches::let_pass(&r, &o, g));
        if passes { panicked += 1; }
        if due.as_bytes() != &g[..] && !passes {
            bad += 1;
            if bad <= 10 { println!("==== a difference: the input\n{}==== due\n{due}==== got\n{}", String::from_utf8_lossy(p), String::from_utf8_lossy(g)); }
        }
    }
    println!("{} inputs compared, {bad} differences{}", inputs.len(), if panicked > 0 { format!("; {panicked} let pass, where the Rust panicked on a sum of 17") } else { String::new() });
    if counts { for (k, v) in n { println!("{v:>7}  {k}"); } }
    bad == 0
}
