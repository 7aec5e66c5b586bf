// Our side and the Rust on random requests.
use crate::gen::{self, Rng};
use crate::oracle::{self, Op, Outcome, Plan, Request};
use crate::branches::{self, unlike};
use crate::lent::Lent;
use crate::{ours, text};
use std::collections::BTreeMap;

fn rooms_for(p: &Plan) -> [usize; 6] {
    [p.edits.len() * 71, p.shares.len() * 2, p.unrefs.len() * 2, p.releases.len() * 2, p.adds.len() * 3, p.writes.len() * 4]
}
pub fn ample(l: &Lent) -> [usize; 6] {
    let n = (2 * l.list.len() + if l.own { l.list.len() } else { l.source.len() }) / 70 + 16 + l.places.len();
    [71 * n, 2 * n, 2 * n, 2 * n, 3 * n, 40]
}
fn both(r: &Request) -> (Outcome, Outcome, Option<String>) {
    let lent = Lent::new(r);
    let ((theirs, _), (us, bad)) = (oracle::run(r), ours::run(&lent, ample(&lent)));
    let why = unlike(r, &theirs, &us, bad);
    (theirs, us, why)
}
fn shrink(r: Request) -> Request {
    let mut r = r;
    let mut again = true;
    while again {
        again = false;
        let mut tries: Vec<Request> = Vec::new();
        for x in 0..r.facts.files.len() {
            for i in 0..r.facts.files[x].items.len() { let mut t = r.clone(); t.facts.files[x].items.remove(i); t.facts.files[x].shared.remove(i); tries.push(t); }
        }
        for i in 0..r.facts.rows.len() { let mut t = r.clone(); t.facts.rows.remove(i); tries.push(t); }
        for i in 0..r.facts.places.as_ref().unwrap().len() { let mut t = r.clone(); t.facts.places.as_mut().unwrap().remove(i); tries.push(t); }
        for x in 0..r.facts.files.len() {
            for i in 0..r.facts.files[x].items.len() {
                for at in [0usize, 8, 16, 37] {
                    let w = if at == 16 { 1 } else { 8 };
                    let mut t = r.clone();
                    if t.facts.files[x].items[i].1[at..at + w].iter().any(|b| *b != 0) { t.facts.files[x].items[i].1[at..at + w].fill(0); tries.push(t); }
                }
                if r.facts.files[x].shared[i] != 0 { let mut t = r.clone(); t.facts.files[x].shared[i] = 0; tries.push(t); }
            }
        }
        for i in 0..r.facts.rows.len() { for c in [2, 3, 4] { if r.facts.rows[i][c] != 0 { let mut t = r.clone(); t.facts.rows[i][c] = 0; tries.push(t); } } }
        if r.facts.snapshot != 0 { let mut t = r.clone(); t.facts.snapshot = 0; tries.push(t); }
        if r.facts.generation != 7 { let mut t = r.clone(); t.facts.generation = 7; tries.push(t); }
        if let Op::Clone(from, to, n) = r.op {
            for op in [Op::Clone(from, 0, n), Op::Clone(0, to, n), Op::Clone(from, to, r.sector)] {
                if format!("{op:?}") != format!("{:?}", r.op) { let mut t = r.clone(); t.op = op; tries.push(t); }
            }
        }
        for t in tries { if both(&t).2.is_some() { r = t; again = true; break; } }
    }
    r
}
pub fn fuzz(make: fn(&mut Rng) -> Request, seed: u64, count: u64) {
    std::panic::set_hook(Box::new(|_| {}));
    let mut g = Rng(seed.wrapping_mul(0x1234_5678_9abc_def1));
    let mut n: BTreeMap<String, u64> = BTreeMap::new();
    let mut shown = 0;
    let mut diffs = 0u64;
    for i in 0..count {
        let mut r = make(&mut g);
        gen::choose_places(&mut g, &mut r);
        let lent = Lent::new(&r);
        let (theirs, us, why) = both(&r);
        *n.entry(branches::kind_beside(&theirs, &us)).or_default() += 1;
        branches::met(&theirs, &r, |b| *n.entry(b.to_string()).or_default() += 1);
        if let Some(why) = why {
            diffs += 1;
            if shown < 5 {
                shown += 1;
                println!("==== difference at {i}: {why}\n{}---- rust\n{}---- ours\n{}", text::request(&r), text::outcome(&theirs), text::outcome(&us));
                let small = shrink(r.clone());
                let (a, b, why) = both(&small);
                println!("==== shrunk: {why:?}\n{}---- rust\n{}---- ours\n{}", text::request(&small), text::outcome(&a), text::outcome(&b));
            }
            continue;
        }
        // an `answer` of fewer than nine numbers
        if g.pct(2) {
            let k = g.below(9) as usize;
            let (o, bad) = ours::with_answer(&lent, ample(&lent), k);
            *n.entry("ANSWER short (27 due)".into()).or_default() += 1;
            if o != Outcome::Refused(27) || bad.is_some() { diffs += 1; println!("==== answer of {k} {bad:?}\n{}{}", text::request(&r), text::outcome(&o)); }
        }
        // holes that the Rust would lay out for hours: it says 12 where they are over the volume's bytes; with enough bytes, not 12
        let sum = gen::holes(&r);
        if theirs == Outcome::Refused(12) && sum > gen::MOST {
            for total in [sum, u64::MAX] {
                let (o, bad) = ours::run(&Lent { total, ..lent.clone() }, ample(&lent));
                *n.entry("HUGE (12 due no more)".into()).or_default() += 1;
                if !matches!(o, Outcome::Refused(13..=18 | 26)) || bad.is_some() { diffs += 1; println!("==== huge {total} {bad:?}\n{}{}", text::request(&r), text::outcome(&o)); }
            }
        }
        // 27: just enough room, and in one output a number too little
        if let Outcome::Plan(p) = &theirs {
            let mut rooms = rooms_for(p);
            let some: Vec<usize> = (0..6).filter(|&k| rooms[k] > 0).collect();
            let short = (!some.is_empty() && g.pct(50)).then(|| g.pick(&some));
            if let Some(k) = short { rooms[k] -= 1; }
            let (o, bad) = ours::run(&lent, rooms);
            let right = if short.is_some() { o == Outcome::Refused(27) } else { o == theirs };
            *n.entry(if short.is_some() { "ROOM short (27 due)" } else { "ROOM exact" }.into()).or_default() += 1;
            if !right || bad.is_some() { diffs += 1; println!("==== room {short:?} {bad:?}\n{}{}", text::request(&r), text::outcome(&o)); }
        }
    }
    println!("compared {count}, differences {diffs}");
    for (k, v) in n { println!("{v:>10}  {k}"); }
}
