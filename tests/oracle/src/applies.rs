// Our applying and the plain reading (`src/applying.rs`) on plans of the Rust and on plans that no planner made.
use crate::applying::{due, key, Call};
use crate::gen::{self, data, ItemSpec, Rng};
use crate::lent::{list_bytes, Lent};
use crate::oracle::{Op, Outcome, Plan};
use crate::{broken, clones, oracle, ours};
use std::collections::BTreeMap;

fn put(b: &mut [u8], at: usize, v: u64) { b[at..at + 8].copy_from_slice(&v.to_le_bytes()); }
fn edit(tag: u8, number: u64, key: u64, data: &[u8]) -> Vec<u8> { [&[tag][..], &list_bytes(number, &[(key, data.to_vec())])].concat() }
/// A plan as the outputs of an operation hold it, for a list and a table without room.
fn call(number: u64, sector: u64, generation: u64, list: Vec<u8>, table: Vec<u64>, p: &Plan) -> Call {
    Call {
        sector, generation, number, items: list.len() / 70, rows: table.len() / 5, list, table,
        edits: p.edits.iter().flat_map(|(k, d)| match d { Some(d) => edit(1, number, *k, d), None => edit(2, number, *k, &[0; 53]) }).collect(),
        shares: p.shares.concat(), unrefs: p.unrefs.concat(), releases: p.releases.concat(), adds: p.adds.concat(), answer: 4,
    }
}
/// A plan of the Rust, of any operation.
fn planned(g: &mut Rng) -> Call {
    loop {
        let make = g.pick(&[gen::punch as fn(&mut Rng) -> oracle::Request, gen::fallocate as _, clones::clone as _]);
        let mut r = make(g);
        gen::choose_places(g, &mut r);
        if let Outcome::Plan(p) = oracle::run(&r).0 {
            let l = Lent::new(&r);
            return call(l.ino, l.sector, l.generation.wrapping_add(1), l.list, l.table, &p);
        }
    }
}
fn item(g: &mut Rng, start: u64, length: u64) -> Vec<u8> {
    data(&ItemSpec {
        generation: g.below(9), ram: length, compression: 0, encryption: 0, other: 0, kind: if g.pct(5) { g.pick(&[0, 3]) } else { 1 + g.below(2) as u8 },
        start, disk: length, position: if g.pct(90) { 0 } else { g.next() >> 2 }, length,
    })
}
/// A plan that no planner made, over a file and a table laid out on a grid.
fn made(g: &mut Rng) -> Call {
    let s = if g.pct(60) { 4096 } else { g.pick(&[8192u64, 16384, 32768, 65536]) };
    let cells = 1 + g.below(14);
    let base = if g.pct(90) { 0 } else { (1 << 63) - cells * s };
    let length = |g: &mut Rng, i: u64| if g.pct(85) { s } else { s * (1 + g.below(cells - i)) };
    let mut p = Plan::default();
    let (mut items, mut free) = (Vec::new(), 0);
    for i in 0..cells {
        let k = base + i * s;
        if i >= free && g.pct(60) { let (n, e) = (length(g, i), 1 + g.below(4)); free = i + n / s; items.push((k, item(g, e << 20, n))); }
        match g.below(10) { 0..=2 => { let n = length(g, i); p.edits.push((k, Some(item(g, 1 << 20, n)))) } 3..=4 => p.edits.push((k, None)), _ => () }
    }
    let m = g.below(6);
    let gap = g.pick(&[0, 0, s]);
    let mut rows: Vec<[u64; 5]> = (1..=m).map(|i| [i << 20, (1 << 20) - gap, g.below(4), g.below(9), g.pct(10) as u64]).collect();
    if g.pct(10) && m > 0 { let i = g.below(m) as usize; rows[i][2] = g.pick(&[u64::MAX, u64::MAX - 1, 1 << 63]); }
    let lines = |g: &mut Rng, n: u64| -> Vec<[u64; 2]> { (0..n).map(|_| [if m > 0 { (1 + g.below(m)) << 20 } else { 1 << 20 }, g.next() >> g.below(64)]).collect() };
    if m > 0 || g.pct(10) {
        let n = g.below(5); p.shares = lines(g, n);
        let n = g.pick(&[0, 0, 1, 2, 3]); p.unrefs = lines(g, n);
        let n = g.pick(&[0, 0, 0, 1, 2]); p.releases = lines(g, n);
    }
    // each row that is released mostly loses all of its references
    for l in &p.releases { if g.pct(70) { for r in rows.iter_mut().filter(|r| r[0] == l[0]) { r[2] = r[2].max(3); } } }
    for _ in 0..g.pick(&[0, 0, 1, 1, 2, 3]) {
        let at = match g.below(4) { 0 if !p.releases.is_empty() => p.releases[0][0], 1 => ((1 + g.below(m + 2)) << 20) - gap.max(1), _ => (m + 1 + g.below(9)) << 20 };
        p.adds.push([at, if g.pct(80) { gap.max(1) } else { s * (1 + g.below(400)) }, g.next()]);
    }
    call(257, s, g.pick(&[8, 0, u64::MAX]), list_bytes(257, &items), rows.concat(), &p)
}
/// Breaks a number or two of the list, the table or the sector, as for an operation.
fn spoil_lent(g: &mut Rng, c: &mut Call) {
    let mut l = Lent {
        sector: c.sector, total: 0, generation: 0, snapshot: 0, ino: c.number, size: 0, nodatacow: false, op: Op::Punch(0, 1), list: c.list.clone(), shared: Vec::new(),
        table: c.table.clone(), places: Vec::new(), own: true, source_ino: 0, source_size: 0, source: Vec::new(),
    };
    broken::spoil(g, &mut l);
    (c.sector, c.items, c.rows, c.list, c.table) = (l.sector, l.list.len().div_ceil(70), l.table.len().div_ceil(5), l.list, l.table);
}
fn spoil_edits(g: &mut Rng, c: &mut Call) {
    let n = (c.edits.len() / 71) as u64;
    if n == 0 || g.pct(10) { let e = edit(g.pick(&[1, 2]), c.number, c.sector.wrapping_mul(g.below(9)), &[0; 53]); c.edits.extend(e); return; }
    let (at, other) = (g.below(n) as usize * 71, g.below(n) as usize * 71);
    let k = key(&c.edits[at + 1..]);
    let theirs = if c.list.len() >= 70 { key(&c.list[g.below(c.list.len() as u64 / 70) as usize * 70..]) } else { 0 };
    match g.below(14) {
        0 => { let k = c.edits.len() - g.pick(&[1, 70, 71]); c.edits.truncate(k); }
        1 => { let k = g.pick(&[1usize, 70]); c.edits.extend(vec![1; k]); }
        2 => c.edits[at] = g.pick(&[0, 3, 255]),
        3 => c.edits[at] = 3u8.wrapping_sub(c.edits[at]),
        4 => for j in 0..71 { c.edits.swap(at + j, other + j) },
        5 => { let e = c.edits[at..at + 71].to_vec(); c.edits.splice(other..other, e); }
        6 => { c.edits.drain(at..at + 71); }
        7 | 8 => put(&mut c.edits, at + 10, g.pick(&[k.wrapping_add(c.sector), k.wrapping_sub(c.sector), k.wrapping_add(1), theirs, u64::MAX])),
        9 => put(&mut c.edits, at + 1, c.number.wrapping_add(g.pick(&[1, 1 << 56]))),
        10 => c.edits[at + 9] = g.pick(&[0, 107, 109]),
        11 => { let o = at + g.pick(&[55usize, 63]); put(&mut c.edits, o, g.pick(&[0, 1, c.sector, c.sector.wrapping_mul(2), c.sector.wrapping_mul(5), u64::MAX, 1 << 63])) }
        12 => c.edits[at + 38] = g.pick(&[0, 1, 2, 3, 255]),
        _ => { let (o, v) = (at + 1 + g.below(70) as usize, g.next() as u8); c.edits[o] = v; }
    }
}
fn spoil_lines(g: &mut Rng, c: &mut Call) {
    let start = if c.table.len() >= 5 { c.table[g.below(c.table.len() as u64 / 5) as usize * 5] } else { 1 << 20 };
    let i = g.below(3);
    if let (8, true) = (g.below(9), c.table.len() >= 5) {
        let at = g.below(c.table.len() as u64 / 5) as usize * 5;
        c.table[at + 2] = g.pick(&[0, 1, u64::MAX, u64::MAX - 1]);
        return;
    }
    let v = [&mut c.shares, &mut c.unrefs, &mut c.releases].into_iter().nth(i as usize).unwrap();
    let at = g.below(v.len() as u64 / 2 + 1) as usize * 2;
    match g.below(6) {
        0 => { let k = v.len().saturating_sub(1); v.truncate(k); }
        1 => v.push(start),
        2 if at + 2 <= v.len() => { v.drain(at..at + 2); }
        3 if at < v.len() => v[at] = g.pick(&[0, start.wrapping_add(1), u64::MAX]),
        4 if at < v.len() => { let l = [v[at], g.next()]; for _ in 0..1 + g.below(3) { v.extend(l); } }
        _ => v.extend([start, g.next()]),
    }
}
fn spoil_adds(g: &mut Rng, c: &mut Call) {
    let row = if c.table.len() >= 5 { let i = g.below(c.table.len() as u64 / 5) as usize * 5; [c.table[i], c.table[i + 1]] } else { [1 << 20, 4096] };
    let end = row[0].wrapping_add(row[1]);
    let at = g.below(c.adds.len() as u64 / 3 + 1) as usize * 3;
    match g.below(7) {
        0 => { let k = c.adds.len().saturating_sub(1 + g.below(2) as usize); c.adds.truncate(k); }
        1 => c.adds.push(1 << 50),
        2 if at + 3 <= c.adds.len() => { let a = c.adds[at..at + 3].to_vec(); c.adds.extend(a); }
        3 | 4 if at + 3 <= c.adds.len() => c.adds[at] = g.pick(&[0, 1, row[0], end, end.wrapping_sub(1), row[0].wrapping_sub(1), row[0].wrapping_sub(c.adds[at + 1]), u64::MAX.wrapping_sub(c.adds[at + 1]), u64::MAX]),
        5 if at + 3 <= c.adds.len() => { let to = row[0].wrapping_sub(c.adds[at]); c.adds[at + 1] = g.pick(&[0, 1, to, to.wrapping_add(1), u64::MAX, u64::MAX.wrapping_sub(c.adds[at])]) }
        _ => c.adds.extend([g.pick(&[end, 1 << 50, 3 << 50]), 1 + g.below(9000), g.next()]),
    }
}
/// Room behind the list and the table, full of what must not be looked at.
fn room(g: &mut Rng, c: &mut Call) {
    let more = |g: &mut Rng| if g.pct(25) { g.below(3) } else { 4 + g.below(40) };
    let n = more(g) as usize * 70 + if g.pct(30) { g.below(70) as usize } else { 0 };
    c.list.extend((0..n).map(|_| g.next() as u8));
    let n = more(g) as usize * 5 + if g.pct(30) { g.below(5) as usize } else { 0 };
    c.table.extend((0..n).map(|_| g.next()));
}
fn odd_numbers(g: &mut Rng, c: &mut Call) {
    let (list, table) = (c.list.len() / 70, c.table.len() / 5);
    match g.below(6) {
        0 => c.items = g.pick(&[0, c.items.wrapping_sub(1), c.items + 1, list, list + 1, usize::MAX, usize::MAX / 70 + 1]),
        1 => c.rows = g.pick(&[0, c.rows.wrapping_sub(1), c.rows + 1, table, table + 1, usize::MAX, usize::MAX / 5 + 1]),
        2 => c.number = c.number.wrapping_add(1),
        3 => c.sector = g.pick(&[0, 512, 4096, 8192, 12288, 65536, 131072, u64::MAX]),
        _ => c.generation = g.pick(&[0, 1, u64::MAX]),
    }
}
/// Any call: a plan of the Rust or one that no planner made; half of them broken somewhere.
pub fn any(g: &mut Rng) -> Call {
    let mut c = if g.pct(45) { planned(g) } else { made(g) };
    let times = if g.pct(50) { 0 } else { 1 + (g.pct(50) as u64) * g.below(4) };
    let mut odd = false;
    for _ in 0..times {
        match g.below(10) { 0 | 1 => spoil_lent(g, &mut c), 2..=4 => spoil_edits(g, &mut c), 5 | 6 => spoil_lines(g, &mut c), 7 | 8 => spoil_adds(g, &mut c), _ => odd = true }
    }
    room(g, &mut c);
    if odd { odd_numbers(g, &mut c); }
    if g.pct(3) { c.answer = g.below(4) as usize; }
    c
}
/// Lists and tables of about 65,536 records and rows, before or after the plan.
pub fn large(g: &mut Rng) -> Call {
    let s = 4096;
    let long_list = g.pct(25);
    let (n, m) = if long_list { (g.pick(&[65535u64, 65536, 65536, 65537]), 3) } else { (3, g.pick(&[65534u64, 65535, 65536, 65536, 65537])) };
    let items: Vec<(u64, Vec<u8>)> = (0..n).map(|i| (i * 2 * s, item(g, 1 << 20, s))).collect();
    let rows: Vec<[u64; 5]> = (1..=m).map(|i| [i << 20, 4096, 2, 5, 0]).collect();
    let mut p = Plan::default();
    for i in 0..g.below(4) { let k = (2 * (i * 7919 % n) + g.below(2)) * s; p.edits.push((k, if g.pct(75) { Some(item(g, 1 << 20, s)) } else { None })); }
    p.edits.sort();
    p.edits.dedup_by_key(|e| e.0);
    for _ in 0..g.below(4) { p.shares.push([(1 + g.below(m)) << 20, 0]); }
    for i in 0..g.below(3) { p.releases.push([(1 + i * 31337 % m) << 20, 0]); }
    for i in 0..g.below(4) { p.adds.push([((1 + i * 4099 % (m + 1)) << 20) + 8192, 4096, 0]); }
    let mut c = call(257, s, 8, list_bytes(257, &items), rows.concat(), &p);
    room(g, &mut c);
    c
}
/// What is wrong with our side's call, if anything: the byte, every number of `answer`, every byte of the list, every number of the table.
fn unlike(c: &Call, n: &mut BTreeMap<String, u64>) -> Option<String> {
    let (code, list, table, answer) = ours::apply(c);
    let mut want = (0, c.list.clone(), c.table.clone(), vec![ours::W; c.answer]);
    let mut add = |s: &str| *n.entry(s.into()).or_default() += 1;
    if c.answer < 2 {
        add("ANSWER short (27 due)");
        want.0 = 27;
    } else {
        match due(c) {
            Err((why, test)) => { want.0 = why; add(&format!("REFUSED {why:02}: {test}")) }
            Ok(a) => {
                add("DONE");
                shape(c, &a.records, &a.rows, &mut add);
                let (bytes, numbers) = (a.records.concat(), a.rows.concat());
                want.1[..bytes.len()].copy_from_slice(&bytes);
                want.2[..numbers.len()].copy_from_slice(&numbers);
                want.3[..2].copy_from_slice(&[a.records.len() as u64, a.rows.len() as u64]);
            }
        }
    }
    let what = if code != want.0 { "the byte" } else if answer != want.3 { "answer" } else if list != want.1 { "the list" } else if table != want.2 { "the table" } else { return None };
    Some(format!("{what}: {code}, {} due, answer {answer:?}, {:?} due", want.0, want.3))
}
/// Which branches of the specification an applied plan went through.
fn shape(c: &Call, records: &[Vec<u8>], rows: &[[u64; 5]], add: &mut impl FnMut(&str)) {
    let keys: Vec<u64> = c.list[..c.items * 70].chunks(70).map(key).collect();
    let edits: Vec<(bool, u64)> = c.edits.chunks(71).map(|e| (e[0] == 1, key(&e[1..]))).collect();
    if edits.is_empty() { add("done: no edits"); }
    for (name, put, there) in [("a put over a record", true, true), ("a new record", true, false), ("a delete", false, true), ("a delete of a key that is not there", false, false)] {
        if edits.iter().any(|(p, k)| *p == put && keys.contains(k) == there) { add(&format!("done: {name}")); }
    }
    let names = |v: &[u64], s: u64| v.chunks(2).any(|l| l[0] == s);
    for (name, v) in [("shares", &c.shares), ("unrefs", &c.unrefs), ("releases", &c.releases), ("adds", &c.adds)] { if !v.is_empty() { add(&format!("done: {name}")); } }
    if c.releases.chunks(2).any(|l| names(&c.shares, l[0])) { add("done: a released row that shares name"); }
    if c.releases.chunks(2).any(|l| c.adds.chunks(3).any(|a| a[0] == l[0])) { add("done: an add where a row goes"); }
    if rows.iter().any(|r| r[2] == 0 && names(&c.unrefs, r[0])) { add("done: unrefs to 0 without a release"); }
    if rows.iter().any(|r| r[2] > u64::MAX - 3 && names(&c.shares, r[0])) { add("done: references near 2^64"); }
    if records.len() == c.list.len() / 70 { add("done: the list has just the room"); }
    if rows.len() == c.table.len() / 5 { add("done: the table has just the room"); }
    if records.len() < c.items { add("done: fewer records"); }
    if records.len() > c.items { add("done: more records"); }
}
/// Compares so many calls.
pub fn fuzz(make: fn(&mut Rng) -> Call, seed: u64, count: u64) {
    std::panic::set_hook(Box::new(|_| {}));
    let mut g = Rng(seed.wrapping_mul(0x7234_5678_9abc_def1));
    let mut n = BTreeMap::new();
    let mut diffs = 0u64;
    for i in 0..count {
        let c = make(&mut g);
        if let Some(why) = unlike(&c, &mut n) {
            diffs += 1;
            if diffs <= 5 {
                println!("==== difference at {i}: {why}\nsector {} generation {} number {} items {} of {} rows {} of {}", c.sector, c.generation, c.number, c.items, c.list.len(), c.rows, c.table.len());
                for r in c.list[..(c.items.min(c.list.len() / 70) * 70)].chunks(70).take(40) { println!("record {r:?}"); }
                for r in c.table[..(c.rows.min(c.table.len() / 5) * 5)].chunks(5).take(40) { println!("row {r:?}"); }
                for e in c.edits.chunks(71) { println!("edit {e:?}"); }
                println!("shares {:?}\nunrefs {:?}\nreleases {:?}\nadds {:?}", c.shares, c.unrefs, c.releases, c.adds);
            }
        }
    }
    println!("compared {count}, differences {diffs}");
    for (k, v) in n { println!("{v:>10}  {k}"); }
}
