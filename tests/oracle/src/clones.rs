// Random clone requests on well-kept lists, biased to boundaries: two files, or one cloned into itself.
use crate::fs::{Facts, FileFacts};
use crate::gen::{data, ItemSpec, Rng};
use crate::oracle::{Op, Request};
use crate::superblock::le64;
const TOP: u64 = 1 << 63;
/// What the files of a request have in common: sector, extents, and how odd the items are (in a hundred).
struct Flavour { sector: u64, clean: bool, starts: Vec<u64>, single: u64, hole: u64, odd: u64, regular: u64, encoded: u64, strange: u64 }
type Items = Vec<(u64, ItemSpec)>;
fn flavour(g: &mut Rng, many: bool) -> Flavour {
    let sector = if g.pct(50) { 4096 } else { g.pick(&[8192u64, 16384, 32768, 65536]) };
    let clean = g.pct(70);
    let m = 1 + g.below(if many { 60 } else { 4 });
    let mut starts: Vec<u64> = (1..=m).map(|i| (i << 40) + match g.below(20) { 0..=11 => 0, 12..=18 => g.below(4) << 12, _ => g.below(5000) }).collect();
    if g.pct(4) { starts[0] = 1 + g.below(9000); }
    if g.pct(4) { *starts.last_mut().unwrap() = u64::MAX - sector * (1 + g.below(70)) + g.below(3); }
    Flavour {
        sector, clean, starts, single: g.pick(&[10, 50, 80]), hole: g.pick(&[0, 0, 5, 25]), odd: if clean { g.pick(&[0, 0, 8, 30]) } else { 30 }, regular: g.pick(&[15, 50, 85]),
        encoded: if clean { 0 } else { g.pick(&[0, 2, 10]) }, strange: if clean { 0 } else { g.pick(&[0, 0, 2, 6]) },
    }
}
fn items(g: &mut Rng, f: &Flavour, n: usize, long: bool) -> (Items, u64) {
    let s = f.sector;
    let mut shape = Vec::new();
    for _ in 0..n {
        let gap = if g.pct(65) { 0 } else { 1 + g.below(3) };
        let len = if g.pct(f.single) { 1 } else if long || g.pct(96) { 1 + g.below(5) } else { 1 + g.below(1000) };
        shape.push((gap, len));
    }
    let all: u64 = shape.iter().map(|(a, b)| a + b).sum::<u64>() * s;
    let base = match g.below(100) { 0..=69 => 0, 70..=84 => (1 + g.below(4)) * s, 85..=90 => TOP - all, 91..=94 => TOP - all - s * (1 + g.below(3)), _ => 1 << 41 };
    let shift: Vec<u64> = f.starts.iter().map(|_| s * g.below(6)).collect();
    let mut v = Vec::new();
    let mut p = base;
    let mut e = g.below(f.starts.len() as u64) as usize;
    for (gap, len) in shape {
        let key = p + gap * s;
        let length = len * s;
        p = key + length;
        if g.pct(30) { e = g.below(f.starts.len() as u64) as usize; }
        let position = if !g.pct(f.odd) { (key - base).wrapping_add(shift[e]) } else {
            match g.below(if f.clean { 8 } else { 9 }) { 0..=4 => s * g.below(8), 5 => 0, 6 => g.below(5000), 7 => s * g.below(90), _ => u64::MAX - length - g.pick(&[0, 1, s, 40 * s]) }
        };
        let mut i = ItemSpec {
            generation: if g.pct(80) { g.below(9) } else { g.next() }, ram: if g.pct(80) { length } else { g.next() },
            compression: if g.pct(f.odd / 3) { g.pick(&[1, 2, 3, 255]) } else { 0 }, encryption: 0, other: 0,
            kind: if g.pct(f.regular) { 1 } else { 2 }, start: if g.pct(f.hole) { 0 } else { f.starts[e] }, disk: if g.pct(80) { 64 * s } else { g.next() }, position, length,
        };
        if g.pct(f.encoded) { if g.pct(50) { i.encryption = g.pick(&[1, 255]) } else { i.other = g.pick(&[1, 255, 256, 65535]) } }
        let mut at = key;
        if g.pct(f.strange) {
            i.kind = g.pick(&[0, 0, 3, 255]);
            if g.pct(30) { at += g.below(s); i.length = g.next() >> g.below(64); i.position = g.next(); }
        }
        v.push((at, i));
    }
    // an inline record before all others
    if base > 0 && v.first().is_none_or(|x| x.0 > 0) && g.pct(if f.clean { 3 } else { 10 }) {
        v.insert(0, (0, ItemSpec { generation: 3, ram: 100, compression: 0, encryption: 0, other: 0, kind: 0, start: g.next(), disk: g.next(), position: g.next(), length: g.next() }));
    }
    (v, p)
}
fn end(i: &(u64, ItemSpec)) -> u64 { if matches!(i.1.kind, 1 | 2) { i.0 + i.1.length } else { i.0.saturating_add(1) } }
fn edges(v: &Items, p: u64) -> Vec<u64> {
    let mut e = vec![0, p, v.first().map_or(0, |x| x.0)];
    for i in v { e.extend([i.0, end(i)]); }
    e
}
fn size_of(g: &mut Rng, e: &[u64], p: u64, s: u64) -> u64 {
    match g.below(20) {
        0..=7 => p, 8..=10 => p.saturating_sub(1 + g.below(s - 1)), 11..=13 => g.pick(e), 14 | 15 => g.pick(e).saturating_add(1 + g.below(s - 1)), 16 => g.pick(e).saturating_sub(1),
        17 => p.saturating_add(s * g.below(4)), 18 => g.pick(&[0, 1, TOP - 1, TOP - s, 100]), _ => g.below(p.max(1)),
    }.min(TOP - 1)
}
/// A whole sector at or near an edge.
fn whole(g: &mut Rng, e: &[u64], s: u64) -> u64 {
    let d = match g.below(10) { 0..=5 => 0, 6 => 1, 7 => -1, 8 => g.below(5) as i128, _ => -(g.below(5) as i128) };
    ((g.pick(e) / s) as i128 + d).clamp(0, (TOP / s) as i128) as u64 * s
}
/// A clone. The second file, where there is one, is the source.
pub fn clone(g: &mut Rng) -> Request {
    let big = g.below(300) == 0;
    let many = |g: &mut Rng| if big { 9 + g.below(250) } else if g.pct(6) { 0 } else { 1 + g.below(8) } as usize;
    let (n, m) = (many(g), many(g));
    of(g, n, m, false)
}
/// The longest lists, and lists one too long.
pub fn large(g: &mut Rng) -> Request {
    let n = g.pick(&[65536, 65536, 65535, 65537, 3]);
    let m = g.pick(&[65536, 65536, 65535, 65537, 3]);
    of(g, n, m, true)
}
fn of(g: &mut Rng, n: usize, m: usize, long: bool) -> Request {
    let mut f = flavour(g, n > 8 && m > 8);
    if long { f.encoded = 0; f.strange = 0; f.odd = 0; f.clean = true; }
    let s = f.sector;
    let own = g.pct(40);
    let (dst, dp) = items(g, &f, n, long);
    // sometimes the source's items are the destination's
    let (src, sp) = if own || g.pct(8) { (dst.clone(), dp) } else { items(g, &f, m, long) };
    let (de, se) = (edges(&dst, dp), edges(&src, sp));
    let mut size = size_of(g, &de, dp, s);
    let mut source_size = if own { size } else { size_of(g, &se, sp, s) };

    // what is read
    let mut from = if g.pct(15) { 0 } else { whole(g, &se, s) };
    if from > source_size && g.pct(90) { from = if g.pct(50) { source_size / s * s } else { g.below(source_size / s + 1) * s }; }
    if from == source_size && from > 0 && g.pct(80) { from = (from - 1) / s * s; }
    let left = source_size.saturating_sub(from);
    let upto = whole(g, &se, s).max(from).min(source_size / s * s);
    let mut length = match g.below(20) {
        0..=3 => 0, 4..=6 => left, 7..=13 => upto.saturating_sub(from), 14 | 15 => s.min(left), 16 => g.below(left / s + 1) * s,
        17 => g.pick(&[left.saturating_add(1), left.saturating_add(s), left.wrapping_sub(1), left / s * s]), 18 => (2 * s).min(left), _ => g.below(left.saturating_add(2)),
    };
    if length == 0 && g.pct(50) { length = left; }
    if g.below(150) == 0 { length = g.pick(&[u64::MAX, TOP, u64::MAX - from, (u64::MAX - from).wrapping_add(1), TOP - 1]); }
    if g.pct(1) { from = from.wrapping_add(g.pick(&[1, s / 2, s - 1, u64::MAX, TOP])); }

    // where it goes
    let meant = |length: u64, size: u64| if length == 0 { size.saturating_sub(from) } else { length };
    let spanned = |length: u64, size: u64| (from.saturating_add(meant(length, size)).min(TOP).div_ceil(s) * s).saturating_sub(from);
    let mut span = spanned(length, source_size);
    let mut to = if own && g.pct(75) {
        match g.below(8) {
            0..=2 => from.saturating_add(span), 3 | 4 => from.saturating_sub(span), 5 => from.saturating_add(span + s * g.below(5)), 6 => from.saturating_sub(span + s * g.below(5)),
            _ => from.saturating_add(span).saturating_sub(s * (1 + g.below(2))),
        }
    } else { match g.below(10) { 0 => from, 1 => 0, 2 => size.div_ceil(s) * s, 3 => whole(g, &de, s).saturating_sub(span / s * s), _ => whole(g, &de, s) } };
    // inside one item of the destination
    let roomy: Vec<&(u64, ItemSpec)> = dst.iter().filter(|x| matches!(x.1.kind, 1 | 2) && x.1.length >= 3 * s).collect();
    if !roomy.is_empty() && g.pct(12) {
        let x = roomy[g.below(roomy.len() as u64) as usize];
        if !own && g.pct(60) { length = s * (1 + g.below(x.1.length / s - 2)); if from.saturating_add(length) > source_size && g.pct(80) { source_size = from.saturating_add(length).min(TOP - 1); } }
        span = spanned(length, source_size);
        to = x.0 + s * (1 + g.below(x.1.length / s - 2));
    }
    match g.below(100) {
        // about 2^63, the largest end with a last, partial sector among them
        0..=3 => {
            to = TOP.wrapping_sub(span).wrapping_add(g.pick(&[0, 0, 0, s, s.wrapping_neg()]));
            if !own && span >= s && g.pct(70) { source_size = (from + span - g.pick(&[1, 1, 1, 0, 2, s - 1])).min(TOP - 1); if length != 0 { length = source_size.saturating_sub(from); } }
        }
        4 => to = g.pick(&[TOP, u64::MAX / s * s, (u64::MAX - span) / s * s, TOP - s, (u64::MAX / s * s).wrapping_sub(span)]),
        5 => to = to.wrapping_add(g.pick(&[1, s / 2, s - 1, u64::MAX])),
        _ => (),
    }
    // the destination's size about the end of what is put there
    let meant = meant(length, source_size);
    let stop = to.saturating_add(meant);
    if !own && stop < TOP {
        match g.below(100) {
            0..=11 => size = stop, 12..=14 => size = stop.saturating_add_signed(g.pick(&[-1, 1])), 15..=24 => size = stop / s * s, 25..=29 => size = to / s * s, 30..=34 => size = size.div_ceil(s) * s, _ => (),
        }
    } else if own && length == 0 && g.pct(50) { length = meant; }
    size = size.min(TOP - 1);

    let (lo, hi) = (to, to.saturating_add(span));
    let mut rows = Vec::new();
    let mut starts = f.starts.clone();
    starts.sort();
    for &at in &starts {
        if g.pct(if f.clean { 1 } else { 8 }) { continue; }
        let names = |v: &Items| v.iter().filter(|(_, i)| i.start == at && matches!(i.kind, 1 | 2)).count() as u64;
        let need = dst.iter().chain(&src).filter(|(_, i)| i.start == at && matches!(i.kind, 1 | 2)).map(|(_, i)| i.position.saturating_add(i.length)).filter(|x| *x < 1 << 37).max().unwrap_or(s);
        let length = match g.below(20) {
            0..=12 => need.max(64 * s), 13..=16 => need, 17 => need + 1, 18 => if f.clean { need } else { need - 1 }, _ => if f.clean { need } else { need.saturating_sub(s * (1 + g.below(3))).max(1) },
        }.min(u64::MAX - at).min(1 << 39).max(1);
        let gone = dst.iter().filter(|x| x.1.start == at && lo <= x.0 && end(x) <= hi && matches!(x.1.kind, 1 | 2)).count() as u64;
        let refs = match g.below(20) { 0..=5 => gone, 6 => gone.wrapping_add(1), 7 => gone.wrapping_sub(1), 8..=11 => names(&dst), 12..=17 => names(&dst) + if own { 0 } else { names(&src) }, _ => g.pick(&[0, 1, 2, u64::MAX]) };
        rows.push([at, length, refs, g.below(9), g.pct(if f.clean { 2 } else { 10 }) as u64]);
        if g.pct(5) && at < 1 << 50 { rows.push([(at >> 40 << 40) + (3 << 38), s, g.below(3), 1, g.below(2)]); } // that no item names
    }
    let shared = if g.pct(80) { vec![0; dst.len()] } else { (0..dst.len()).map(|_| g.pct(30) as u8).collect() };
    let ino = if g.pct(95) { 257 } else { g.pick(&[0, 1, u64::MAX]) };
    let bytes = |v: &Items| -> Vec<(u64, Vec<u8>)> { v.iter().map(|(k, i)| (*k, data(i))).collect() };
    let mut files = vec![FileFacts { ino, size, nodatacow: g.pct(10), items: bytes(&dst), shared }];
    if !own {
        let other = match g.below(200) { 0 => ino, 1..=99 => ino ^ 3, _ => ino.wrapping_add(1) };
        files.push(FileFacts { ino: other, size: source_size, nodatacow: g.pct(10), items: bytes(&src), shared: vec![0; src.len()] });
    }
    let generation = match g.below(100) { 0..=2 => u64::MAX, 3 => u64::MAX - 1, _ => 8 };
    Request { sector: s, total: g.next(), facts: Facts { files, rows, generation, snapshot: g.pick(&[0, 5, u64::MAX]), places: Some(vec![]) }, op: Op::Clone(from, to, length) }
}
/// The length that is meant, and the bytes of the extents that it takes.
pub fn span(r: &Request) -> (u64, u64) {
    let Op::Clone(from, _, n) = r.op else { unreachable!() };
    let len = if n == 0 { r.facts.files.last().unwrap().size.saturating_sub(from) } else { n };
    (len, from.saturating_add(len).min(TOP).div_ceil(r.sector) * r.sector - from.min(TOP))
}
/// Whether the destination's items or the source's are refused, of two files: the one is, if it is so with an empty source.
pub fn whose(r: &Request, number: u8) -> Option<&'static str> {
    if !matches!(r.op, Op::Clone(..)) || r.facts.files.len() != 2 || !matches!(number, 7 | 8 | 9 | 14 | 15 | 17) { return None; }
    let mut t = r.clone();
    t.facts.files[1].items.clear();
    Some(if crate::oracle::run(&t).0 == crate::oracle::Outcome::Refused(number) { "of the destination's items" } else { "of the source's items" })
}
/// Which branches a plan went through.
pub fn shape(p: &crate::oracle::Plan, r: &Request, mut add: impl FnMut(&str)) {
    let Op::Clone(from, to, _) = r.op else { unreachable!() };
    let (dst, src) = (&r.facts.files[0], r.facts.files.last().unwrap());
    let (len, span) = span(r);
    let (stop, hi) = (from + span, to + span);
    let own = r.facts.files.len() == 1;
    add(if own { "clone: one file" } else { "clone: two files" });
    add(if p.size > dst.size { "clone: the size grows" } else { "clone: the size stays" });
    if len < span { add("clone: a last, partial sector"); }
    if to + len == TOP - 1 { add("clone: up to 2^63 - 1"); }
    let (mut copies, mut fronts, mut backs) = (0, 0, 0);
    for (k, d) in &src.items {
        if d[20] == 0 { add("source: an inline record passed over"); continue; }
        let (a, b) = (*k, k + le64(d, 45));
        if b <= from || stop <= a { continue; }
        if le64(d, 21) == 0 { add("source: a hole skipped"); continue; }
        copies += 1;
        if a < from { fronts += 1; }
        if b > stop { backs += 1; }
        if a < from && b > stop { add("source: an item trimmed on both sides"); }
        if own && a < hi && to < b { add("source: an item that is cut too"); }
        if d[16] != 0 { add("source: a compressed item"); }
        if d[20] == 2 { add("source: a preallocated item"); }
        let new = (to + (a.max(from) - from)).wrapping_sub(le64(d, 37).wrapping_add(a.max(from) - a));
        if p.releases.contains(&[le64(d, 21), new]) || p.unrefs.contains(&[le64(d, 21), new]) { add("source: a reference shared and dropped at once"); }
        if p.releases.iter().any(|x| x[0] == le64(d, 21)) { add("source: an extent shared and released at once"); }
    }
    add(&format!("source: {} copied", match copies { 0 => "none", 1 => "one", 2..=5 => "2 to 5", _ => "6 or more" }));
    if fronts > 0 { add("source: the first item trimmed"); }
    if backs > 0 { add("source: the last item trimmed"); }
    let (mut gone, mut cut) = (0, 0);
    for (i, (k, d)) in dst.items.iter().enumerate() {
        let (a, b) = (*k, k + le64(d, 45));
        if b <= to || hi <= a { continue; }
        if to <= a && b <= hi {
            gone += 1;
            if le64(d, 21) == 0 { add("destination: a hole covered"); }
            match p.edits.iter().find(|e| e.0 == a) { Some((_, None)) => add("destination: a covered item deleted"), Some((_, Some(n))) => add(if n == d { "destination: the same record put again" } else { "destination: a covered item replaced" }), None => add("NO EDIT") }
            if dst.shared[i] == 1 { add("destination: a covered item in a shared leaf"); }
        } else {
            cut += 1;
            match (a < to, b > hi) {
                (true, true) => add(if le64(d, 21) == 0 { "destination: a hole split" } else { "destination: an item split" }),
                (true, false) => add("destination: an item cut at its end"),
                _ => add(if p.edits.iter().any(|e| e.0 == a && e.1.is_some()) { "destination: an item cut at its start, its key put anew" } else { "destination: an item cut at its start" }),
            }
            if d[17] != 0 || d[18] != 0 || d[19] != 0 { add("destination: an encoded item cut"); }
        }
    }
    if dst.items.is_empty() { add("destination: empty"); } else if gone + cut == 0 { add("destination: nothing in the range"); }
    if p.edits.is_empty() { add("plan: without edits"); }
    if p.shares.windows(2).any(|w| w[0] == w[1]) { add("plan: two equal shares"); }
    if p.shares.len() > copies { add("plan: a split's share and copies"); }
    if !p.unrefs.is_empty() { add("plan: with unrefs"); }
    if p.unrefs.windows(2).any(|w| w[0] == w[1]) { add("plan: two equal unrefs"); }
    if !p.releases.is_empty() { add("plan: with releases"); }
    if p.releases.len() > 1 { add("plan: two releases or more"); }
    if !p.releases.is_empty() && !p.unrefs.is_empty() { add("plan: releases and unrefs"); }
    if p.shares.iter().chain(&p.unrefs).chain(&p.releases).any(|x| x[1] > 1 << 63) { add("plan: wrapped reference offset in a line"); }
}
