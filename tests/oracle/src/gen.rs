// Random well-kept requests, biased to boundaries.
use crate::fs::{Facts, FileFacts};
use crate::oracle::{Op, Request};
pub struct Rng(pub u64);
impl Rng {
    pub fn next(&mut self) -> u64 {
        self.0 = self.0.wrapping_add(0x9e3779b97f4a7c15);
        let mut z = self.0;
        z = (z ^ (z >> 30)).wrapping_mul(0xbf58476d1ce4e5b9);
        z = (z ^ (z >> 27)).wrapping_mul(0x94d049bb133111eb);
        z ^ (z >> 31)
    }
    pub fn below(&mut self, n: u64) -> u64 { self.next() % n }
    pub fn pct(&mut self, p: u64) -> bool { self.below(100) < p }
    pub fn pick<T: Copy>(&mut self, xs: &[T]) -> T { xs[self.below(xs.len() as u64) as usize] }
}
#[derive(Clone, Copy)]
pub struct ItemSpec { pub generation: u64, pub ram: u64, pub compression: u8, pub encryption: u8, pub other: u16, pub kind: u8, pub start: u64, pub disk: u64, pub position: u64, pub length: u64 }
pub fn data(i: &ItemSpec) -> Vec<u8> {
    let mut d = Vec::with_capacity(53);
    d.extend(i.generation.to_le_bytes()); d.extend(i.ram.to_le_bytes()); d.push(i.compression); d.push(i.encryption);
    d.extend(i.other.to_le_bytes()); d.push(i.kind); d.extend(i.start.to_le_bytes()); d.extend(i.disk.to_le_bytes());
    d.extend(i.position.to_le_bytes()); d.extend(i.length.to_le_bytes());
    d
}
const TOP: u64 = 1 << 63;
/// A punch whose places are not chosen yet.
pub fn punch(g: &mut Rng) -> Request {
    if g.pct(25) { return one_extent(g); }
    let sector = if g.pct(85) { 4096 } else { g.pick(&[8192u64, 16384, 32768, 65536]) };
    let ino = if g.pct(90) { 257 } else { g.pick(&[0, 1, u64::MAX]) };
    // the flavour of the whole request: how clean it is
    let clean = g.pct(60);
    let alike = g.pct(60); // one reference offset an extent
    let kinds = g.below(3); // 0: mixed, 1: mostly preallocated, 2: mostly regular
    let generation = match g.below(100) { 0..=2 => u64::MAX, 3..=5 => u64::MAX - 1, 6..=50 => 7, _ => g.below(20) };
    let snapshot = if g.pct(60) { 0 } else { g.pick(&[3, 5, 6, generation, u64::MAX]) };

    let big = g.below(200) == 0;
    let n = if big { 9 + g.below(300) } else if g.pct(3) { 0 } else { 1 + g.below(8) } as usize;
    // gaps and lengths in sectors
    let mut shape = Vec::new();
    for _ in 0..n {
        let gap = if g.pct(75) { 0 } else { 1 + g.below(3) };
        let len = if g.pct(55) { 1 } else if g.pct(95) { 2 + g.below(3) } else { 1 + g.below(1000) };
        shape.push((gap, len));
    }
    let total: u64 = shape.iter().map(|(a, b)| a + b).sum::<u64>() * sector;
    let base = match g.below(100) {
        0..=64 => 0, 65..=79 => g.below(4) * sector, 80..=89 => TOP - total, 90..=92 => TOP - total - sector, _ => (1 << 40) / sector * sector,
    };
    // extents
    let m = 1 + g.below(if big { 60 } else { 4 });
    let mut at = if g.pct(90) { 1 << 20 } else { 1 + g.below(9000) };
    let mut starts = Vec::new();
    for i in 0..m {
        starts.push(at);
        at += 1 << 30;
        if g.pct(2) && i + 1 == m { starts.pop(); starts.push(u64::MAX - sector * (8 + g.below(70)) + g.below(3)); }
    }
    let origins: Vec<u64> = (0..m).map(|_| base.wrapping_add(sector * g.below(6)).wrapping_sub(sector * g.below(6))).collect();
    let mut items = Vec::new();
    let mut specs = Vec::new();
    let mut p = base;
    let mut last = g.below(m) as usize;
    for &(gap, len) in &shape {
        let key = p + gap * sector;
        let length = len * sector;
        p = key + length;
        let e = if g.pct(65) { last } else { g.below(m) as usize };
        last = e;
        let start = if g.pct(if clean { 4 } else { 10 }) { 0 } else { starts[e] };
        let position = if g.pct(if alike { 93 } else { 50 }) {
            let d = key.wrapping_sub(origins[e]);
            if d < TOP { d } else { 0 }
        } else {
            match g.below(if clean { 12 } else { 14 }) {
                0..=8 => sector * g.below(8), 9 => g.below(5000), 10 => sector, 11 => 0,
                12 => u64::MAX - length - g.below(2), _ => u64::MAX - length - sector * g.below(90),
            }
        };
        let kind = match kinds { 0 => 1 + g.below(2), 1 => if g.pct(75) { 2 } else { 1 }, _ => if g.pct(85) { 1 } else { 2 } } as u8;
        let mut s = ItemSpec {
            generation: if g.pct(80) { g.below(8) } else { g.next() }, ram: if g.pct(80) { length } else { g.next() },
            compression: if g.pct(if clean { 97 } else { 80 }) { 0 } else { g.pick(&[1, 2, 3, 255]) },
            encryption: 0, other: 0, kind, start, disk: if g.pct(80) { 64 * sector } else { g.next() }, position, length,
        };
        if !clean && g.pct(1) { match g.below(4) { 0 => s.encryption = g.pick(&[1, 255]), 1 => s.other = g.pick(&[1, 255, 256, 65535]), 2 => s.kind = 0, _ => s.kind = g.pick(&[3, 255]) } }
        specs.push((key, s));
        items.push((key, data(&s)));
    }
    // rows
    let mut rows = Vec::new();
    for &s in &starts {
        let naming: Vec<&(u64, ItemSpec)> = specs.iter().filter(|(_, i)| i.start == s).collect();
        if g.pct(if clean { 1 } else { 7 }) { continue; }
        let need = naming.iter().map(|(_, i)| i.position.saturating_add(i.length)).filter(|x| *x < 1 << 29).max().unwrap_or(sector);
        let room = u64::MAX - s;
        let length = match g.below(100) {
            0..=69 => need.max(64 * sector), 70..=84 => need, 85..=89 => need + 1,
            90..=93 => if clean { need } else { need - 1 }, 94..=96 => if clean { need } else { need.saturating_sub(sector).max(1) }, 97 => 1 << 30, _ => sector,
        }.max(1).min(room).min(1 << 30);
        let refs = match g.below(100) {
            0..=64 => naming.len() as u64, 65..=84 => g.below(4), 85..=94 => naming.len() as u64 + g.below(3), _ => g.pick(&[0, 1, u64::MAX]),
        };
        let made = match g.below(100) { 0..=79 => snapshot.saturating_add(1 + g.below(3)), 80..=89 => snapshot, _ => g.below(9) };
        let keyed = g.pct(if clean { 3 } else { 12 }) as u64;
        rows.push([s, length, refs, made, keyed]);
        // a row that no item names, right behind
        if g.pct(5) && s + length < 1 << 50 && length < 1 << 30 { rows.push([s + length, sector, g.below(3), 1, 0]); }
    }
    let shared: Vec<u8> = if g.pct(80) { vec![0; n] } else { (0..n).map(|_| g.pct(35) as u8).collect() };

    // points of interest
    let mut edges = vec![0, base, p];
    for (k, i) in &specs { edges.push(*k); edges.push(k + i.length); }
    let near = |g: &mut Rng| -> u64 {
        let e = g.pick(&edges) as i128;
        let s = sector as i128;
        let d = match g.below(12) {
            0..=3 => 0, 4 => 1, 5 => -1, 6 => g.below(sector) as i128, 7 => -(g.below(sector) as i128), 8 => s, 9 => -s,
            10 => s * (g.below(6) as i128) + g.below(sector) as i128, _ => g.pick(&[s - 1, s + 1, 1 - s, -1 - s]),
        };
        (e + d).clamp(0, (TOP - 1) as i128) as u64
    };
    let size = match g.below(100) { 0..=34 => p.min(TOP - 1), 35..=89 => near(g), 90..=94 => TOP - 1, 95 => 0, _ => g.below(p.max(1)).min(TOP - 1) };
    let mut a = near(g);
    let mut b = match g.below(10) { 0..=6 => near(g), 7 => a.saturating_add(g.below(sector)), 8 => a.saturating_add(1), _ => a.saturating_add(g.below(4 * sector)) }.min(TOP - 1);
    if b < a { std::mem::swap(&mut a, &mut b); }
    if a == b && g.pct(90) { if b < TOP - 1 { b += 1 } else { a -= 1 } }
    let (mut offset, mut length) = (a, b - a);
    if g.pct(1) { match g.below(4) { 0 => length = TOP - offset, 1 => length = u64::MAX - offset, 2 => length = u64::MAX, _ => offset = u64::MAX - g.below(3) } }
    let nodatacow = g.pct(12);
    Request {
        sector, total: if g.pct(80) { 1 << 30 } else { g.next() },
        facts: Facts { files: vec![FileFacts { ino, size, nodatacow, items, shared }], rows, generation, snapshot, places: None },
        op: Op::Punch(offset, length),
    }
}
/// One or two extents that only this file names, laid out piece by piece, punched over parts of sectors: writes in place and joins.
fn one_extent(g: &mut Rng) -> Request {
    let sector = if g.pct(90) { 4096 } else { g.pick(&[8192u64, 65536]) };
    let n = 2 + g.below(7);
    let base = match g.below(10) { 0..=6 => 0, 7 => sector * g.below(5), 8 => TOP - 32 * sector, _ => 1 << 40 };
    let e = [1u64 << 20, 1 << 30];
    let shift = [sector * g.below(3), sector * (4 + g.below(30))];
    let regular = g.pick(&[20, 50, 80]);
    let second = g.pick(&[0, 0, 10, 40]);
    let odd = g.pick(&[0, 3, 15]);
    let mut items = Vec::new();
    let mut key = base;
    let mut count = [0u64; 2];
    let mut edges = Vec::new();
    for _ in 0..n {
        if g.pct(6) { key += sector * (1 + g.below(2)); }
        let length = sector * if g.pct(70) { 1 } else { 1 + g.below(3) };
        let x = g.pct(second) as usize;
        let mut position = key - base + shift[x];
        if g.pct(odd) { position = sector * g.below(12); }
        let hole = g.pct(odd / 3);
        let s = ItemSpec {
            generation: g.below(9), ram: length, compression: g.pct(odd / 3) as u8, encryption: 0, other: 0,
            kind: if g.pct(regular) { 1 } else { 2 }, start: if hole { 0 } else { e[x] }, disk: 64 * sector, position, length,
        };
        if !hole { count[x] += 1; }
        items.push((key, data(&s)));
        edges.push(key);
        key += length;
    }
    edges.push(key);
    let mut rows: Vec<[u64; 5]> = (0..2).map(|i| [e[i], 128 * sector, count[i], 6, 0]).collect();
    if g.pct(6) { rows[0][2] += 1; }
    if g.pct(6) { rows[1][2] = g.below(4); }
    if g.pct(4) { let i = g.below(2) as usize; rows[i][4] = 1; }
    if g.pct(3) { let i = g.below(2) as usize; rows.remove(i); }
    let n = items.len();
    let shared = if g.pct(85) { vec![0; n] } else { (0..n).map(|_| g.pct(25) as u8).collect() };
    let a = g.pick(&edges) + if g.pct(85) { 1 + g.below(sector - 1) } else { 0 };
    let mut b = match g.below(10) {
        0..=4 => (a / sector + 1) * sector + 1 + g.below(sector - 1), 5..=6 => (a / sector + 1 + g.below(4)) * sector + g.below(sector),
        7 => a + 1 + g.below(sector), _ => g.pick(&edges) + g.below(sector),
    };
    if b <= a { b = a + 1; }
    let top = TOP - 1;
    let (a, b) = (a.min(top - 1), b.min(top));
    let size = match g.below(10) { 0..=5 => key, 6 => key - 1 - g.below(sector - 1), 7 => top, 8 => b, _ => a }.min(top);
    Request {
        sector, total: 1 << 30,
        facts: Facts { files: vec![FileFacts { ino: 257, size, nodatacow: g.pct(10), items, shared }], rows, generation: 8, snapshot: if g.pct(95) { 5 } else { 6 }, places: None },
        op: Op::Punch(a, b - a),
    }
}
/// No more pieces than these bytes make are asked of the Rust, which lays them all out before it counts the places.
pub const MOST: u64 = 1 << 38;
const PIECE: u64 = 1 << 28;
/// The bytes of the holes of a fallocate, read plainly: the rounded range less the items and the old end's sector.
pub fn holes(r: &Request) -> u64 {
    let Op::Fallocate(o, n, _) = r.op else { return 0 };
    let f = &r.facts.files[0];
    let s = r.sector as u128;
    let (o, stop, size) = (o as u128, o as u128 + n as u128, f.size as u128);
    if n == 0 || stop >= TOP as u128 { return 0; }
    let (from, to) = (o / s * s, stop.div_ceil(s) * s);
    let over = |a: u128, b: u128| b.min(to).saturating_sub(a.max(from));
    let held: Vec<(u128, u128)> = f.items.iter().map(|(k, d)| (*k as u128, *k as u128 + crate::superblock::le64(d, 45) as u128)).collect();
    let end = size / s * s;
    let rewritten = stop > size && size % s != 0 && !held.iter().any(|&(a, b)| a <= end && end < b);
    let taken: u128 = held.iter().map(|&(a, b)| over(a, b)).sum::<u128>() + if rewritten { over(end, end + s) } else { 0 };
    (to - from).saturating_sub(taken) as u64
}
/// A fallocate whose places are not chosen yet.
pub fn fallocate(g: &mut Rng) -> Request {
    let r = if g.pct(25) { punch(g) } else {
        let n = if g.below(200) == 0 { 9 + g.below(300) } else if g.pct(12) { 0 } else { 1 + g.below(7) };
        ahead(g, n as usize)
    };
    with_total(g, r)
}
/// The longest lists, and lists one too long: fallocates and punches.
pub fn large(g: &mut Rng) -> Request {
    let n = g.pick(&[65536, 65536, 65536, 65535, 65537]);
    let r = ahead(g, n);
    let mut r = with_total(g, r);
    if let (Op::Fallocate(o, n, _), true) = (r.op, g.pct(50)) { r.op = Op::Punch(o, n); }
    r
}
fn with_total(g: &mut Rng, mut r: Request) -> Request {
    if let Op::Punch(o, n) = r.op { r.op = Op::Fallocate(o, n, g.pct(50)); }
    let Op::Fallocate(_, n, _) = r.op else { unreachable!() };
    let sum = holes(&r);
    r.total = match g.below(10) {
        0..=2 => sum, 3 => sum.wrapping_sub(1), 4 => sum + 1, 5 => sum.wrapping_add(g.pick(&[r.sector, r.sector.wrapping_neg()])), 6 => g.next() >> g.below(64), 7 => g.pick(&[0, u64::MAX]), _ => 1 << 37,
    };
    // a range this long could have holes this long once an item of it is broken or left out
    if n >= MOST - (1 << 20) && r.total >= MOST { r.total = if g.pct(30) { MOST } else { r.total % MOST }; }
    r
}
/// A file with gaps, some longer than a piece, and a size at or inside a sector of any of its parts.
fn ahead(g: &mut Rng, n: usize) -> Request {
    let sector = if g.pct(50) { 4096 } else { g.pick(&[8192u64, 16384, 32768, 65536]) };
    let clean = g.pct(70);
    let far = g.pct(25);
    let long = |g: &mut Rng| (PIECE / sector * g.pick(&[1, 1, 1, 2, 3, 40])).saturating_add_signed(g.pick(&[-1, 0, 0, 1, 2]));
    let mut shape = Vec::new();
    for _ in 0..n {
        let gap = if far && g.pct(40) && n < 9 { long(g) } else if g.pct(45) { 0 } else { 1 + g.below(3) };
        let len = if far && g.pct(5) { long(g) } else if g.pct(50) { 1 } else { 1 + g.below(5) };
        shape.push((gap, len));
    }
    let all: u64 = shape.iter().map(|(a, b)| a + b).sum::<u64>() * sector;
    let base = match g.below(100) { 0..=74 => 0, 75..=84 => g.below(4) * sector, 85..=91 => TOP - all, 92..=94 => TOP - all - sector * (1 + g.below(3)), _ => 1 << 40 };
    let mut spans = Vec::new();
    let mut p = base;
    for &(gap, len) in &shape { let key = p + gap * sector; p = key + len * sector; spans.push((key, len * sector)); }
    let mut edges = vec![base, p];
    for &(k, n) in &spans { edges.extend([k, k + n]); }
    let near = |g: &mut Rng, edges: &[u64]| -> u64 {
        let s = sector as i128;
        let d = match g.below(14) {
            0..=3 => 0, 4 => 1, 5 => -1, 6 => g.below(sector) as i128, 7 => -(g.below(sector) as i128), 8 => s, 9 => -s, 10 => s / 2,
            11 => s * (g.below(6) as i128) + g.below(sector) as i128, 12 => -s * (g.below(6) as i128) - g.below(sector) as i128, _ => g.pick(&[s - 1, s + 1, 1 - s, -1 - s]),
        };
        (g.pick(edges) as i128 + d).clamp(0, (TOP - 1) as i128) as u64
    };
    let size = match g.below(20) {
        0..=2 => p.min(TOP - 1), 3..=6 => near(g, &edges), 7..=10 => (g.pick(&edges) + 1 + g.below(sector - 1)).min(TOP - 1),
        11..=16 => match n { 0 => 1 + g.below(3 * sector), n => { let (k, l) = spans[g.below(n as u64) as usize]; k + 1 + g.below(l - 1) } },
        17 => TOP - 1 - g.below(2 * sector), 18 => 0, _ => g.below(p.max(1)).min(TOP - 1),
    };
    // extents: one to three, each laid along the file from an origin of its own
    let m = 1 + g.below(3);
    let starts: Vec<u64> = (1..=m).map(|i| (i << 40) + if g.pct(5) { g.below(5000) } else { 0 }).collect();
    let shift: Vec<u64> = (0..m).map(|_| sector * g.below(6)).collect();
    let regular = g.pick(&[15, 50, 85]);
    let long_list = n > 1000; // one odd record in a hundred would have all of them refused
    let past = if long_list { 0 } else { g.pick(&[0, 0, 0, 10, 50]) }; // regular items past the size
    let hole = if long_list { 0 } else { g.pick(&[0, 0, 0, 3, 15]) };
    let odd = if clean { g.pick(&[0, 0, 5]) } else { 25 };
    let mut items = Vec::new();
    let mut count = vec![0u64; m as usize];
    let mut need = vec![sector; m as usize];
    let mut e = g.below(m) as usize;
    for &(key, length) in &spans {
        if g.pct(25) { e = g.below(m) as usize; }
        let position = if g.pct(odd) { sector * g.below(20) + if g.pct(10) { g.below(5000) } else { 0 } } else { (key - base).wrapping_add(shift[e]) };
        let kind = if g.pct(if key >= size { past } else { regular }) { 1 } else { 2 };
        let gone = g.pct(hole);
        let mut s = ItemSpec {
            generation: g.below(9), ram: if g.pct(80) { length } else { g.next() }, compression: if g.pct(odd / 4) { g.pick(&[1, 2, 255]) } else { 0 }, encryption: 0, other: 0, kind,
            start: if gone { 0 } else { starts[e] }, disk: if g.pct(80) { 64 * sector } else { g.next() }, position, length,
        };
        if !clean && !long_list && g.pct(1) { match g.below(4) { 0 => s.encryption = 1, 1 => s.other = g.pick(&[1, 256]), 2 => s.kind = 0, _ => s.kind = 3 } }
        if !clean && g.pct(1) { s.position = u64::MAX - length - g.below(2); } else if !gone { need[e] = need[e].max(position + length); }
        if !gone { count[e] += 1; }
        items.push((key, data(&s)));
    }
    let snapshot = if g.pct(80) { 5 } else { g.pick(&[0, 6, u64::MAX]) };
    let mut rows = Vec::new();
    for i in 0..m as usize {
        if !clean && g.pct(12) { continue; }
        let length = match g.below(20) { 0..=13 => need[i].max(64 * sector), 14..=16 => need[i], _ => if clean { need[i] + 1 } else { need[i] - g.pick(&[1, sector - 1]) } }.clamp(1, 1 << 39);
        let refs = if g.pct(if clean { 95 } else { 70 }) { count[i] } else { g.pick(&[0, 1, 2, count[i] + 1, u64::MAX]) };
        rows.push([starts[i], length, refs, if g.pct(95) { 6 } else { g.below(8) }, (!clean && g.pct(12)) as u64]);
    }
    let n = items.len();
    let shared = if g.pct(85) { vec![0; n] } else { (0..n).map(|_| g.pct(25) as u8).collect() };
    // the range, often about the size
    edges.extend([size, size, size / sector * sector]);
    let mut a = if g.pct(10) { size } else { near(g, &edges) };
    let mut b = match g.below(20) {
        0..=9 => near(g, &edges), 10 => size, 11 => size + 1, 12 => size.saturating_sub(1), 13 => a + 1 + g.below(sector), 14 => a.saturating_add(g.below(9 * sector)),
        15 => (size / sector + 1 + g.below(3)) * sector, 16 | 17 => (a as i128 + (PIECE * g.pick(&[1, 2, 3, 30, 255])) as i128 + g.pick(&[0, 0, 1, -1, sector as i128, -(sector as i128)])) as u64, _ => p + g.below(4 * sector),
    }.min(TOP - 1);
    a = a.min(TOP - 1);
    if b < a { std::mem::swap(&mut a, &mut b); }
    if b <= size && g.pct(40) { b = (size + 1 + g.below(3 * sector)).min(TOP - 1); }
    if a == b && g.pct(95) { if b < TOP - 1 { b += 1 } else { a -= 1 } }
    let (mut offset, mut length) = (a, b - a);
    if g.below(200) == 0 { match g.below(4) { 0 => length = TOP - offset, 1 => length = u64::MAX - offset, 2 => length = u64::MAX, _ => offset = u64::MAX - g.below(3) } }
    let generation = match g.below(100) { 0 => u64::MAX, 1 => u64::MAX - 1, _ => 8 };
    Request {
        sector, total: 0,
        facts: Facts { files: vec![FileFacts { ino: if g.pct(95) { 257 } else { u64::MAX }, size, nodatacow: g.pct(10), items, shared }], rows, generation, snapshot, places: None },
        op: Op::Fallocate(offset, length, g.pct(50)),
    }
}
/// Places for extents of these lengths: right ones mostly.
pub fn places(g: &mut Rng, r: &Request, wanted: &[u64]) -> Vec<u64> {
    let s = r.sector;
    let mut at = 1 << 52;
    let mut v: Vec<u64> = Vec::new();
    for n in wanted { v.push(at); at += n + if g.pct(50) { 0 } else { g.pick(&[1, s, 3 * s]) }; }
    if g.pct(20) {
        // from the last to the first
        at = 1 << 60;
        for (p, n) in v.iter_mut().zip(wanted) { at -= n + if g.pct(50) { 0 } else { g.pick(&[1, s]) }; *p = at; }
    }
    if g.pct(75) { return v; }
    match g.below(8) {
        0 => { v.pop(); }
        1 => v.push((1 << 61) + g.below(9)),
        2 => v = (0..g.below(5)).map(|i| (1 << 53) + i * s).collect(),
        _ => {
            if v.is_empty() { if g.pct(50) { v.push(g.below(3)); } return v; }
            let i = g.below(v.len() as u64) as usize;
            let j = g.below(v.len() as u64) as usize;
            let n = wanted[i];
            v[i] = match g.below(8) {
                0 => 0,
                1 => u64::MAX - n + g.below(3) - 1,
                2 if i != j => v[j],
                3 | 4 if i != j => g.pick(&[v[j] + 1, v[j] + wanted[j] - 1, v[j] + wanted[j], v[j] + wanted[j] + 1, v[j] - n, v[j] - n + 1, v[j] - n - 1]),
                _ => match r.facts.rows.len() { 0 => 1, k => {
                    let row = r.facts.rows[g.below(k as u64) as usize];
                    match g.below(6) { 0 => row[0], 1 => row[0] + row[1], 2 => row[0] + row[1] - 1, 3 => row[0].saturating_sub(n), 4 => row[0].saturating_sub(n - 1), _ => row[0].wrapping_add(g.below(row[1])) }
                } }
            };
        }
    }
    v
}
/// Chooses the places of a punch or fallocate; the Rust says how many it wants.
pub fn choose_places(g: &mut Rng, r: &mut Request) {
    if matches!(r.op, Op::Clone(..)) { return; }
    let (_, wanted) = crate::oracle::run(r);
    r.facts.places = Some(places(g, r, &wanted));
}
