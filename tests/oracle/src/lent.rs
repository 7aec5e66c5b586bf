// What a call is lent, as bytes and numbers, and refusals 1 to 4 by a plain reading of document 01.
use crate::oracle::{Op, Request};
pub fn list_bytes(ino: u64, items: &[(u64, Vec<u8>)]) -> Vec<u8> {
    let mut v = Vec::with_capacity(items.len() * 70);
    for (k, d) in items { v.extend(ino.to_le_bytes()); v.push(108); v.extend(k.to_le_bytes()); v.extend(d); }
    v
}
/// What is lent, but for outputs.
#[derive(Clone)]
#[cfg_attr(not(ours), allow(dead_code))]
pub struct Lent {
    pub sector: u64, pub total: u64, pub generation: u64, pub snapshot: u64, pub ino: u64, pub size: u64, pub nodatacow: bool, pub op: Op,
    pub list: Vec<u8>, pub shared: Vec<u8>, pub table: Vec<u64>, pub places: Vec<u64>,
    /// a clone's source; with `own` it must not be looked at
    pub own: bool, pub source_ino: u64, pub source_size: u64, pub source: Vec<u8>,
}
fn u(b: &[u8]) -> u64 { u64::from_le_bytes(b[..8].try_into().unwrap()) }
impl Lent {
    pub fn new(r: &Request) -> Lent {
        let f = &r.facts.files[0];
        let own = r.facts.files.len() == 1;
        let (source_ino, source_size, source) = match r.facts.files.get(1) {
            Some(s) => (s.ino, s.size, list_bytes(s.ino, &s.items)),
            None => (f.ino ^ (r.total & 1), u64::MAX, vec![0xee; (r.total % 200) as usize]),
        };
        Lent {
            sector: r.sector, total: r.total, generation: r.facts.generation, snapshot: r.facts.snapshot, ino: f.ino, size: f.size, nodatacow: f.nodatacow, op: r.op,
            list: list_bytes(f.ino, &f.items), shared: f.shared.clone(), table: r.facts.rows.iter().flatten().copied().collect(), places: r.facts.places.clone().unwrap_or_default(),
            own, source_ino, source_size, source,
        }
    }
    fn two(&self) -> bool { matches!(self.op, Op::Clone(..)) && !self.own }
    fn lists(&self) -> Vec<(&[u8], u64)> {
        let mut v: Vec<(&[u8], u64)> = vec![(&self.list, self.ino)];
        if self.two() { v.push((&self.source, self.source_ino)); }
        v
    }
    /// "Every operation: 1 .. 4", pair by pair, in 128 bits; 0 if none is due.
    pub fn refusal(&self) -> u8 {
        let l = self;
        let lists = l.lists();
        if lists.iter().any(|(b, _)| b.len() % 70 != 0 || b.len() / 70 > 65536) || l.table.len() % 5 != 0 || l.table.len() / 5 > 65536 { return 1; }
        if l.shared.len() != l.list.len() / 70 || l.shared.iter().any(|b| *b > 1) { return 1; }
        let held = |b: &[u8]| -> Vec<(u128, u128)> { b.chunks(70).filter(|r| matches!(r[37], 1 | 2)).map(|r| (u(&r[9..]) as u128, u(&r[62..]) as u128)).collect() };
        for (b, ino) in &lists {
            let recs: Vec<&[u8]> = b.chunks(70).collect();
            for (i, r) in recs.iter().enumerate() {
                if u(r) != *ino || r[8] != 108 { return 2; }
                if recs[..i].iter().any(|q| u(&q[9..]) >= u(&r[9..])) { return 2; }
                if matches!(r[37], 1 | 2) && u(&r[54..]) as u128 + u(&r[62..]) as u128 > u64::MAX as u128 { return 2; }
            }
            let held = held(b);
            for (i, &(k, n)) in held.iter().enumerate() {
                if n < 1 || k + n > 1 << 63 { return 2; }
                if held[..i].iter().any(|&(l, m)| k < l + m && l < k + n) { return 2; }
            }
        }
        if l.two() && l.ino == l.source_ino { return 2; }
        let rows: Vec<&[u64]> = l.table.chunks(5).collect();
        for (i, r) in rows.iter().enumerate() {
            let end = r[0] as u128 + r[1] as u128;
            if r[0] == 0 || r[1] == 0 || end > u64::MAX as u128 || r[4] > 1 { return 3; }
            if i + 1 < rows.len() && (rows[i + 1][0] <= r[0] || end > rows[i + 1][0] as u128) { return 3; }
        }
        let s = l.sector;
        if !s.is_power_of_two() || !(4096..=65536).contains(&s) || l.size >= 1 << 63 || l.two() && l.source_size >= 1 << 63 { return 4; }
        if lists.iter().any(|(b, _)| held(b).iter().any(|&(k, n)| k % s as u128 != 0 || n % s as u128 != 0)) { return 4; }
        0
    }
    /// Request `r` with what is lent here; None: extplan's text has no words for it.
    pub fn request(&self, r: &Request) -> Option<Request> {
        let sayable = |b: &[u8], ino: u64| b.len() % 70 == 0 && b.chunks(70).all(|c| u(c) == ino && c[8] == 108);
        if self.lists().iter().any(|(b, ino)| !sayable(b, *ino)) || self.shared.len() != self.list.len() / 70 || self.table.len() % 5 != 0 { return None; }
        let items = |b: &[u8]| -> Vec<(u64, Vec<u8>)> { b.chunks(70).map(|c| (u(&c[9..]), c[17..].to_vec())).collect() };
        let mut r = r.clone();
        r.sector = self.sector;
        let x = &mut r.facts.files;
        x[0].size = self.size;
        x[0].shared = self.shared.clone();
        x[0].items = items(&self.list);
        if self.two() { x[1].ino = self.source_ino; x[1].size = self.source_size; x[1].items = items(&self.source); x[1].shared = vec![0; x[1].items.len()]; }
        r.facts.rows = self.table.chunks(5).map(|c| [c[0], c[1], c[2], c[3], c[4]]).collect();
        Some(r)
    }
}
