// Requests and outcomes in extplan's form (document 01).
use crate::oracle::{Op, Outcome, Request};
use crate::superblock::le64;
fn extra(d: &[u8]) -> String {
    let mut s = String::new();
    for (name, v) in [("generation", le64(d, 0)), ("ram", le64(d, 8)), ("compression", d[16] as u64), ("encryption", d[17] as u64), ("other", u16::from_le_bytes([d[18], d[19]]) as u64)] {
        if v != 0 { s += &format!(" ({name} {v})"); }
    }
    s
}
fn item(k: u64, d: &[u8]) -> String {
    format!("(key {k}) (kind {}) (extent {} {}) (window {} {}){}", d[20], le64(d, 21), le64(d, 29), le64(d, 37), le64(d, 45), extra(d))
}
pub fn request(r: &Request) -> String {
    let f = &r.facts;
    let mut s = format!("(volume (sector {}) (total {}) (generation {}) (snapshot {}))\n", r.sector, r.total, f.generation, f.snapshot);
    for x in &f.files {
        s += &format!("(file (number {}) (size {}) (cow {}))\n", x.ino, x.size, !x.nodatacow as u8);
        for ((k, d), sh) in x.items.iter().zip(&x.shared) {
            s += &format!("(item {}{})\n", item(*k, d), if *sh != 0 { format!(" (shared {sh})") } else { String::new() });
        }
    }
    for e in &f.rows { s += &format!("(extent (at {}) (len {}) (refs {}) (made {}) (keyed {}))\n", e[0], e[1], e[2], e[3], e[4]); }
    for p in f.places.iter().flatten() { s += &format!("(place {p})\n"); }
    s + &match r.op {
        Op::Punch(o, n) => format!("(punch (from {o}) (len {n}))\n"),
        Op::Fallocate(o, n, k) => format!("(fallocate (from {o}) (len {n}) (keep {}))\n", k as u8),
        Op::Clone(a, b, n) => format!("(clone (from {a}) (to {b}) (len {n}))\n"),
    }
}
pub fn outcome(o: &Outcome) -> String {
    let p = match o {
        Outcome::Nothing => return "(nothing)\n".into(),
        Outcome::Refused(n) => return format!("(refused {n})\n"),
        Outcome::Panicked(m) => return format!("(panicked {m})\n"),
        Outcome::Plan(p) => p,
    };
    let mut s = format!("(plan (size {}) (bytes {}) (prealloc {}))\n", p.size, p.bytes, p.prealloc as u8);
    for (k, d) in &p.edits { s += &match d { None => format!("(delete (key {k}))\n"), Some(d) => format!("(put {})\n", item(*k, d)) }; }
    for (w, v) in [("share", &p.shares), ("unref", &p.unrefs), ("release", &p.releases)] { for x in v { s += &format!("({w} (at {}) (ref {}))\n", x[0], x[1]); } }
    for a in &p.adds { s += &format!("(add (at {}) (len {}) (key {}))\n", a[0], a[1], a[2]); }
    for w in &p.writes { s += &format!("(write (key {}) (at {}) (zero {} {}))\n", w[0], w[1], w[2], w[3]); }
    s
}
