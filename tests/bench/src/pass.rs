// One pass over what is lent: every field of each record and of each row read once, and nothing decided.
use crate::lent::Lent;
fn number(b: &[u8], at: usize) -> u64 { u64::from_le_bytes(b[at..at + 8].try_into().unwrap()) }
fn list(b: &[u8]) -> u64 {
    let mut x = 0u64;
    for r in b.chunks_exact(70) {
        for at in [0, 9, 17, 25, 38, 46, 54, 62] { x = x.wrapping_add(number(r, at)); }
        for at in [8, 33, 34, 35, 36, 37] { x = x.wrapping_add(r[at] as u64); }
    }
    x
}
pub fn read(l: &Lent) -> u64 {
    let mut x = list(&l.list);
    if !l.own { x = x.wrapping_add(list(&l.source)); }
    for s in &l.shared { x = x.wrapping_add(*s as u64); }
    for r in l.table.chunks_exact(5) { for n in r { x = x.wrapping_add(*n); } }
    x
}
