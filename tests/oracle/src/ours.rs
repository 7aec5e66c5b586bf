// Our side: the proved operations and applying, linked from libzagxuli.a (include/zagxuli.h).
use crate::applying::Call;
use crate::lent::Lent;
use crate::oracle::{Op, Outcome, Plan};
extern "C" {
    fn zag_punch(
        sector: u64, total: u64, generation: u64, snapshot: u64, number: u64, size: u64, nodatacow: bool, offset: u64, length: u64,
        list: *const u8, list_n: u64, shared: *const u8, shared_n: u64, table: *const u64, table_n: u64, places: *const u64, places_n: u64,
        edits: *mut u8, edits_n: u64, shares: *mut u64, shares_n: u64, unrefs: *mut u64, unrefs_n: u64,
        releases: *mut u64, releases_n: u64, adds: *mut u64, adds_n: u64, writes: *mut u64, writes_n: u64,
        answer: *mut u64, answer_n: u64,
    ) -> u8;
    fn zag_fallocate(
        sector: u64, total: u64, generation: u64, snapshot: u64, number: u64, size: u64, nodatacow: bool, offset: u64, length: u64, keep: bool,
        list: *const u8, list_n: u64, shared: *const u8, shared_n: u64, table: *const u64, table_n: u64, places: *const u64, places_n: u64,
        edits: *mut u8, edits_n: u64, shares: *mut u64, shares_n: u64, unrefs: *mut u64, unrefs_n: u64,
        releases: *mut u64, releases_n: u64, adds: *mut u64, adds_n: u64, writes: *mut u64, writes_n: u64,
        answer: *mut u64, answer_n: u64,
    ) -> u8;
    fn zag_clone(
        sector: u64, total: u64, generation: u64, snapshot: u64, number: u64, size: u64, source_number: u64, source_size: u64, own: bool, from: u64, to: u64, length: u64,
        list: *const u8, list_n: u64, shared: *const u8, shared_n: u64, source: *const u8, source_n: u64, table: *const u64, table_n: u64,
        edits: *mut u8, edits_n: u64, shares: *mut u64, shares_n: u64, unrefs: *mut u64, unrefs_n: u64,
        releases: *mut u64, releases_n: u64,
        answer: *mut u64, answer_n: u64,
    ) -> u8;
    fn zag_apply(
        sector: u64, generation: u64, number: u64, items: u64, rows: u64, list: *mut u8, list_n: u64, table: *mut u64, table_n: u64,
        edits: *const u8, edits_n: u64, shares: *const u64, shares_n: u64, unrefs: *const u64, unrefs_n: u64,
        releases: *const u64, releases_n: u64, adds: *const u64, adds_n: u64,
        answer: *mut u64, answer_n: u64,
    ) -> u8;
}
const E: u8 = 0xa5;
pub const W: u64 = 0xa5a5_5a5a_1234_4321;
/// Outputs (edits in bytes, the others in numbers) and `answer`, filled with what no call may touch past its plan.
pub struct Outputs { pub edits: Vec<u8>, pub lines: [Vec<u64>; 5], pub answer: Vec<u64> }
impl Outputs {
    pub fn new(rooms: [usize; 6], numbers: usize) -> Outputs {
        Outputs { edits: vec![E; rooms[0]], lines: [1, 2, 3, 4, 5].map(|i| vec![W; rooms[i]]), answer: vec![W; numbers] }
    }
    /// One call, and its byte: 0 a plan, 100 nothing, else the refusal.
    pub fn call(&mut self, l: &Lent) -> u8 {
        let out = |v: &mut Vec<u64>| (v.as_mut_ptr(), v.len() as u64);
        let (e, en) = (self.edits.as_mut_ptr(), self.edits.len() as u64);
        let [s, u, r, d, w] = &mut self.lines;
        let ((s, sn), (u, un), (r, rn), (d, dn), (w, wn), (a, an)) = (out(s), out(u), out(r), out(d), out(w), out(&mut self.answer));
        macro_rules! call {
            ($f:ident, $offset:expr, $length:expr $(, $keep:expr)?) => {
                $f(
                    l.sector, l.total, l.generation, l.snapshot, l.ino, l.size, l.nodatacow, $offset, $length $(, $keep)?,
                    l.list.as_ptr(), l.list.len() as u64, l.shared.as_ptr(), l.shared.len() as u64, l.table.as_ptr(), l.table.len() as u64, l.places.as_ptr(), l.places.len() as u64,
                    e, en, s, sn, u, un, r, rn, d, dn, w, wn, a, an,
                )
            };
        }
        unsafe {
            match l.op {
                Op::Punch(o, n) => call!(zag_punch, o, n),
                Op::Fallocate(o, n, keep) => call!(zag_fallocate, o, n, keep),
                Op::Clone(from, to, n) => zag_clone(
                    l.sector, l.total, l.generation, l.snapshot, l.ino, l.size, l.source_ino, l.source_size, l.own, from, to, n,
                    l.list.as_ptr(), l.list.len() as u64, l.shared.as_ptr(), l.shared.len() as u64, l.source.as_ptr(), l.source.len() as u64, l.table.as_ptr(), l.table.len() as u64,
                    e, en, s, sn, u, un, r, rn, a, an,
                ),
            }
        }
    }
}
/// The outcome with outputs of these lengths, and what is broken about the outputs.
pub fn run(l: &Lent, rooms: [usize; 6]) -> (Outcome, Option<String>) { with_answer(l, rooms, 12) }
/// The same with so many numbers of `answer`.
pub fn with_answer(l: &Lent, rooms: [usize; 6], numbers: usize) -> (Outcome, Option<String>) {
    let mut outputs = Outputs::new(rooms, numbers);
    let code = outputs.call(l);
    let Outputs { edits: e, lines: o, answer: a } = outputs;
    let untouched = |from: [usize; 6]| -> Option<String> {
        if e[from[0]..].iter().any(|b| *b != E) { return Some("edits past the plan changed".into()); }
        for i in 0..5 { if o[i][from[i + 1]..].iter().any(|b| *b != W) { return Some(format!("output {} past the plan changed", i + 1)); } }
        None
    };
    if code != 0 {
        let bad = if a.iter().any(|x| *x != W) { Some("numbers of no plan".into()) } else { untouched([0; 6]) };
        return (if code == 100 { Outcome::Nothing } else { Outcome::Refused(code) }, bad);
    }
    if numbers < 9 { return (Outcome::Panicked("a plan without its numbers".into()), None); }
    let width = [71, 2, 2, 2, 3, 4];
    let mut used = [0; 6];
    for i in 0..6 {
        used[i] = a[i] as usize * width[i];
        if used[i] > rooms[i] { return (Outcome::Panicked("more lines than room".into()), None); }
    }
    let mut p = Plan { size: a[6], bytes: a[7], prealloc: a[8] == 1, ..Default::default() };
    let mut bad = untouched(used);
    if a[8] > 1 { bad = Some("a mark over 1".into()); }
    if a[9..].iter().any(|x| *x != W) { bad = Some("numbers past the ninth changed".into()); }
    for c in e[..used[0]].chunks(71) {
        if c[1..9] != l.ino.to_le_bytes() || c[9] != 108 { bad = Some("an edit's number or type".into()); }
        let key = u64::from_le_bytes(c[10..18].try_into().unwrap());
        match c[0] {
            1 => p.edits.push((key, Some(c[18..].to_vec()))),
            2 => { if c[18..].iter().any(|b| *b != 0) { bad = Some("data of a delete".into()); } p.edits.push((key, None)) }
            _ => bad = Some("an edit's tag".into()),
        }
    }
    let two = |v: &[u64]| v.chunks(2).map(|c| [c[0], c[1]]).collect();
    p.shares = two(&o[0][..used[1]]);
    p.unrefs = two(&o[1][..used[2]]);
    p.releases = two(&o[2][..used[3]]);
    p.adds = o[3][..used[4]].chunks(3).map(|c| [c[0], c[1], c[2]]).collect();
    p.writes = o[4][..used[5]].chunks(4).map(|c| [c[0], c[1], c[2], c[3]]).collect();
    (Outcome::Plan(p), bad)
}
/// Applying to a list, a table and an `answer` that are there, and its byte.
pub fn apply_to(c: &Call, list: &mut [u8], table: &mut [u64], answer: &mut [u64]) -> u8 {
    unsafe {
        zag_apply(
            c.sector, c.generation, c.number, c.items as u64, c.rows as u64, list.as_mut_ptr(), list.len() as u64, table.as_mut_ptr(), table.len() as u64,
            c.edits.as_ptr(), c.edits.len() as u64, c.shares.as_ptr(), c.shares.len() as u64, c.unrefs.as_ptr(), c.unrefs.len() as u64,
            c.releases.as_ptr(), c.releases.len() as u64, c.adds.as_ptr(), c.adds.len() as u64,
            answer.as_mut_ptr(), answer.len() as u64,
        )
    }
}
/// Applying: the byte, and the list, the table and `answer` after it.
pub fn apply(c: &Call) -> (u8, Vec<u8>, Vec<u64>, Vec<u64>) {
    let (mut list, mut table, mut a) = (c.list.clone(), c.table.clone(), vec![W; c.answer]);
    let code = apply_to(c, &mut list, &mut table, &mut a);
    (code, list, table, a)
}
