// The requests that are timed, each of n records (a power of two). Records are four sectors long. Extents, reference offsets and
// places are scattered: neighbours in the file are not neighbours on the volume, so no side gets its keys sorted.
use crate::fs::{Facts, FileFacts};
use crate::gen::{data, ItemSpec};
use crate::oracle::{Op, Plan, Request};

/// What is due: a plan of so many lines in all outputs, a refusal on both sides, or one that the Rust is not asked for.
#[derive(Clone, Copy)]
pub enum Due { Lines(usize), Refused(u8), Ours(u8) }
pub struct Workload { pub name: &'static str, pub make: fn(usize) -> Request, pub due: fn(usize) -> Due, /// beside one pass over list and table
    pub pass: bool }
pub const ALL: &[Workload] = &[
    Workload { name: "punch one item", make: punch_one, due: |_| Due::Lines(2), pass: true },
    Workload { name: "punch all, own extents", make: punch_own, due: |n| Due::Lines(2 * n), pass: false },
    Workload { name: "punch all, one extent", make: punch_same, due: |n| Due::Lines(2 * n), pass: false },
    Workload { name: "punch all, in place", make: punch_in_place, due: |n| Due::Lines(2 * n), pass: false },
    Workload { name: "fallocate over holes", make: fallocate_holes, due: |n| Due::Lines(2 * n), pass: false },
    Workload { name: "clone all", make: clone_all, due: |n| Due::Lines(2 * n), pass: false },
    Workload { name: "refused 5", make: refused_5, due: |_| Due::Refused(5), pass: true },
    Workload { name: "refused 12", make: refused_12, due: |_| Due::Refused(12), pass: true },
    Workload { name: "refused 26, huge", make: refused_26, due: |_| Due::Ours(26), pass: true },
];
pub fn lines(p: &Plan) -> usize { p.edits.len() + p.shares.len() + p.unrefs.len() + p.releases.len() + p.adds.len() + p.writes.len() }

const SECTOR: u64 = 4096;
const LONG: u64 = 4 * SECTOR;
const FIRST: u64 = 1 << 30;
/// Each of 0 .. n - 1 once.
fn scattered(i: usize, n: usize) -> u64 { (i.wrapping_mul(40503) & (n - 1)) as u64 }
fn item(kind: u8, start: u64, disk: u64, position: u64) -> Vec<u8> {
    data(&ItemSpec { generation: 6, ram: LONG, compression: 0, encryption: 0, other: 0, kind, start, disk, position, length: LONG })
}
fn file(ino: u64, size: u64, items: Vec<(u64, Vec<u8>)>) -> FileFacts { FileFacts { ino, size, nodatacow: false, shared: vec![0; items.len()], items } }
fn request(files: Vec<FileFacts>, rows: Vec<[u64; 5]>, places: Vec<u64>, op: Op) -> Request {
    Request { sector: SECTOR, total: 1 << 50, facts: Facts { files, rows, generation: 8, snapshot: 5, places: Some(places) }, op }
}
/// n items, one every `step` bytes, each the whole of an extent of its own, and the rows.
fn own(n: usize, step: u64) -> (Vec<(u64, Vec<u8>)>, Vec<[u64; 5]>) {
    let at = |e: u64| FIRST + 2 * LONG * e;
    ((0..n).map(|i| (i as u64 * step, item(1, at(scattered(i, n)), LONG, 0))).collect(), (0..n as u64).map(|e| [at(e), LONG, 1, 6, 0]).collect())
}
/// n items, one behind the other, of one extent at n reference offsets.
fn same(n: usize, kind: u8) -> (Vec<(u64, Vec<u8>)>, Vec<[u64; 5]>) {
    let disk = 2 * n as u64 * LONG;
    ((0..n).map(|i| (i as u64 * LONG, item(kind, FIRST, disk, (i as u64 + scattered(i, n)) * LONG))).collect(), vec![[FIRST, disk, n as u64, 6, 0]])
}
fn end(n: usize) -> u64 { n as u64 * LONG }
fn punch((items, rows): (Vec<(u64, Vec<u8>)>, Vec<[u64; 5]>), from: u64, to: u64) -> Request {
    let size = end(items.len());
    request(vec![file(257, size, items)], rows, Vec::new(), Op::Punch(from, to - from))
}
/// The item in the middle: a delete and a release.
fn punch_one(n: usize) -> Request { punch(own(n, LONG), end(n / 2), end(n / 2) + LONG) }
/// n deletes and n releases.
fn punch_own(n: usize) -> Request { punch(own(n, LONG), 0, end(n)) }
/// The same of one extent.
fn punch_same(n: usize) -> Request { punch(same(n, 1), 0, end(n)) }
/// A part of the first sector is kept: it is written in place; a put, n - 1 deletes, n - 1 unrefs and a write.
fn punch_in_place(n: usize) -> Request { punch(same(n, 2), 100, end(n)) }
/// A hole behind each item: n puts and n adds, at scattered places.
fn fallocate_holes(n: usize) -> Request {
    let (items, rows) = own(n, 2 * LONG);
    let places = (0..n).map(|i| (1 << 50) + LONG * scattered(i, n)).collect();
    request(vec![file(257, 2 * end(n), items)], rows, places, Op::Fallocate(0, 2 * end(n), false))
}
/// Into an empty file: n puts and n shares.
fn clone_all(n: usize) -> Request {
    let (items, rows) = own(n, LONG);
    request(vec![file(257, 0, Vec::new()), file(258, end(n), items)], rows, Vec::new(), Op::Clone(0, 0, 0))
}
fn refused_5(n: usize) -> Request { Request { op: Op::Punch(0, 0), ..punch_own(n) } }
/// The holes are a byte more than the volume.
fn refused_12(n: usize) -> Request { Request { total: end(n) - 1, ..fallocate_holes(n) } }
/// Holes of nearly 2^62 bytes, and as many places as records. The Rust would lay all pieces out first; it is not asked.
fn refused_26(n: usize) -> Request { Request { total: u64::MAX, op: Op::Fallocate(0, 1 << 62, true), ..fallocate_holes(n) } }
