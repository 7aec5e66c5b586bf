// Applying, by a plain reading of document 01 ("The leaves", last paragraph) and of docs/DECISIONS.md ("Applying"). The items after a
// plan are the Rust's own `items_after`; all else is ours. Refusals 1 to 4 of a list and a table are those of `src/lent.rs`.
use crate::chunk::DiskKey;
use crate::clone::{order, Edits};
use crate::leaf_edit::OwnedItem;
use crate::lent::Lent;
use crate::oracle::Op;
use crate::transaction::ItemEdit;
use std::collections::BTreeMap;
include!("../sources/items_after.rs");

/// What applying is lent, with how many numbers of `answer`.
#[derive(Clone)]
pub struct Call {
    pub sector: u64, pub generation: u64, pub number: u64, pub items: usize, pub rows: usize, pub list: Vec<u8>, pub table: Vec<u64>,
    pub edits: Vec<u8>, pub shares: Vec<u64>, pub unrefs: Vec<u64>, pub releases: Vec<u64>, pub adds: Vec<u64>, pub answer: usize,
}
/// The records and rows after a plan.
pub struct After { pub records: Vec<Vec<u8>>, pub rows: Vec<[u64; 5]> }

pub fn key(record: &[u8]) -> u64 { u64::from_le_bytes(record[9..17].try_into().unwrap()) }
/// 1 to 4 of a list and a table alone.
fn refusal(c: &Call, list: &[u8], table: &[u64]) -> u8 {
    Lent {
        sector: c.sector, total: 0, generation: 0, snapshot: 0, ino: c.number, size: 0, nodatacow: false, op: Op::Punch(0, 1),
        list: list.to_vec(), shared: vec![0; list.len() / 70], table: table.to_vec(), places: Vec::new(), own: true, source_ino: 0, source_size: 0, source: Vec::new(),
    }.refusal()
}
/// The list after the edits: keys and data by the Rust; a put brings its own number and type.
fn records(list: &[u8], edits: &[u8]) -> Vec<Vec<u8>> {
    let disk = |r: &[u8]| DiskKey { objectid: u64::from_le_bytes(r[..8].try_into().unwrap()), key_type: r[8], offset: key(r) };
    let items: Vec<(DiskKey, Vec<u8>)> = list.chunks(70).map(|r| (disk(r), r[17..].to_vec())).collect();
    let mut heads: BTreeMap<u64, Vec<u8>> = list.chunks(70).map(|r| (key(r), r[..17].to_vec())).collect();
    let mut by_key = Edits::new();
    for e in edits.chunks(71) {
        let k = disk(&e[1..]);
        if e[0] == 1 { heads.insert(k.offset, e[1..18].to_vec()); }
        by_key.insert(order(&k), if e[0] == 1 { ItemEdit::Put(OwnedItem { key: k, data: e[18..].to_vec() }) } else { ItemEdit::Delete(k) });
    }
    items_after(&items, &by_key).into_iter().map(|(k, d)| [heads[&k].clone(), d].concat()).collect()
}
/// What is due: the result, or a refusal's number and which test it failed.
pub fn due(c: &Call) -> Result<After, (u8, &'static str)> {
    if c.items > c.list.len() / 70 || c.rows > c.table.len() / 5 { return Err((1, "a count")); }
    if c.edits.len() % 71 != 0 || [&c.shares, &c.unrefs, &c.releases].iter().any(|v| v.len() % 2 != 0) || c.adds.len() % 3 != 0 { return Err((1, "a part's length")); }
    if c.edits.chunks(71).any(|e| e[0] != 1 && e[0] != 2) { return Err((1, "a tag")); }
    let (list, table) = (&c.list[..c.items * 70], &c.table[..c.rows * 5]);
    let lent = refusal(c, list, table);
    match lent { 1 => return Err((1, "over-long")), 2 => return Err((2, "the list")), _ => () }
    let keys: Vec<u64> = c.edits.chunks(71).map(|e| key(&e[1..])).collect();
    if keys.windows(2).any(|w| w[0] >= w[1]) { return Err((2, "the edits")); }
    if lent != 0 { return Err((lent, if lent == 3 { "the table" } else { "sector, or not whole sectors" })); }
    // the result
    let records = records(list, &c.edits);
    let times = |lines: &[u64], start: u64| lines.chunks(2).filter(|l| l[0] == start).count() as i128;
    let released = |start: u64| times(&c.releases, start) > 0;
    let net = |r: &[u64]| r[2] as i128 + times(&c.shares, r[0]) - times(&c.unrefs, r[0]) - times(&c.releases, r[0]);
    let mut rows: Vec<[u64; 5]> = table.chunks(5).filter(|r| !released(r[0])).map(|r| [r[0], r[1], net(r) as u64, r[3], r[4]]).collect();
    rows.extend(c.adds.chunks(3).map(|a| [a[0], a[1], 1, c.generation, 0]));
    rows.sort();
    if records.len() > 65536 || rows.len() > 65536 { return Err((1, "an over-long result")); }
    let starts: std::collections::BTreeSet<u64> = table.chunks(5).map(|r| r[0]).collect();
    if [&c.shares, &c.unrefs, &c.releases].iter().any(|v| v.chunks(2).any(|l| !starts.contains(&l[0]))) { return Err((14, "a row is missing")); }
    if table.chunks(5).any(|r| !(0..=u64::MAX as i128).contains(&net(r))) { return Err((3, "a net count")); }
    if refusal(c, &records.concat(), &[]) != 0 { return Err((2, "the list's result")); }
    if refusal(c, &[], &rows.concat()) != 0 { return Err((3, "the table's result")); }
    if records.len() > c.list.len() / 70 || rows.len() > c.table.len() / 5 { return Err((27, "no room")); }
    Ok(After { records, rows })
}
