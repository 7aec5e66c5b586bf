// Applying a workload's plan to the list and the table. The Rust's side is `items_after`; for the table, which the Rust leaves to its
// commit, a plain map stands in. It checks nothing; ours checks list, table and plan.
use crate::applying::Call;
use crate::chunk::DiskKey;
use crate::clock::{clock, Time};
use crate::clone::{order, Edits};
use crate::leaf_edit::OwnedItem;
use crate::lent::{list_bytes, Lent};
use crate::oracle::{Plan, Request};
use crate::ours;
use crate::transaction::ItemEdit;
use std::collections::BTreeMap;
use std::hint::black_box;
use std::time::{Duration, Instant};
include!("../../oracle/sources/items_after.rs");

/// The call: the plan as an operation leaves it in its outputs, list and table with room for what is put and added.
fn call(l: &Lent, p: &Plan) -> Call {
    let mut edits = Vec::new();
    for (key, put) in &p.edits {
        edits.push(if put.is_some() { 1 } else { 2 });
        edits.extend(list_bytes(l.ino, &[(*key, put.clone().unwrap_or(vec![0; 53]))]));
    }
    let (mut list, mut table) = (l.list.clone(), l.table.clone());
    list.resize(list.len() + 70 * p.edits.len(), 0);
    table.resize(table.len() + 5 * p.adds.len(), 0);
    Call {
        sector: l.sector, generation: l.generation + 1, number: l.ino, items: l.list.len() / 70, rows: l.table.len() / 5, list, table, edits,
        shares: p.shares.concat(), unrefs: p.unrefs.concat(), releases: p.releases.concat(), adds: p.adds.concat(), answer: 2,
    }
}
/// Shares, unrefs and releases move the count, a released row goes, an add makes a row.
fn table_after(rows: &[[u64; 5]], p: &Plan, generation: u64) -> Vec<[u64; 5]> {
    let mut t: BTreeMap<u64, [u64; 5]> = rows.iter().map(|r| (r[0], *r)).collect();
    for s in &p.shares { t.get_mut(&s[0]).expect("a row")[2] += 1; }
    for s in &p.unrefs { t.get_mut(&s[0]).expect("a row")[2] -= 1; }
    for s in &p.releases { t.remove(&s[0]); }
    for a in &p.adds { t.insert(a[0], [a[0], a[1], 1, generation, 0]); }
    t.into_values().collect()
}
/// Our time and the Rust's; None: the result is over-long. The results are compared first.
pub fn times(r: &Request, l: &Lent, p: &Plan) -> Option<(Time, Time)> {
    let f = &r.facts.files[0];
    let key = |offset: u64| DiskKey { objectid: f.ino, key_type: 108, offset };
    let items: Vec<(DiskKey, Vec<u8>)> = f.items.iter().map(|(k, d)| (key(*k), d.clone())).collect();
    let edit = |k: u64, d: &Option<Vec<u8>>| match d { Some(d) => ItemEdit::Put(OwnedItem { key: key(k), data: d.clone() }), None => ItemEdit::Delete(key(k)) };
    let edits: Edits = p.edits.iter().map(|(k, d)| (order(&key(*k)), edit(*k, d))).collect();
    let after = || (items_after(&items, &edits), table_after(&r.facts.rows, p, l.generation + 1));
    let (list, rows) = after();
    if list.len() > 65536 || rows.len() > 65536 { return None; }
    let c = call(l, p);
    let (code, mut x, mut y, mut n) = ours::apply(&c);
    assert_eq!((code, &n[..]), (0, &[list.len() as u64, rows.len() as u64][..]), "applied");
    assert!(x[..70 * list.len()] == list_bytes(f.ino, &list.into_iter().collect::<Vec<_>>())[..], "the list after");
    assert!(y[..5 * rows.len()] == rows.concat()[..], "the table after");
    let ours = clock(|k| {
        let mut d = Duration::ZERO;
        for _ in 0..k {
            x.copy_from_slice(&c.list);
            y.copy_from_slice(&c.table);
            let t = Instant::now();
            black_box(ours::apply_to(black_box(&c), &mut x, &mut y, &mut n));
            d += t.elapsed();
        }
        d
    });
    let rust = clock(|k| {
        let mut d = Duration::ZERO;
        for _ in 0..k {
            let t = Instant::now();
            let got = black_box(after());
            d += t.elapsed();
            drop(got);
        }
        d
    });
    Some((ours, rust))
}
