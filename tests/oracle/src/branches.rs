// Answers by kind, the branches that plans went through, and when two answers are alike.
use crate::clones;
use crate::oracle::{Op, Outcome, Plan, Request};

/// A Rust that panics on a sum is let pass for 17 (17's sums are ours), and for 14 where a clone is not asked.
pub fn let_pass(r: &Request, theirs: &Outcome, ours: &[u8]) -> bool {
    let clone = matches!(r.op, Op::Clone(..));
    matches!(theirs, Outcome::Panicked(m) if m.contains("overflow")) && (ours == b"(refused 17)\n" || !clone && ours == b"(refused 14)\n")
}
/// Why the two differ, if they do.
#[cfg(ours)]
pub fn unlike(r: &Request, theirs: &Outcome, us: &Outcome, bad: Option<String>) -> Option<String> {
    if bad.is_some() { return bad; }
    (theirs != us && !let_pass(r, theirs, crate::text::outcome(us).as_bytes())).then(|| "outcome".into())
}
/// What kind of answer it is.
pub fn kind(o: &Outcome) -> String {
    match o {
        Outcome::Plan(_) => "PLANS".into(),
        Outcome::Nothing => "NOTHING".into(),
        Outcome::Refused(k) => format!("REFUSED {k:02}"),
        Outcome::Panicked(m) => format!("PANICKED {m}"),
    }
}
/// The same of the Rust's, with ours where the Rust panicked.
#[cfg(ours)]
pub fn kind_beside(theirs: &Outcome, us: &Outcome) -> String {
    kind(theirs) + &match theirs { Outcome::Panicked(_) => format!(", here {}", crate::text::outcome(us).trim_end()), _ => String::new() }
}
/// The branches that an answer met.
pub fn met(o: &Outcome, r: &Request, mut add: impl FnMut(&str)) {
    match (o, r.op) {
        (Outcome::Plan(p), Op::Clone(..)) => clones::shape(p, r, add),
        (Outcome::Plan(p), _) => shape(p, r, add),
        (Outcome::Refused(k), _) => if let Some(w) = clones::whose(r, *k) { add(&format!("refused {k:02}: {w}")) },
        _ => (),
    }
}
/// Which branches a plan of a punch or fallocate went through.
fn shape(p: &Plan, r: &Request, mut add: impl FnMut(&str)) {
    let new = p.writes.iter().filter(|w| p.adds.iter().any(|a| a[0] == w[1])).count();
    let inplace = p.writes.len() - new;
    add(&format!("plan: {inplace} in place, {new} new"));
    if let Op::Fallocate(o, n, keep) = r.op {
        let pieces = &p.adds[new..];
        let many = match pieces.len() { 0 => "no pieces", 1 => "one piece", 2..=9 => "2 to 9 pieces", _ => "10 pieces or more" };
        add(&format!("fallocate: {many}"));
        if pieces.windows(2).any(|w| w[0][1] == 1 << 28 && w[0][2] + w[0][1] == w[1][2]) { add("fallocate: a hole of two pieces or more"); }
        if pieces.windows(2).any(|w| w[0][2] + w[0][1] < w[1][2]) { add("fallocate: two holes or more"); }
        let size = r.facts.files[0].size;
        add(if p.size > size { "fallocate: the size grows" } else if keep && o + n > size { "fallocate: past the size, which is kept" } else { "fallocate: inside the size" });
        if !p.writes.is_empty() && o / r.sector > size / r.sector { add("fallocate: the old end's sector is before the range"); }
        if !p.shares.is_empty() && inplace == 0 { add("fallocate: an item split around a new sector"); }
    }
    if p.edits.is_empty() { add("plan: without edits"); }
    if !p.shares.is_empty() { add("plan: with shares"); }
    if p.shares.windows(2).any(|w| w[0] == w[1]) { add("plan: two equal shares"); }
    if !p.unrefs.is_empty() { add("plan: with unrefs"); }
    if p.unrefs.windows(2).any(|w| w[0] == w[1]) { add("plan: two equal unrefs"); }
    if p.unrefs.windows(2).any(|w| w[0] > w[1]) { add("plan: unrefs not rising (compared, then drops)"); }
    if !p.releases.is_empty() { add("plan: with releases"); }
    if !p.releases.is_empty() && !p.unrefs.is_empty() { add("plan: releases and unrefs"); }
    if p.shares.iter().chain(&p.unrefs).chain(&p.releases).any(|x| x[1] > 1 << 63) { add("plan: wrapped reference offset in a line"); }
    if inplace > 0 {
        let sector = r.sector;
        let joined = p.edits.iter().filter(|(_, d)| d.as_ref().is_some_and(|d| d[20] == 1 && crate::superblock::le64(d, 0) == r.facts.generation.wrapping_add(1) && crate::superblock::le64(d, 45) > sector)).count();
        if joined > 0 {
            add(&format!("plan: in place, {joined} joined item(s)"));
            // a joined item that reaches over two or more records that stood before the cut, on its left
            let keys: Vec<u64> = r.facts.files[0].items.iter().map(|x| x.0).collect();
            let firstw = p.writes.iter().map(|w| w[0]).min().unwrap();
            let lastw = p.writes.iter().map(|w| w[0]).max().unwrap();
            for (k, d) in &p.edits { if let Some(d) = d { if d[20] == 1 && crate::superblock::le64(d, 0) == r.facts.generation.wrapping_add(1) && crate::superblock::le64(d, 45) > sector {
                let end = k + crate::superblock::le64(d, 45);
                let before = keys.iter().filter(|x| **x >= *k && **x < firstw).count();
                add(&format!("join: takes in {before} item(s) before the first written sector"));
                if end > lastw + sector { add("join: takes in what follows the last written sector"); }
                if p.writes.len() == 2 && *k <= firstw && end > lastw { add("join: over both sectors"); }
            } } }
        }
        if p.edits.iter().any(|(_, d)| d.as_ref().is_some_and(|d| d[16] != 0 && d[20] == 1 && crate::superblock::le64(d, 0) == r.facts.generation.wrapping_add(1))) { add("plan: in place in a compressed item"); }
    }
}
