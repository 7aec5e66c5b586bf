// The Rust oracle: fallocate.rs, clone.rs and write.rs as they stand, over the stubs; a request to an outcome.
use crate::error::Error;
use crate::fs::{Captured, Facts, Filesystem, Superblock};
use crate::superblock::le64;
use crate::transaction::ItemEdit;

#[derive(Clone, Debug, PartialEq, Eq, Default)]
pub struct Plan {
    pub size: u64, pub bytes: u64, pub prealloc: bool,
    /// key, and the 53 bytes of a put
    pub edits: Vec<(u64, Option<Vec<u8>>)>,
    pub shares: Vec<[u64; 2]>, pub unrefs: Vec<[u64; 2]>, pub releases: Vec<[u64; 2]>,
    /// start, length, key
    pub adds: Vec<[u64; 3]>,
    /// file offset, volume byte, first and past-the-last offset zeroed
    pub writes: Vec<[u64; 4]>,
}
#[derive(Clone, Debug, PartialEq, Eq)]
pub enum Outcome { Plan(Plan), Nothing, Refused(u8), Panicked(String) }

#[derive(Clone, Copy, Debug)]
#[allow(dead_code)]
pub enum Op { Punch(u64, u64), Fallocate(u64, u64, bool), Clone(u64, u64, u64) }

#[derive(Clone, Debug)]
pub struct Request { pub sector: u64, pub total: u64, pub facts: Facts, pub op: Op }

/// The number of a message; the messages are those of the three files.
fn number(e: Error) -> u8 {
    let m = match e { Error::Stub(n) => return n, Error::UnsupportedFeature(m) => m, e => panic!("unexpected {e:?}") };
    let has = |s: &str| m.contains(s);
    if has("a length of zero") { 5 }
    else if has("bytes at") && has("past the largest file offset") { 6 }
    else if has("holds inline data") || has("holds its data inline") { 7 }
    else if has("is of type") { 8 }
    else if has("is encrypted or otherwise encoded") { 9 }
    else if has("holds an explicit hole item") { 10 }
    else if has("lies past the file's size") { 11 }
    else if has("more than the volume's") { 12 }
    else if has("the extent tree holds no item") { 14 }
    else if has("references as items of their own") { 15 }
    else if has("is nodatacow") { 16 }
    else if has("-byte extent the extent tree records at") { 17 }
    else if has("the preallocated extent at") { 18 }
    else if has("the clone starts at") { 19 }
    else if has("runs past the end of inode") { 20 }
    else if has("offsets must be whole") { 21 }
    else if has("is not a whole number of") { 22 }
    else if has("would put that sector inside") { 23 }
    else if has("overlaps the range it reads") { 24 }
    else if has("ends partway through a sector") { 25 }
    else { panic!("no number for: {m}") }
}

fn plan_of(r: &Request, c: Captured) -> Outcome {
    let Some(w) = c.write else { return Outcome::Nothing };
    let len_of = |at: u64| r.facts.rows.binary_search_by_key(&at, |x| x[0]).ok().map(|i| r.facts.rows[i][1]);
    let mut p = Plan::default();
    let (last, edits) = w.edits.split_last().expect("the inode's put");
    let ItemEdit::Put(inode) = last else { panic!("the inode's put") };
    assert_eq!(inode.key.key_type, 1);
    p.size = le64(&inode.data, 16);
    p.bytes = le64(&inode.data, 24);
    p.prealloc = le64(&inode.data, 64) & 16 != 0;
    for e in edits {
        assert!(e.key().objectid == w.ino && e.key().key_type == 108);
        p.edits.push((e.key().offset, match e { ItemEdit::Delete(_) => None, ItemEdit::Put(i) => Some(i.data.clone()) }));
    }
    for s in &w.shares { assert_eq!(Some(s.len), len_of(s.bytenr)); p.shares.push([s.bytenr, s.ref_offset]); }
    for s in &w.unrefs { assert_eq!(Some(s.old_len), len_of(s.old)); p.unrefs.push([s.old, s.old_ref_offset]); }
    for s in &w.releases { assert_eq!(Some(s.old_len), len_of(s.old)); p.releases.push([s.old, s.old_ref_offset]); }
    for a in &w.adds { p.adds.push([a.new, a.disk_len, a.file_offset]); }
    for (at, bytes) in &c.written {
        assert_eq!(bytes.len() as u64, r.sector);
        let n = *bytes.iter().find(|b| **b != 0).expect("a byte that is not zeroed");
        let sector = c.reads[n as usize - 1];
        let a = bytes.iter().position(|b| *b == 0).expect("a zeroed byte");
        let b = bytes.iter().rposition(|b| *b == 0).unwrap() + 1;
        assert!(bytes.iter().enumerate().all(|(i, x)| *x == if a <= i && i < b { 0 } else { n }));
        p.writes.push([sector, *at, sector + a as u64, sector + b as u64]);
    }
    Outcome::Plan(p)
}

/// The outcome, and the lengths asked of the allocator. Not the Rust's: 1 for a list over-long, 2 for a second list of the
/// first one's number, and the clone's 6 in bytes, behind 19 to 22.
pub fn run(r: &Request) -> (Outcome, Vec<u64>) {
    let files = &r.facts.files;
    if files.iter().any(|f| f.items.len() > 65536) { return (Outcome::Refused(1), Vec::new()); }
    if files.len() == 2 && files[0].ino == files[1].ino { return (Outcome::Refused(2), Vec::new()); }
    let (theirs, wanted) = rust(r);
    if let Op::Clone(from, to, n) = r.op {
        let len = if n == 0 { files.last().unwrap().size.saturating_sub(from) } else { n };
        let early = matches!(theirs, Outcome::Nothing | Outcome::Refused(19..=22));
        if !early && to as u128 + len as u128 > (1 << 63) - 1 { return (Outcome::Refused(6), wanted); }
    }
    (theirs, wanted)
}
/// The stubs' volume with the facts of a request.
pub fn volume(r: &Request) -> Filesystem {
    Filesystem {
        writable: Some(()), subvolume_writes: None, fs_tree_root: 0, facts: r.facts.clone(), captured: Default::default(),
        sb: Superblock { sectorsize: r.sector as u32, total_bytes: r.total, root: 0 },
    }
}
/// The Rust's own function, called.
pub fn ask(fs: &mut Filesystem, r: &Request) -> crate::error::Result<()> {
    let dst = r.facts.files[0].ino;
    match r.op {
        Op::Punch(o, n) => fs.punch_hole(dst, o, n),
        Op::Fallocate(o, n, keep) => fs.fallocate(dst, o, n, keep),
        Op::Clone(from, to, n) => fs.clone_range(r.facts.files.last().unwrap().ino, from, dst, to, n),
    }
}
fn rust(r: &Request) -> (Outcome, Vec<u64>) {
    let got = std::panic::catch_unwind(|| {
        let mut fs = volume(r);
        let done = ask(&mut fs, r);
        (done, fs.captured.into_inner())
    });
    match got {
        Err(e) => {
            let m = e.downcast_ref::<String>().cloned().or(e.downcast_ref::<&str>().map(|s| s.to_string())).unwrap_or_default();
            (Outcome::Panicked(m), Vec::new())
        }
        Ok((Err(e), c)) => (Outcome::Refused(number(e)), c.wanted),
        Ok((Ok(()), c)) => { let w = c.wanted.clone(); (plan_of(r, c), w) }
    }
}
