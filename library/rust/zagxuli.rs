//! Zagxuli for Rust: safe functions over the library's four exports. include/zagxuli.h says what each slice holds and what each number
//! means. Slices are good for their lengths and what is written overlaps nothing, by Rust's own rules.
//!
//! Stack is left to the caller. The header's table says what a call needs: 20,000 to 3,500,000 bytes, by the call and by how much it
//! is lent. With too little the process ends by a signal; that is no `Refused` and no panic. A main thread usually has 8 MiB, which
//! suffices. A spawned one has 2 MiB by default, which is too little for large lists: give it `STACK` bytes, or run the call by
//! `with_stack`.
#![allow(dead_code)]

#[rustfmt::skip]
extern "C" {
    fn zag_punch(
        sector: u64, total: u64, generation: u64, snapshot: u64, number: u64, size: u64, nodatacow: bool, offset: u64, length: u64,
        list: *const u8, list_len: usize, shared: *const u8, shared_len: usize, table: *const u64, table_len: usize, places: *const u64, places_len: usize,
        edits: *mut u8, edits_len: usize, shares: *mut u64, shares_len: usize, unrefs: *mut u64, unrefs_len: usize,
        releases: *mut u64, releases_len: usize, adds: *mut u64, adds_len: usize, writes: *mut u64, writes_len: usize,
        answer: *mut u64, answer_len: usize,
    ) -> u8;
    fn zag_fallocate(
        sector: u64, total: u64, generation: u64, snapshot: u64, number: u64, size: u64, nodatacow: bool, offset: u64, length: u64, keep: bool,
        list: *const u8, list_len: usize, shared: *const u8, shared_len: usize, table: *const u64, table_len: usize, places: *const u64, places_len: usize,
        edits: *mut u8, edits_len: usize, shares: *mut u64, shares_len: usize, unrefs: *mut u64, unrefs_len: usize,
        releases: *mut u64, releases_len: usize, adds: *mut u64, adds_len: usize, writes: *mut u64, writes_len: usize,
        answer: *mut u64, answer_len: usize,
    ) -> u8;
    fn zag_clone(
        sector: u64, total: u64, generation: u64, snapshot: u64, number: u64, size: u64, source_number: u64, source_size: u64, own: bool,
        from: u64, to: u64, length: u64,
        list: *const u8, list_len: usize, shared: *const u8, shared_len: usize, source: *const u8, source_len: usize, table: *const u64, table_len: usize,
        edits: *mut u8, edits_len: usize, shares: *mut u64, shares_len: usize, unrefs: *mut u64, unrefs_len: usize,
        releases: *mut u64, releases_len: usize,
        answer: *mut u64, answer_len: usize,
    ) -> u8;
    fn zag_apply(
        sector: u64, new_generation: u64, number: u64, items: usize, rows: usize,
        list: *mut u8, list_len: usize, table: *mut u64, table_len: usize,
        edits: *const u8, edits_len: usize, shares: *const u64, shares_len: usize, unrefs: *const u64, unrefs_len: usize,
        releases: *const u64, releases_len: usize, adds: *const u64, adds_len: usize,
        answer: *mut u64, answer_len: usize,
    ) -> u8;
}

/// The volume: its sector, its bytes in total, its current generation, and the generation of its last snapshot.
#[derive(Clone, Copy)]
pub struct Volume {
    pub sector: u64,
    pub total: u64,
    pub generation: u64,
    pub snapshot: u64,
}

#[derive(Clone, Copy)]
pub struct File {
    pub number: u64,
    pub size: u64,
    pub nodatacow: bool,
}

/// What is read: the file's list and its shared bytes, the extents table, and places for new extents.
#[derive(Clone, Copy)]
pub struct Lent<'a> {
    pub list: &'a [u8],
    pub shared: &'a [u8],
    pub table: &'a [u64],
    pub places: &'a [u64],
}

/// The outputs, each with room for as many records as it has.
pub struct Outputs {
    pub edits: Vec<u8>,
    pub shares: Vec<u64>,
    pub unrefs: Vec<u64>,
    pub releases: Vec<u64>,
    pub adds: Vec<u64>,
    pub writes: Vec<u64>,
}

/// A plan: the parts of the outputs that hold it, the new size and byte count, and the mark for preallocation.
pub struct Plan<'a> {
    pub edits: &'a [u8],
    pub shares: &'a [u64],
    pub unrefs: &'a [u64],
    pub releases: &'a [u64],
    pub adds: &'a [u64],
    pub writes: &'a [u64],
    pub size: u64,
    pub bytes: u64,
    pub prealloc: bool,
}

pub enum Answer<'a> {
    Plan(Plan<'a>),
    Nothing,
    Refused(u8),
}

impl Outputs {
    /// Room that always suffices, for so many records of the file and of a clone's source, and so many places.
    pub fn for_records(list: usize, source: usize, places: usize) -> Outputs {
        Outputs {
            edits: vec![0; 71 * (3 * list + source + places + 2)],
            shares: vec![0; 2 * (3 * list + source + 2)],
            unrefs: vec![0; 2 * 2 * list],
            releases: vec![0; 2 * list],
            adds: vec![0; 3 * places],
            writes: vec![0; 4 * 2],
        }
    }

    fn answer(&self, code: u8, n: [u64; 9]) -> Answer<'_> {
        let part = |i: usize, width: usize| ..n[i] as usize * width;
        match code {
            0 => Answer::Plan(Plan {
                edits: &self.edits[part(0, 71)],
                shares: &self.shares[part(1, 2)],
                unrefs: &self.unrefs[part(2, 2)],
                releases: &self.releases[part(3, 2)],
                adds: &self.adds[part(4, 3)],
                writes: &self.writes[part(5, 4)],
                size: n[6],
                bytes: n[7],
                prealloc: n[8] == 1,
            }),
            100 => Answer::Nothing,
            why => Answer::Refused(why),
        }
    }
}

/// Bytes of stack that suffice for every call: the largest of the header's table, and some for what is around the call.
pub const STACK: usize = 4 << 20;

/// Runs a call on a thread of its own, with `STACK` bytes of stack, and waits for it. The call may borrow. It panics where no thread
/// can be had; a panic of the call goes on in the caller.
pub fn with_stack<T: Send>(call: impl FnOnce() -> T + Send) -> T {
    std::thread::scope(|scope| {
        let thread = std::thread::Builder::new().stack_size(STACK).spawn_scoped(scope, call).expect("no thread");
        thread.join().unwrap_or_else(|panic| std::panic::resume_unwind(panic))
    })
}

/// A hole punched into `[offset, offset + length)`.
#[rustfmt::skip]
pub fn punch<'a>(v: Volume, f: File, offset: u64, length: u64, l: Lent, out: &'a mut Outputs) -> Answer<'a> {
    let mut n = [0; 9];
    let code = unsafe {
        zag_punch(
            v.sector, v.total, v.generation, v.snapshot, f.number, f.size, f.nodatacow, offset, length,
            l.list.as_ptr(), l.list.len(), l.shared.as_ptr(), l.shared.len(), l.table.as_ptr(), l.table.len(), l.places.as_ptr(), l.places.len(),
            out.edits.as_mut_ptr(), out.edits.len(), out.shares.as_mut_ptr(), out.shares.len(), out.unrefs.as_mut_ptr(), out.unrefs.len(),
            out.releases.as_mut_ptr(), out.releases.len(), out.adds.as_mut_ptr(), out.adds.len(), out.writes.as_mut_ptr(), out.writes.len(),
            n.as_mut_ptr(), n.len(),
        )
    };
    out.answer(code, n)
}

/// `[offset, offset + length)` allocated ahead; with `keep` the size stays.
#[rustfmt::skip]
pub fn fallocate<'a>(v: Volume, f: File, offset: u64, length: u64, keep: bool, l: Lent, out: &'a mut Outputs) -> Answer<'a> {
    let mut n = [0; 9];
    let code = unsafe {
        zag_fallocate(
            v.sector, v.total, v.generation, v.snapshot, f.number, f.size, f.nodatacow, offset, length, keep,
            l.list.as_ptr(), l.list.len(), l.shared.as_ptr(), l.shared.len(), l.table.as_ptr(), l.table.len(), l.places.as_ptr(), l.places.len(),
            out.edits.as_mut_ptr(), out.edits.len(), out.shares.as_mut_ptr(), out.shares.len(), out.unrefs.as_mut_ptr(), out.unrefs.len(),
            out.releases.as_mut_ptr(), out.releases.len(), out.adds.as_mut_ptr(), out.adds.len(), out.writes.as_mut_ptr(), out.writes.len(),
            n.as_mut_ptr(), n.len(),
        )
    };
    out.answer(code, n)
}

/// `length` bytes (0: to the source's end) from the source's offset `from` to the file's offset `to`. The source is another file with
/// its list or, with none, the file itself. It looks at no places.
#[rustfmt::skip]
pub fn clone<'a>(v: Volume, f: File, source: Option<(File, &[u8])>, from: u64, to: u64, length: u64, l: Lent, out: &'a mut Outputs) -> Answer<'a> {
    let mut n = [0; 9];
    let (s, items) = source.unwrap_or((f, &[]));
    let code = unsafe {
        zag_clone(
            v.sector, v.total, v.generation, v.snapshot, f.number, f.size, s.number, s.size, source.is_none(), from, to, length,
            l.list.as_ptr(), l.list.len(), l.shared.as_ptr(), l.shared.len(), items.as_ptr(), items.len(), l.table.as_ptr(), l.table.len(),
            out.edits.as_mut_ptr(), out.edits.len(), out.shares.as_mut_ptr(), out.shares.len(), out.unrefs.as_mut_ptr(), out.unrefs.len(),
            out.releases.as_mut_ptr(), out.releases.len(),
            n.as_mut_ptr(), n.len(),
        )
    };
    out.answer(code, n)
}

/// A plan for the file of this number applied, in place, to the first `items` records of its list and the first `rows` rows of the table.
/// Gives the two new counts, or the number of a refusal, which changes nothing.
#[rustfmt::skip]
pub fn apply(sector: u64, new_generation: u64, number: u64, list: &mut [u8], items: usize, table: &mut [u64], rows: usize, p: &Plan) -> Result<(usize, usize), u8> {
    let mut n = [0; 2];
    let code = unsafe {
        zag_apply(
            sector, new_generation, number, items, rows,
            list.as_mut_ptr(), list.len(), table.as_mut_ptr(), table.len(),
            p.edits.as_ptr(), p.edits.len(), p.shares.as_ptr(), p.shares.len(), p.unrefs.as_ptr(), p.unrefs.len(),
            p.releases.as_ptr(), p.releases.len(), p.adds.as_ptr(), p.adds.len(),
            n.as_mut_ptr(), n.len(),
        )
    };
    if code == 0 { Ok((n[0] as usize, n[1] as usize)) } else { Err(code) }
}
