// Stand-ins for what is not there: everything that fallocate.rs, clone.rs and write.rs name, and nothing else.
// Each stub answers from `Filesystem::facts`, and the commit is captured in `Filesystem::captured`. Rows and items rise, as the
// checks before the Rust is asked say (1 to 4), so look-ups go by halves: as quick as a tree's, which tests/bench needs.
pub mod error {
    #[derive(Debug)]
    #[allow(dead_code)]
    pub enum Error { ReadOnly, NotAFile, UnsupportedFeature(String), BadSuperblock(String), Stub(u8) }
    pub type Result<T> = std::result::Result<T, Error>;
}
pub mod backref {
    pub const EXTENT_DATA_REF: u8 = 178;
    pub const SHARED_DATA_REF: u8 = 184;
}
pub mod chunk {
    #[derive(Debug, Clone, Copy, PartialEq, Eq)]
    pub struct DiskKey { pub objectid: u64, pub key_type: u8, pub offset: u64 }
    pub mod objectid { pub const EXTENT_TREE: u64 = 2; pub const FS_TREE: u64 = 5; }
    pub mod key_type { pub const EXTENT_ITEM: u8 = 168; }
}
pub mod leaf_edit {
    #[derive(Debug, Clone, PartialEq, Eq)]
    pub struct OwnedItem { pub key: crate::chunk::DiskKey, pub data: Vec<u8> }
}
pub mod superblock {
    pub fn le64(b: &[u8], at: usize) -> u64 { u64::from_le_bytes(b[at..at + 8].try_into().expect("8 bytes")) }
}
pub mod transaction {
    use crate::chunk::DiskKey;
    use crate::leaf_edit::OwnedItem;
    #[derive(Debug, Clone, PartialEq, Eq)]
    pub enum ItemEdit { Delete(DiskKey), Put(OwnedItem) }
    impl ItemEdit {
        pub fn key(&self) -> DiskKey { match self { ItemEdit::Delete(k) => *k, ItemEdit::Put(i) => i.key } }
    }
    #[derive(Debug, Clone)] pub struct DataAdd { pub new: u64, pub disk_len: u64, pub file_offset: u64 }
    #[derive(Debug, Clone)] pub struct DataRelease { pub old: u64, pub old_len: u64, pub old_ref_offset: u64 }
    #[derive(Debug, Clone)] pub struct DataShare { pub bytenr: u64, pub len: u64, pub ref_offset: u64 }
    #[derive(Debug, Clone, Default)]
    #[allow(dead_code)]
    pub struct DataWrite {
        pub root: u64, pub ino: u64, pub time: u64, pub adds: Vec<DataAdd>, pub edits: Vec<ItemEdit>,
        pub csum_edits: Vec<ItemEdit>, pub releases: Vec<DataRelease>, pub unrefs: Vec<DataRelease>,
        pub shares: Vec<DataShare>, pub nothing_else: (),
    }
}
pub mod verity {
    pub const INODE_RO_VERITY: u64 = 1 << 32;
    pub fn refuse_mutation(_ino: u64, _flags: u64) -> crate::error::Result<()> { Ok(()) }
}
pub mod namespace {
    pub fn now() -> u64 { 0 }
    pub fn touch(_raw: &mut [u8], _generation: u64, _now: u64, _fields: &[usize]) {}
}
pub mod inode {
    pub const INODE_ITEM_KEY: u8 = 1;
    pub const INODE_NODATASUM: u64 = 1;
    pub const INODE_NODATACOW: u64 = 2;
    pub mod offsets {
        pub const SIZE: usize = 16; pub const NBYTES: usize = 24; pub const FLAGS: usize = 64;
        pub const CTIME: usize = 124; pub const MTIME: usize = 136;
    }
    #[derive(Debug, Clone)]
    pub struct Inode { pub ino: u64, pub size: u64, pub flags: u64 }
    impl Inode { pub fn is_regular_file(&self) -> bool { true } }
}
pub mod fs {
    use crate::chunk::DiskKey;
    use crate::error::{Error, Result};
    use crate::inode::Inode;
    use crate::transaction::{DataWrite, ItemEdit};
    use std::cell::RefCell;
    pub const EXTENT_DATA_KEY: u8 = 108;
    pub const ROOT_ITEM_KEY: u8 = 132;
    pub const EXTENT_REGULAR: u8 = 1;
    pub const EXTENT_PREALLOC: u8 = 2;
    pub mod root_item { pub const BYTENR: usize = 176; pub const LAST_SNAPSHOT: usize = 0; }
    pub mod file_extent {
        pub const GENERATION: usize = 0; pub const RAM_BYTES: usize = 8; pub const COMPRESSION: usize = 16;
        pub const ENCRYPTION: usize = 17; pub const OTHER_ENCODING: usize = 18; pub const TYPE: usize = 20;
        pub const DISK_BYTENR: usize = 21; pub const DISK_NUM_BYTES: usize = 29; pub const OFFSET: usize = 37;
        pub const NUM_BYTES: usize = 45; pub const REGULAR_SIZE: usize = 53;
    }
    pub struct Superblock { pub sectorsize: u32, pub total_bytes: u64, pub root: u64 }
    impl Superblock { pub fn has_no_holes(&self) -> bool { true } }
    /// A file: number, size, nodatacow, items, and each item's leaf.
    #[derive(Clone, Debug, Default)]
    pub struct FileFacts { pub ino: u64, pub size: u64, pub nodatacow: bool, pub items: Vec<(u64, Vec<u8>)>, pub shared: Vec<u8> }
    #[derive(Clone, Debug, Default)]
    pub struct Facts {
        pub files: Vec<FileFacts>, pub rows: Vec<[u64; 5]>, pub generation: u64, pub snapshot: u64,
        /// The places lent; None: the allocator gives any (a first pass that finds out how many are wanted).
        pub places: Option<Vec<u64>>,
    }
    #[derive(Default, Debug)]
    pub struct Captured { pub wanted: Vec<u64>, pub reads: Vec<u64>, pub written: Vec<(u64, Vec<u8>)>, pub write: Option<DataWrite> }
    pub struct Filesystem {
        pub writable: Option<()>, pub subvolume_writes: Option<()>, pub sb: Superblock, pub fs_tree_root: u64,
        pub facts: Facts, pub captured: RefCell<Captured>,
    }
    pub struct Item { pub key: DiskKey, pub data: Vec<u8> }
    pub struct Reader<'a>(&'a Facts);
    pub struct Tree<'a>(&'a Facts);
    impl<'a> Reader<'a> { pub fn tree(&self) -> Tree<'a> { Tree(self.0) } }
    impl Tree<'_> {
        pub fn find_all(&self, _root: u64, bytenr: u64, kind: u8) -> Result<Vec<Item>> {
            let Ok(i) = self.0.rows.binary_search_by_key(&bytenr, |r| r[0]) else { return Ok(Vec::new()) };
            let r = self.0.rows[i];
            let item = |data: Vec<u8>| vec![Item { key: DiskKey { objectid: bytenr, key_type: kind, offset: r[1] }, data }];
            if kind == crate::chunk::key_type::EXTENT_ITEM {
                let mut data = r[2].to_le_bytes().to_vec();
                data.extend(r[3].to_le_bytes());
                return Ok(item(data));
            }
            // keyed references: of the one kind or of the other
            let theirs = if (bytenr >> 12) & 1 == 0 { crate::backref::EXTENT_DATA_REF } else { crate::backref::SHARED_DATA_REF };
            Ok(if r[4] == 1 && kind == theirs { item(Vec::new()) } else { Vec::new() })
        }
        pub fn for_each(&self, _root: u64, _f: &mut dyn FnMut(&DiskKey, &[u8]) -> Result<bool>) -> Result<()> { unreachable!() }
    }
    #[allow(dead_code)]
    pub struct Piece { pub start: u64, pub len: u64, pub logical: Option<u64>, pub compressed: bool, pub extent_start: u64 }
    impl Filesystem {
        fn file(&self, ino: u64) -> &FileFacts { self.facts.files.iter().find(|f| f.ino == ino).expect("file") }
        pub fn writing_subvolume(&mut self, _f: impl FnOnce(&mut Self) -> Result<()>) -> Result<()> { unreachable!() }
        pub fn require_writable(&self) -> Result<()> { Ok(()) }
        pub fn require_writable_top_level(&self) -> Result<()> { Ok(()) }
        pub fn read_inode(&self, ino: u64) -> Result<Inode> {
            let f = self.file(ino);
            Ok(Inode { ino, size: f.size, flags: if f.nodatacow { crate::inode::INODE_NODATACOW } else { 0 } })
        }
        pub fn items_of(&self, ino: u64) -> Result<Vec<(DiskKey, Vec<u8>)>> {
            // the inode's own item comes first, as in a tree: `extent_items` leaves it out
            let mut all = vec![(DiskKey { objectid: ino, key_type: 1, offset: 0 }, vec![0; 160])];
            all.extend(self.file(ino).items.iter().map(|(k, d)| (DiskKey { objectid: ino, key_type: 108, offset: *k }, d.clone())));
            Ok(all)
        }
        pub fn next_generation(&self) -> Result<u64> { self.facts.generation.checked_add(1).ok_or(Error::Stub(13)) }
        pub fn written_tree(&self) -> u64 { 5 }
        pub fn root_last_snapshot(&self, _tree: u64) -> Result<u64> { Ok(self.facts.snapshot) }
        pub fn leaf_shared(&self, _tree: u64, k: &DiskKey) -> Result<bool> {
            let f = self.file(k.objectid);
            let i = f.items.binary_search_by_key(&k.offset, |x| x.0).expect("leaf of an item that is there");
            Ok(f.shared[i] == 1)
        }
        /// The places lent, where they are as many as wanted and all free: refusal 26 as document 01 words it.
        pub fn find_data_extents(&self, lens: &[u64]) -> Result<Vec<u64>> {
            self.captured.borrow_mut().wanted = lens.to_vec();
            let Some(places) = &self.facts.places else { return Ok((1..=lens.len() as u64).map(|n| n << 40).collect()) };
            if places.len() != lens.len() { return Err(Error::Stub(26)); }
            if places.iter().zip(lens).any(|(&p, &n)| p == 0 || p.checked_add(n).is_none()) { return Err(Error::Stub(26)); }
            let mut taken: Vec<(u64, u64)> = self.facts.rows.iter().map(|r| (r[0], r[1])).chain(places.iter().copied().zip(lens.iter().copied())).collect();
            taken.sort_unstable();
            if taken.windows(2).any(|w| w[1].0 - w[0].0 < w[0].1) { return Err(Error::Stub(26)); }
            Ok(places.clone())
        }
        pub fn csum_edits(&self, _r: &[(u64, u64)], _w: &[(u64, Vec<u8>)], _s: bool) -> Result<Vec<ItemEdit>> { Ok(Vec::new()) }
        pub fn raw_inode(&self, _ino: u64) -> Result<Vec<u8>> { Ok(vec![0; 160]) }
        pub fn mirror_spans(&self, _at: u64, _len: usize) -> Result<()> { Ok(()) }
        pub fn write_logical_all_mirrors(&self, at: u64, bytes: &[u8]) -> Result<()> {
            self.captured.borrow_mut().written.push((at, bytes.to_vec()));
            Ok(())
        }
        pub fn flush_writable(&self) -> Result<()> { Ok(()) }
        pub fn commit_write(&self, write: DataWrite, _generation: u64) -> Result<()> {
            self.captured.borrow_mut().write = Some(write);
            Ok(())
        }
        /// Fills the whole buffer, past the size too, with the number of the read: what is zero after it was zeroed.
        pub fn read_at(&self, _ino: u64, offset: u64, buf: &mut [u8]) -> Result<usize> {
            let mut c = self.captured.borrow_mut();
            c.reads.push(offset);
            buf.fill(c.reads.len() as u8);
            Ok(buf.len())
        }
        pub fn tree_root(&self, _id: u64) -> Result<u64> { Ok(0) }
        pub fn pool_reader(&self) -> Reader<'_> { Reader(&self.facts) }
        pub fn file_extents(&self, _ino: u64) -> Result<Vec<Piece>> { unreachable!() }
    }
}
