// Broken lent bytes: refusals 1 to 4 against a plain reading of document 01; what passes goes to the Rust.
use crate::gen::Rng;
use crate::lent::Lent;
use crate::oracle::Op;

fn u(b: &[u8]) -> u64 { u64::from_le_bytes(b[..8].try_into().unwrap()) }
fn put(b: &mut [u8], at: usize, v: u64) { b[at..at + 8].copy_from_slice(&v.to_le_bytes()); }
/// Breaks a number or two of what is lent, mostly near what is right.
pub fn spoil(g: &mut Rng, l: &mut Lent) {
    let clone = matches!(l.op, Op::Clone(..));
    for _ in 0..1 + (g.pct(15) as u64) * g.below(3) {
        // of a clone's two lists one is broken
        let second = clone && !l.own && g.pct(50);
        let ino = if second { l.source_ino } else { l.ino };
        let list = if second { &mut l.source } else { &mut l.list };
        let nr = (list.len() / 70) as u64;
        let nt = (l.table.len() / 5) as u64;
        match g.below(21) {
            0..=9 if nr > 0 => {
                let at = g.below(nr) as usize * 70;
                let (key, len) = (u(&list[at + 9..]), u(&list[at + 62..]));
                let s = g.pick(&[1, l.sector, l.sector / 2]);
                let other = u(&list[g.below(nr) as usize * 70 + 9..]);
                match g.below(12) {
                    0 => put(list, at, ino.wrapping_add(g.pick(&[1, u64::MAX, 1 << 56]))),
                    1 => list[at + 8] = g.pick(&[0, 107, 109, 108]),
                    2 | 3 => put(list, at + 9, g.pick(&[key.wrapping_add(s), key.wrapping_sub(s), other, 1 << 63, (1u64 << 63).wrapping_sub(len), (1u64 << 63).wrapping_sub(len).wrapping_add(s)])),
                    4 | 5 => put(list, at + 62, g.pick(&[0, len.wrapping_add(s), len.wrapping_sub(s), s, (1u64 << 63).wrapping_sub(key), (1u64 << 63).wrapping_sub(key).wrapping_add(s), u64::MAX])),
                    6 => { let v = u64::MAX.wrapping_sub(len); put(list, at + 54, g.pick(&[v, v.wrapping_add(1), v.wrapping_sub(1), u64::MAX])) }
                    7 => list[at + 37] = g.pick(&[0, 1, 2, 3, 255]),
                    8 => { let b = g.below(nr) as usize * 70; for j in 0..70 { list.swap(at + j, b + j); } }
                    9 => { let v = g.next() as u8; let o = at + g.below(70) as usize; list[o] = v; }
                    10 => { list[at + 37] = g.pick(&[0, 3]); put(list, at + 9, key.wrapping_add(g.below(2 * l.sector.clamp(1, 1 << 20)))); put(list, at + 62, g.next()); }
                    _ => { let o = at + g.below(70) as usize; list[o] ^= 1 << g.below(8); }
                }
            }
            10 => { let k = list.len() - g.pick(&[1, 2, 69, 70]).min(list.len()); list.truncate(k); }
            11 => { let k = g.pick(&[1usize, 69, 70]); list.extend(vec![0; k]); }
            12 => { let (s, k) = (&mut l.shared, g.below(4)); match k { 0 => { s.pop(); } 1 => s.push(0), _ => if !s.is_empty() { let j = g.below(s.len() as u64) as usize; s[j] = g.pick(&[1, 2, 255]); } } }
            13 => { let k = l.table.len() - g.pick(&[1, 4, 5]).min(l.table.len()); l.table.truncate(k); }
            14 => { let k = g.pick(&[1usize, 4, 5]); l.table.extend(vec![0; k]); }
            15..=17 if nt > 0 => {
                let table = &mut l.table;
                let at = g.below(nt) as usize * 5;
                let next = table.get(at + 5).copied().unwrap_or(u64::MAX);
                let room = next.wrapping_sub(table[at]);
                match g.below(7) {
                    0 => table[at] = g.pick(&[0, next, u64::MAX]),
                    1 | 2 => table[at + 1] = g.pick(&[0, room, room.wrapping_add(1), room.wrapping_sub(1), u64::MAX]),
                    3 => table[at + 4] = g.pick(&[1, 2, u64::MAX]),
                    4 => { let b = g.below(nt) as usize * 5; for j in 0..5 { table.swap(at + j, b + j); } }
                    _ => { let o = at + g.below(5) as usize; table[o] = g.next() >> g.below(64); }
                }
            }
            18 => l.sector = g.pick(&[0, 1, 512, 2048, 4095, 4096, 4097, 8192, 12288, 16384, 32768, 65536, 65537, 131072, 1 << 63, u64::MAX]),
            // the source's number: with or without its records
            19 if clone => {
                let to = g.pick(&[l.ino, l.ino, l.source_ino.wrapping_add(1)]);
                if !l.own && g.pct(60) { for c in l.source.chunks_mut(70) { if c.len() == 70 { put(c, 0, to); } } }
                l.source_ino = to;
            }
            _ => { let k = g.pick(&[(1 << 63) - 1, 1 << 63, u64::MAX]); if second { l.source_size = k } else { l.size = k } }
        }
    }
}
/// Compares our side with the Rust on spoiled requests.
#[cfg(ours)]
pub fn fuzz(make: fn(&mut Rng) -> crate::oracle::Request, seed: u64, count: u64) {
    use crate::oracle::Outcome;
    std::panic::set_hook(Box::new(|_| {}));
    let mut g = Rng(seed.wrapping_mul(0x5234_5678_9abc_def1));
    let mut n: std::collections::BTreeMap<String, u64> = Default::default();
    let (mut diffs, mut shown) = (0u64, 0);
    for i in 0..count {
        let mut r = make(&mut g);
        crate::gen::choose_places(&mut g, &mut r);
        let mut l = Lent::new(&r);
        spoil(&mut g, &mut l);
        let due = l.refusal();
        let (us, bad) = crate::ours::run(&l, crate::fuzz::ample(&l));
        let theirs = if due != 0 { Outcome::Refused(due) } else {
            r = l.request(&r).expect("a well-kept list has words");
            crate::oracle::run(&r).0
        };
        *n.entry(crate::branches::kind_beside(&theirs, &us)).or_default() += 1;
        if let Some(why) = crate::branches::unlike(&r, &theirs, &us, bad) {
            diffs += 1;
            if shown < 5 {
                shown += 1;
                println!("==== difference at {i}: {why} sector {} sizes {} {} numbers {} {} list {} source {} shared {:?} table {:?}\n{}---- due\n{}---- ours\n{}", l.sector, l.size, l.source_size, l.ino, l.source_ino, l.list.len(), l.source.len(), l.shared, l.table, crate::text::request(&r), crate::text::outcome(&theirs), crate::text::outcome(&us));
            }
        }
    }
    println!("compared {count}, differences {diffs}");
    for (k, v) in n { println!("{v:>10}  {k}"); }
}
