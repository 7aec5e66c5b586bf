// Random inputs for extplan: requests of all three operations, of some the numbers or the text broken.
use crate::extplan;
use crate::gen::{self, Rng};
use crate::lent::Lent;
use crate::oracle::{Op, Outcome};
use crate::{broken, clones, text};
use std::collections::BTreeMap;
use std::io::Write;

const MOST_BYTES: usize = 65536;
/// An input that extplan takes, with no line that a run of inputs would be parted at.
pub fn input(g: &mut Rng) -> Vec<u8> {
    loop {
        let t = draw(g);
        if t.len() <= MOST_BYTES && !t.split(|b| *b == b'\n').any(|l| l.starts_with(b"---")) { return t; }
    }
}
fn draw(g: &mut Rng) -> Vec<u8> {
    let mut r = match g.below(10) { 0..=3 => gen::punch(g), 4..=6 => gen::fallocate(g), _ => clones::clone(g) };
    gen::choose_places(g, &mut r);
    if g.pct(12) {
        let mut l = Lent::new(&r);
        broken::spoil(g, &mut l);
        match l.request(&r) { Some(x) => r = x, None => return draw(g) }
    }
    if let (Op::Fallocate(o, _, keep), true) = (r.op, g.pct(3)) {
        // to the largest offset, on a volume that has the bytes
        r.op = Op::Fallocate(o.min((1 << 62) - 1), (1 << 63) - 1 - o.min((1 << 62) - 1), keep);
        r.total = g.pick(&[u64::MAX, 1 << 63, 1 << 62]);
    }
    if g.pct(2) { match &mut r.op { Op::Punch(_, n) | Op::Fallocate(_, n, _) | Op::Clone(_, _, n) => *n = 0 } }
    if let (Some(s), true) = (r.facts.files[0].shared.last_mut(), g.pct(1)) { *s = g.pick(&[2, 255]); }
    // a source's leaves are read and not looked at
    if let (Some(f), true) = (r.facts.files.get_mut(1), g.pct(10)) { for s in &mut f.shared { *s = g.pick(&[0, 1, 2, 255]); } }
    let mut t = text::request(&r).into_bytes();
    if g.pct(30) { t = without_zeros(g, &t); }
    if g.pct(18) { for _ in 0..1 + g.below(4) / 3 { t = mangled(g, &t); } }
    if g.pct(5) { t.pop(); }
    t
}
/// The lines of a text, each with its line end.
fn lines(t: &[u8]) -> Vec<Vec<u8>> { t.split_inclusive(|b| *b == b'\n').map(|l| l.to_vec()).collect() }
/// Where the fields of a line stand, each with the space before it.
fn fields(l: &[u8]) -> Vec<(usize, usize)> {
    (0..l.len().saturating_sub(1)).filter(|&i| l[i] == b' ' && l[i + 1] == b'(').filter_map(|i| l[i..].iter().position(|b| *b == b')').map(|n| (i, i + n + 1))).collect()
}
/// Some fields that are 0 left out: the same request.
fn without_zeros(g: &mut Rng, t: &[u8]) -> Vec<u8> {
    let mut v = Vec::new();
    for l in lines(t) {
        let mut at = 0;
        for (a, b) in fields(&l) {
            let zero = !l[a..b].iter().any(|c| (b'1'..=b'9').contains(c));
            v.extend(&l[at..if zero && g.pct(70) { a } else { b }]);
            at = b;
        }
        v.extend(&l[at..]);
    }
    v
}
/// The text with one fault, mostly one that makes it unreadable.
fn mangled(g: &mut Rng, t: &[u8]) -> Vec<u8> {
    let mut v = lines(t);
    if v.is_empty() { return t.to_vec(); }
    let i = g.below(v.len() as u64) as usize;
    let j = g.below(v.len() as u64) as usize;
    let found = fields(&v[i]);
    match g.below(18) {
        0 => { v.remove(i); }
        1 => { let l = v[i].clone(); v.insert(j, l); }
        2 => v.swap(i, j),
        3 | 4 => {
            let stock: [&[u8]; 14] = [b"\n", b" \n", b"(volume)\n", b"(file)\n", b"(file (number 300))\n", b"(item)\n", b"(extent)\n", b"(place 1)\n", b"(place)\n", b"(punch)\n", b"(fallocate)\n", b"(clone)\n", b"()\n", b"(delete (key 0))\n"];
            let l = g.pick(&stock).to_vec();
            v.insert(g.pick(&[i, v.len(), v.len() - 1]), l);
        }
        5 | 6 => { let k = g.below(v[i].len() as u64) as usize; let c = odd(g); v[i].insert(k, c); }
        7 => { let k = g.below(v[i].len() as u64) as usize; v[i].remove(k); }
        8 => { let k = g.below(v[i].len() as u64) as usize; v[i][k] = odd(g); }
        9 | 10 => v[i] = other_number(g, &v[i]),
        // a field again, two fields the other way round, a field or a word by another name
        11 if !found.is_empty() => { let (a, b) = g.pick(&found); let f = v[i][a..b].to_vec(); let (_, to) = g.pick(&found); v[i].splice(to..to, f); }
        12 if found.len() > 1 => { let k = g.below(found.len() as u64 - 1) as usize; let (a, b) = (found[k], found[k + 1]); let f = v[i][a.0..a.1].to_vec(); v[i].splice(b.1..b.1, f); v[i].drain(a.0..a.1); }
        13 if !found.is_empty() => { let (a, b) = g.pick(&found); let w = g.pick(&["size", "key", "keep", "from", "shared", "at", "len", "sector", "sectors"]); let e = a + 2 + v[i][a + 2..b].iter().take_while(|c| c.is_ascii_lowercase()).count(); v[i].splice(a + 2..e, w.bytes()); }
        14 => { let w = g.pick(&["punch", "clone", "fallocate", "item", "extent", "place", "Item", "items", "put"]); let e = v[i].iter().skip(1).take_while(|c| c.is_ascii_lowercase()).count() + 1; if e <= v[i].len() { v[i].splice(1.min(e)..e, w.bytes()); } }
        15 => v.truncate(i + 1),
        16 => v.insert(v.len() - 1, b"(place 1)\n".to_vec()),
        _ => { let all = v.concat(); return all[..g.below(all.len() as u64 + 1) as usize].to_vec(); }
    }
    v.concat()
}
fn odd(g: &mut Rng) -> u8 { g.pick(b"   ()()00019-+.,;\t\r\n\0xX\xff") }
/// One of a line's numbers replaced.
fn other_number(g: &mut Rng, l: &[u8]) -> Vec<u8> {
    let starts: Vec<usize> = (0..l.len()).filter(|&i| l[i].is_ascii_digit() && (i == 0 || !l[i - 1].is_ascii_digit())).collect();
    if starts.is_empty() { return l.to_vec(); }
    let a = g.pick(&starts);
    let b = a + l[a..].iter().take_while(|c| c.is_ascii_digit()).count();
    let n = g.pick(&[
        "0", "1", "2", "3", "255", "256", "65535", "65536", "4096", "8192", "9223372036854775807", "9223372036854775808", "18446744073709551615", "18446744073709551616", "18446744073709555712", "99999999999999999999",
        "340282366920938463463374607431768211456", "00", "01", "04096", "-1", "+1", "1.0", "0x10", "", "1 2", "all",
    ]);
    [&l[..a], n.as_bytes(), &l[b..]].concat()
}
/// So many inputs, each ended by its line.
pub fn print(seed: u64, count: u64) {
    let mut g = Rng(seed.wrapping_mul(0x7234_5678_9abc_def1));
    let mut out = std::io::BufWriter::new(std::io::stdout().lock());
    for _ in 0..count { out.write_all(&extplan::ended(&input(&mut g))).unwrap(); }
}
/// A few of so many inputs with the Rust's answers, as cases: each kind and branch `EACH` times, if it is met so often; by short inputs
/// where they do.
pub fn sample(seed: u64, count: u64) {
    const EACH: u64 = 4;
    println!("The Rust's answers (tests/oracle) to some random inputs, chosen so that each kind of answer and each branch that a plan can\ntake occurs {EACH} times: made by `oracle-off sample {seed} {count}`. Line errors and 1 to 4, not the Rust's, are left out.");
    let mut kept: BTreeMap<String, u64> = BTreeMap::new();
    let mut number = 0;
    for most in [700, 1000, 1500, 2500, MOST_BYTES] {
        let mut g = Rng(seed.wrapping_mul(0x7234_5678_9abc_def1));
        for _ in 0..count {
            let t = input(&mut g);
            if t.len() > most { continue; }
            let mut names = Vec::new();
            let (o, due) = extplan::met(&t, |b| names.push(b.to_string()));
            if !matches!(o, Some((_, Outcome::Plan(_) | Outcome::Nothing | Outcome::Refused(5..)))) { continue; }
            let Some(rare) = names.iter().rev().find(|n| kept.get(*n).is_none_or(|k| *k < EACH)) else { continue };
            number += 1;
            print!("=== the Rust's {number}: {rare}\n{}{due}", String::from_utf8(extplan::ended(&t)).unwrap());
            for n in names { *kept.entry(n).or_default() += 1; }
        }
    }
    eprintln!("{number} of {count}");
    for (k, v) in kept { eprintln!("{v:>7}  {k}"); }
}
