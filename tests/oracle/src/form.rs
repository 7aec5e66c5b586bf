// extplan's input, read plainly (document 01, "extplan"): a request, or the line at fault.
use crate::fs::{Facts, FileFacts};
use crate::gen::{data, ItemSpec};
use crate::oracle::{Op, Request};

/// The line at fault, 0 where the input is too long, and what is wrong about it.
pub struct Fault { pub line: usize, pub why: String }
const MOST_BYTES: usize = 65536;
const U8: u64 = u8::MAX as u64;
const U16: u64 = u16::MAX as u64;
const U64: u64 = u64::MAX;

/// A number with nothing before it and at most `most`, and what follows it.
fn number(t: &[u8], most: u64) -> Option<(u64, &[u8])> {
    let n = t.iter().take_while(|b| b.is_ascii_digit()).count();
    if n == 0 || n > 1 && t[0] == b'0' { return None; }
    let v: u64 = std::str::from_utf8(&t[..n]).unwrap().parse().ok()?;
    (v <= most).then_some((v, &t[n..]))
}
/// `(WORD (FIELD N) ..)`, each field as (name, how many numbers, the largest): all numbers in the fields' order, 0 where not shown.
fn form(line: &[u8], word: &str, fields: &[(&str, usize, u64)]) -> Option<Vec<u64>> {
    let mut t = line.strip_prefix(format!("({word}").as_bytes())?;
    let mut v = Vec::new();
    for &(name, count, most) in fields {
        let shown = t.strip_prefix(format!(" ({name}").as_bytes()).filter(|t| t.first() == Some(&b' '));
        if let Some(mut rest) = shown {
            for _ in 0..count {
                let (n, r) = number(rest.strip_prefix(b" ")?, most)?;
                v.push(n);
                rest = r;
            }
            t = rest.strip_prefix(b")")?;
        } else {
            v.extend(vec![0; count]);
        }
    }
    (t == b")").then_some(v)
}
/// The word that a line opens with: letters behind its first byte.
fn word(line: &[u8]) -> &str {
    let t = line.strip_prefix(b"(").unwrap_or(b"");
    let n = t.iter().take_while(|b| b.is_ascii_lowercase()).count();
    std::str::from_utf8(&t[..n]).unwrap()
}
/// What may come next: the volume, the file, its items, the second file's items, extents, places, or nothing.
#[derive(Clone, Copy, PartialEq, PartialOrd)]
enum Next { Volume, File, Items, Source, Extents, Places, End }

pub fn read(input: &[u8]) -> Result<Request, Fault> {
    if input.len() > MOST_BYTES { return Err(Fault { line: 0, why: "more than 65,536 bytes".into() }); }
    let mut lines: Vec<&[u8]> = input.split(|b| *b == b'\n').collect();
    if lines.last().is_some_and(|l| l.is_empty()) { lines.pop(); }
    let mut r = Request { sector: 0, total: 0, facts: Facts { places: Some(vec![]), ..Default::default() }, op: Op::Punch(0, 0) };
    let mut next = Next::Volume;
    for (i, l) in lines.iter().enumerate() {
        next = line(&mut r, next, l).map_err(|why| Fault { line: i + 1, why })?;
    }
    if next == Next::End { Ok(r) } else { Err(Fault { line: lines.len() + 1, why: "no request".into() }) }
}
/// Reads one line into the request; what may come next, or what is wrong.
fn line(r: &mut Request, next: Next, l: &[u8]) -> Result<Next, String> {
    let w = word(l);
    let two = r.facts.files.len() == 2;
    let body = Next::Items <= next && next < Next::End;
    let then = match w {
        "volume" if next == Next::Volume => Next::File,
        "file" if next == Next::File => Next::Items,
        "file" if next == Next::Items => Next::Source,
        "item" if next == Next::Items || next == Next::Source => next,
        "extent" if body && next <= Next::Extents => Next::Extents,
        "place" if body && !two => Next::Places,
        "punch" | "fallocate" if body && !two => Next::End,
        "clone" if body && next != Next::Places => Next::End,
        "volume" | "file" | "item" | "extent" | "place" | "punch" | "fallocate" | "clone" => {
            return Err(match next { Next::End => "behind the request".into(), _ if two && body => format!("{w} behind a second file"), Next::Places => format!("{w} behind a place"), _ => format!("{w} out of order") })
        }
        _ => return Err("no such word".into()),
    };
    match w {
        "place" => number(l.strip_prefix(b"(place ").unwrap_or(b""), U64).filter(|(_, t)| *t == b")").map(|(n, _)| r.facts.places.as_mut().unwrap().push(n)),
        "volume" => form(l, w, &[("sector", 1, U64), ("total", 1, U64), ("generation", 1, U64), ("snapshot", 1, U64)]).map(|v| { r.sector = v[0]; r.total = v[1]; r.facts.generation = v[2]; r.facts.snapshot = v[3]; }),
        "file" => form(l, w, &[("number", 1, U64), ("size", 1, U64), ("cow", 1, 1)]).map(|v| r.facts.files.push(FileFacts { ino: v[0], size: v[1], nodatacow: v[2] == 0, ..Default::default() })),
        "item" => form(l, w, &[("key", 1, U64), ("kind", 1, U8), ("extent", 2, U64), ("window", 2, U64), ("generation", 1, U64), ("ram", 1, U64), ("compression", 1, U8), ("encryption", 1, U8), ("other", 1, U16), ("shared", 1, U8)]).map(|v| {
            let s = ItemSpec { kind: v[1] as u8, start: v[2], disk: v[3], position: v[4], length: v[5], generation: v[6], ram: v[7], compression: v[8] as u8, encryption: v[9] as u8, other: v[10] as u16 };
            let f = r.facts.files.last_mut().unwrap();
            f.items.push((v[0], data(&s)));
            f.shared.push(v[11] as u8);
        }),
        "extent" => form(l, w, &[("at", 1, U64), ("len", 1, U64), ("refs", 1, U64), ("made", 1, U64), ("keyed", 1, U64)]).map(|v| r.facts.rows.push([v[0], v[1], v[2], v[3], v[4]])),
        "punch" => form(l, w, &[("from", 1, U64), ("len", 1, U64)]).map(|v| r.op = Op::Punch(v[0], v[1])),
        "fallocate" => form(l, w, &[("from", 1, U64), ("len", 1, U64), ("keep", 1, 1)]).map(|v| r.op = Op::Fallocate(v[0], v[1], v[2] == 1)),
        _ => form(l, w, &[("from", 1, U64), ("to", 1, U64), ("len", 1, U64)]).map(|v| r.op = Op::Clone(v[0], v[1], v[2])),
    }.ok_or(format!("{w} unreadable"))?;
    Ok(then)
}
