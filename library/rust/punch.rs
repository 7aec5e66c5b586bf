//! A hole punched into the middle of one extent: the plan is printed, applied, and the file's new items counted. The caller would write
//! the items, the sectors (none here) and the size.
mod zagxuli;
use zagxuli::{apply, punch, with_stack, Answer, File, Lent, Outputs, Volume};

/// A regular item that shows a whole extent.
fn item(number: u64, key: u64, start: u64, length: u64) -> Vec<u8> {
    let mut r = Vec::new();
    r.extend(number.to_le_bytes());
    r.push(108);
    r.extend(key.to_le_bytes());
    for n in [5, length] {
        r.extend(n.to_le_bytes()); // generation, ram bytes
    }
    r.extend([0, 0, 0, 0, 1]); // compression, encryption, other encoding, kind
    for n in [start, length, 0, length] {
        r.extend(n.to_le_bytes()); // extent, window
    }
    r
}

fn print_edit(edit: &[u8]) {
    let at = |i: usize| u64::from_le_bytes(edit[i + 1..i + 9].try_into().unwrap());
    match edit[0] {
        2 => println!("delete key {}", at(9)),
        _ => println!("put key {}, kind {}, extent {} {}, window {} {}", at(9), edit[38], at(38), at(46), at(54), at(62)),
    }
}

fn print_lines(name: &str, lines: &[u64], width: usize) {
    for line in lines.chunks(width) {
        print!("{name}");
        for n in line {
            print!(" {n}");
        }
        println!();
    }
}

fn main() {
    let volume = Volume { sector: 4096, total: 1073741824, generation: 7, snapshot: 0 };
    let file = File { number: 257, size: 16384, nodatacow: false };
    let mut list = item(file.number, 0, 1048576, 16384);
    let mut table = vec![1048576, 16384, 1, 5, 0];
    let mut outputs = Outputs::for_records(1, 0, 0);
    let lent = Lent { list: &list, shared: &[0], table: &table, places: &[] };
    let plan = match punch(volume, file, 4096, 4096, lent, &mut outputs) {
        Answer::Plan(plan) => plan,
        Answer::Nothing => return println!("nothing to do"),
        Answer::Refused(why) => return println!("refused: {why}"),
    };
    println!("plan: size {}, bytes {}, prealloc {}", plan.size, plan.bytes, plan.prealloc as u8);
    plan.edits.chunks(71).for_each(print_edit);
    print_lines("share", plan.shares, 2);
    print_lines("unref", plan.unrefs, 2);
    print_lines("release", plan.releases, 2);
    print_lines("add", plan.adds, 3);
    print_lines("write", plan.writes, 4);

    list.resize(70 * 8, 0); // room for more behind the one record and the one row
    table.resize(5 * 8, 0);
    // one row needs little stack; many need more than a spawned thread has by default
    let applied = with_stack(|| apply(volume.sector, volume.generation + 1, file.number, &mut list, 1, &mut table, 1, &plan));
    match applied {
        Ok((items, rows)) => {
            println!("applied: items {items}, rows {rows}");
            print_lines("row", &table[..rows * 5], 5);
        }
        Err(why) => println!("not applied: {why}"),
    }
}
