// The Rust as extplan (`src/extplan.rs`), random inputs for it (`src/texts.rs`) and, with our side linked (cfg ours), both compared on
// bytes (`src/fuzz.rs`, `src/broken.rs`, `src/applies.rs`). README.md says how each is called.
mod stubs;
pub use stubs::*;
#[path = "../sources/clone.rs"]
#[allow(dead_code)]
mod clone;
#[path = "../sources/fallocate.rs"]
#[allow(dead_code)]
mod fallocate;
#[path = "../sources/write.rs"]
#[allow(dead_code)]
mod write;
#[path = "../sources/regular_extent_item.rs"]
mod cow_write;
mod oracle;
mod lent;
mod text;
mod form;
mod extplan;
mod branches;
#[cfg_attr(not(ours), allow(dead_code))]
mod gen;
#[cfg_attr(not(ours), allow(dead_code))]
mod clones;
mod broken;
mod texts;
#[cfg(ours)]
mod ours;
#[cfg(ours)]
mod fuzz;
#[cfg(ours)]
mod applying;
#[cfg(ours)]
mod applies;

const USE: &str = "oracle extplan|text <INPUT | gen|sample SEED COUNT | through PROGRAM <INPUTS | compare ANSWERS [counts] <INPUTS
oracle fuzz|bytes SEED COUNT [fallocate|clone] | large SEED COUNT [clone] | applies SEED COUNT [large]   (built with libzagxuli.a)";
fn main() {
    std::panic::set_hook(Box::new(|_| {}));
    let a: Vec<String> = std::env::args().collect();
    let word = |i: usize| a.get(i).map_or("", |s| s.as_str());
    let number = |i: usize| word(i).parse::<u64>().unwrap_or_else(|_| { eprintln!("{USE}"); std::process::exit(2) });
    #[cfg(ours)]
    let (make, large) = match word(4) {
        "" => (gen::punch as fn(&mut gen::Rng) -> oracle::Request, gen::large as fn(&mut gen::Rng) -> oracle::Request),
        "fallocate" => (gen::fallocate as _, gen::large as _),
        "clone" => (clones::clone as _, clones::large as _),
        "large" if word(1) == "applies" => (gen::punch as _, gen::large as _),
        w => { eprintln!("no requests of {w}"); std::process::exit(2) }
    };
    match word(1) {
        #[cfg(ours)]
        "fuzz" => fuzz::fuzz(make, number(2), number(3)),
        #[cfg(ours)]
        "large" => fuzz::fuzz(large, number(2), number(3)),
        #[cfg(ours)]
        "bytes" => broken::fuzz(make, number(2), number(3)),
        #[cfg(ours)]
        "applies" => applies::fuzz(if word(4) == "large" { applies::large } else { applies::any }, number(2), number(3)),
        "extplan" => extplan::one(),
        "text" => extplan::text(),
        "through" => extplan::through(word(2)),
        "compare" => if !extplan::compare(word(2), word(3) == "counts") { std::process::exit(1) },
        "gen" => texts::print(number(2), number(3)),
        "sample" => texts::sample(number(2), number(3)),
        _ => { eprintln!("{USE}"); std::process::exit(2) }
    }
}
