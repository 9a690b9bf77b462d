// The seven tables of an id in plain Rust, all in memory or on lists on pages, with the processor's time of each stage:
// bench/forward/run.sh builds it.
#![feature(portable_simd)]

mod on_pages;
#[path = "../pages.rs"]
mod pages;
#[path = "../plot/tables.rs"]
mod tables;

use on_pages::tables_on_pages;
use tables::{Stages, tables_of};

// How many entries each table has.
fn counts<const K: u32>(on_pages: bool, stages: &mut Stages) -> Vec<u64> {
    let id = [0x5a; 32];
    if on_pages {
        return tables_on_pages::<K>(&id, stages);
    }
    let tables = tables_of::<K>(&id, stages);
    // Nothing of the last table is left out by the compiler.
    std::hint::black_box(&tables.last);
    let mut counts = vec![tables.values.len() as u64];
    counts.extend(tables.pairs.iter().map(|pairs| pairs.len() as u64));
    counts
}

fn main() {
    let words: Vec<String> = std::env::args().collect();
    let on_pages = words[2] == "pages";
    let mut stages = Stages::new();
    let counts = match words[1].as_str() {
        "16" => counts::<16>(on_pages, &mut stages),
        "18" => counts::<18>(on_pages, &mut stages),
        "20" => counts::<20>(on_pages, &mut stages),
        _ => counts::<22>(on_pages, &mut stages),
    };
    stages.show();
    let counts: Vec<String> = counts.iter().map(|count| count.to_string()).collect();
    println!("entries {}", counts.join(" "));
}
