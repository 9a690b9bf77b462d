// Plain Rust that packs the same bits through one page buffer, and reads them in order: bench/lists/run.sh builds it.
#[path = "../pages.rs"]
mod pages;

use pages::{PAGE, Pages, number_at, page_buffer};
use std::time::Instant;

const COUNT: u64 = 10_000_000;

fn next(x: u64) -> u64 {
    x.wrapping_mul(6364136223846793005).wrapping_add(1442695040888963407)
}

fn tell(name: &str, start: Instant, sum: u64) {
    println!("{name} {} ps a record ({sum})", start.elapsed().as_nanos() as u64 * 1000 / COUNT);
}

fn main() {
    let mut pages = Pages::new("plain.pairs");
    let records = (PAGE * 8 / 42) as u64;
    let start = Instant::now();
    let mut x = 1;
    for i in 0..COUNT {
        if i > 0 && i % records == 0 {
            pages.end_page();
        }
        x = next(x);
        pages.put(x >> 43, 21);
        pages.put((x >> 20) % 2_097_152, 21);
    }
    pages.end_page();
    tell("push_42", start, x);
    let start = Instant::now();
    let mut page = page_buffer();
    let mut sum = 0u64;
    for i in 0..COUNT {
        if i % records == 0 {
            pages.read_page(i / records, &mut page);
        }
        let at = (i % records) as usize * 42;
        sum = sum.wrapping_add(number_at(&page, at, 21) ^ number_at(&page, at + 21, 21));
    }
    tell("read_42", start, sum);

    let mut pages = Pages::new("plain.rows");
    let records = (PAGE * 8 / 232) as u64;
    let start = Instant::now();
    let mut x = 1;
    for i in 0..COUNT {
        if i > 0 && i % records == 0 {
            pages.end_page();
        }
        x = next(x);
        pages.put(x >> 26, 38);
        let meta = (x as u128).wrapping_mul(0x1_0000_0000_0000_0001);
        pages.put((meta >> 72) as u64, 56);
        pages.put((meta >> 16) as u64 & 0xff_ffff_ffff_ffff, 56);
        pages.put((meta & 0xffff) as u64, 16);
        pages.put(x >> 31, 33);
        pages.put(i, 33);
    }
    pages.end_page();
    tell("push_232", start, x);
    let start = Instant::now();
    let mut sum = 0u64;
    for i in 0..COUNT {
        if i % records == 0 {
            pages.read_page(i / records, &mut page);
        }
        let at = (i % records) as usize * 232;
        let meta = (number_at(&page, at + 38, 56) as u128) << 72 | (number_at(&page, at + 94, 56) as u128) << 16 | number_at(&page, at + 150, 16) as u128;
        sum = sum
            .wrapping_add(number_at(&page, at, 38))
            .wrapping_add((meta >> 64) as u64 ^ (meta & u64::MAX as u128) as u64)
            .wrapping_add(number_at(&page, at + 166, 33))
            .wrapping_add(number_at(&page, at + 199, 33));
    }
    tell("read_232", start, sum);
    std::fs::remove_file("plain.pairs").unwrap();
    std::fs::remove_file("plain.rows").unwrap();
}
