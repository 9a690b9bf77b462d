// Line points in plain Rust, by the same steps as the crate pos_points, timed over many calls.
use std::hint::black_box;
use std::time::Instant;

#[derive(Clone, Copy)]
struct Root {
    root: u64,
    rest: u64,
}

#[inline(always)]
fn refine(high: Root, digits: u64, base: u64) -> Root {
    let dividend = high.rest * base + digits / base;
    let divisor = 2 * high.root;
    let quotient = dividend / divisor;
    let square = quotient * quotient;
    let root = high.root * base + quotient;
    let left = dividend % divisor * base + digits % base;
    if square <= left {
        Root { root, rest: left - square }
    } else {
        Root { root: root - 1, rest: root + (root - 1) - (square - left) }
    }
}

#[inline(always)]
fn root_of_byte(n: u64) -> Root {
    let root = 8
        + u64::from(n >= 81)
        + u64::from(n >= 100)
        + u64::from(n >= 121)
        + u64::from(n >= 144)
        + u64::from(n >= 169)
        + u64::from(n >= 196)
        + u64::from(n >= 225);
    Root { root, rest: n - root * root }
}

#[inline(always)]
fn root_of_word(n: u64) -> Root {
    let byte = root_of_byte(n >> 56);
    let short = refine(byte, (n >> 48) % 256, 16);
    let half = refine(short, (n >> 32) % 65536, 256);
    refine(half, n % (1 << 32), 65536)
}

fn root_of(n: u128) -> u64 {
    let half = n.leading_zeros() / 2 - 1;
    let wide = n << (2 * half);
    let high = root_of_word((wide >> 62) as u64);
    refine(high, (wide % (1 << 62)) as u64, 1 << 31).root >> half
}

fn first_point(a: u64) -> u128 {
    u128::from(a) * u128::from(a - 1) / 2
}

#[inline(never)]
fn from_point(point: u128) -> (u64, u64) {
    let root = root_of(2 * point + 1);
    let next = root + 1;
    let greater = if first_point(next) <= point { next } else { root };
    (greater, (point - first_point(greater)) as u64)
}

#[inline(never)]
fn to_point(a: u64, b: u64) -> u128 {
    let (greater, lesser) = if a < b { (b, a) } else { (a, b) };
    let greater = u128::from(greater);
    greater * (greater - 1) / 2 + u128::from(lesser)
}

const CALLS: u64 = 20_000_000;

fn main() {
    let calls = black_box(CALLS);
    let start = Instant::now();
    let mut x: u64 = 1;
    let mut sum: u64 = 0;
    for _ in 0..calls {
        x = x.wrapping_mul(6364136223846793005).wrapping_add(1442695040888963407);
        let pair = from_point(u128::from(x) * 4);
        sum = sum.wrapping_add(pair.0 ^ pair.1);
    }
    println!("from_point {} ps a call, {sum}", start.elapsed().as_nanos() as u64 * 1000 / calls);
    let start = Instant::now();
    let mut x = sum;
    let mut sum: u64 = 0;
    for _ in 0..calls {
        x = x.wrapping_mul(6364136223846793005).wrapping_add(1442695040888963407);
        let point = to_point(x >> 31, (x >> 31) ^ 1);
        sum = sum.wrapping_add((point >> 3) as u64);
    }
    println!("to_point {} ps a call, {sum}", start.elapsed().as_nanos() as u64 * 1000 / calls);
}
