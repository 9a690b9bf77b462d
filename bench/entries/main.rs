// The one-block hash and f1 in plain Rust, by the same steps as the crates, timed over many calls.
use std::hint::black_box;
use std::time::Instant;

const INITIAL: [u32; 8] = [
    0x6a09e667, 0xbb67ae85, 0x3c6ef372, 0xa54ff53a, 0x510e527f, 0x9b05688c, 0x1f83d9ab, 0x5be0cd19,
];

#[inline(always)]
fn mix_at(v: &mut [u32; 16], a: usize, b: usize, c: usize, d: usize, p: u32, q: u32) {
    v[a] = v[a].wrapping_add(v[b]).wrapping_add(p);
    v[d] = (v[d] ^ v[a]).rotate_right(16);
    v[c] = v[c].wrapping_add(v[d]);
    v[b] = (v[b] ^ v[c]).rotate_right(12);
    v[a] = v[a].wrapping_add(v[b]).wrapping_add(q);
    v[d] = (v[d] ^ v[a]).rotate_right(8);
    v[c] = v[c].wrapping_add(v[d]);
    v[b] = (v[b] ^ v[c]).rotate_right(7);
}

#[inline(always)]
fn apply_round(v: &mut [u32; 16], m: &[u32; 16]) {
    mix_at(v, 0, 4, 8, 12, m[0], m[1]);
    mix_at(v, 1, 5, 9, 13, m[2], m[3]);
    mix_at(v, 2, 6, 10, 14, m[4], m[5]);
    mix_at(v, 3, 7, 11, 15, m[6], m[7]);
    mix_at(v, 0, 5, 10, 15, m[8], m[9]);
    mix_at(v, 1, 6, 11, 12, m[10], m[11]);
    mix_at(v, 2, 7, 8, 13, m[12], m[13]);
    mix_at(v, 3, 4, 9, 14, m[14], m[15]);
}

#[inline(always)]
fn permute(m: &[u32; 16]) -> [u32; 16] {
    [
        m[2], m[6], m[3], m[10], m[7], m[0], m[4], m[13], m[1], m[11], m[12], m[5], m[9], m[14], m[15], m[8],
    ]
}

#[inline(never)]
fn hash_block(bytes: &[u8]) -> [u8; 32] {
    let mut block = [0u8; 64];
    block[..bytes.len()].copy_from_slice(bytes);
    let mut m = [0u32; 16];
    for (word, four) in m.iter_mut().zip(block.chunks_exact(4)) {
        *word = u32::from_le_bytes(four.try_into().unwrap());
    }
    let mut v = [0u32; 16];
    v[..8].copy_from_slice(&INITIAL);
    v[8..12].copy_from_slice(&INITIAL[..4]);
    v[14] = bytes.len() as u32;
    v[15] = 11;
    for _ in 0..6 {
        apply_round(&mut v, &m);
        m = permute(&m);
    }
    apply_round(&mut v, &m);
    let mut out = [0u8; 32];
    for i in 0..8 {
        out[4 * i..4 * i + 4].copy_from_slice(&(v[i] ^ v[i + 8]).to_le_bytes());
    }
    out
}

// Four blocks of the stream side by side, as the generator computes them.
type Lanes = [u32; 4];

#[inline(always)]
fn add(x: Lanes, y: Lanes) -> Lanes {
    std::array::from_fn(|i| x[i].wrapping_add(y[i]))
}

#[inline(always)]
fn xor_rotate(x: Lanes, y: Lanes, n: u32) -> Lanes {
    std::array::from_fn(|i| (x[i] ^ y[i]).rotate_left(n))
}

#[inline(always)]
fn quarter(x: &mut [Lanes; 16], a: usize, b: usize, c: usize, d: usize) {
    x[a] = add(x[a], x[b]);
    x[d] = xor_rotate(x[d], x[a], 16);
    x[c] = add(x[c], x[d]);
    x[b] = xor_rotate(x[b], x[c], 12);
    x[a] = add(x[a], x[b]);
    x[d] = xor_rotate(x[d], x[a], 8);
    x[c] = add(x[c], x[d]);
    x[b] = xor_rotate(x[b], x[c], 7);
}

#[inline(never)]
fn four_blocks(key: &[u32; 8], block: u64, out: &mut [u32; 64]) {
    let mut start = [[0u32; 4]; 16];
    for (lanes, word) in start.iter_mut().zip([0x61707865, 0x3320646e, 0x79622d32, 0x6b206574]) {
        *lanes = [word; 4];
    }
    for (lanes, word) in start[4..12].iter_mut().zip(key) {
        *lanes = [*word; 4];
    }
    for lane in 0..4 {
        let counter = block.wrapping_add(lane as u64);
        start[12][lane] = counter as u32;
        start[13][lane] = (counter >> 32) as u32;
    }
    let mut x = start;
    for _ in 0..4 {
        quarter(&mut x, 0, 4, 8, 12);
        quarter(&mut x, 1, 5, 9, 13);
        quarter(&mut x, 2, 6, 10, 14);
        quarter(&mut x, 3, 7, 11, 15);
        quarter(&mut x, 0, 5, 10, 15);
        quarter(&mut x, 1, 6, 11, 12);
        quarter(&mut x, 2, 7, 8, 13);
        quarter(&mut x, 3, 4, 9, 14);
    }
    for word in 0..16 {
        let sums = add(x[word], start[word]);
        for lane in 0..4 {
            out[16 * lane + word] = sums[lane];
        }
    }
}

// One block of the stream.
#[inline(never)]
fn one_block(key: &[u32; 8], block: u64) -> [u32; 16] {
    let mut start = [0u32; 16];
    start[..4].copy_from_slice(&[0x61707865, 0x3320646e, 0x79622d32, 0x6b206574]);
    start[4..12].copy_from_slice(key);
    start[12] = block as u32;
    start[13] = (block >> 32) as u32;
    let mut x = start;
    let mut quarter = |a: usize, b: usize, c: usize, d: usize| {
        x[a] = x[a].wrapping_add(x[b]);
        x[d] = (x[d] ^ x[a]).rotate_left(16);
        x[c] = x[c].wrapping_add(x[d]);
        x[b] = (x[b] ^ x[c]).rotate_left(12);
        x[a] = x[a].wrapping_add(x[b]);
        x[d] = (x[d] ^ x[a]).rotate_left(8);
        x[c] = x[c].wrapping_add(x[d]);
        x[b] = (x[b] ^ x[c]).rotate_left(7);
    };
    for _ in 0..4 {
        quarter(0, 4, 8, 12);
        quarter(1, 5, 9, 13);
        quarter(2, 6, 10, 14);
        quarter(3, 7, 11, 15);
        quarter(0, 5, 10, 15);
        quarter(1, 6, 11, 12);
        quarter(2, 7, 8, 13);
        quarter(3, 4, 9, 14);
    }
    std::array::from_fn(|i| x[i].wrapping_add(start[i]))
}

fn key_of(id: &[u8; 32]) -> [u32; 8] {
    let mut seed = [1u8; 32];
    seed[1..].copy_from_slice(&id[..31]);
    let mut key = [0u32; 8];
    for (word, four) in key.iter_mut().zip(seed.chunks_exact(4)) {
        *word = u32::from_le_bytes(four.try_into().unwrap());
    }
    key
}

// f1 by the three words of its window.
fn f1_of(words: &[u32], k: u32, x: u64, start: u64) -> u64 {
    let window = words[..3].iter().fold(0u128, |sum, word| (sum << 32) + u128::from(word.swap_bytes()));
    let low = window >> (96 - (start % 32) as u32 - k);
    let stream = (low & ((1 << k) - 1)) as u64;
    (stream << 6) + (x >> (k - 6))
}

// By the steps of the proved one, whose generator makes four blocks at a time.
#[inline(never)]
fn f1(id: &[u8; 32], k: u32, x: u64) -> u64 {
    let start = x * u64::from(k);
    let word = start / 32;
    let mut words = [0u32; 64];
    four_blocks(&key_of(id), word / 16, &mut words);
    f1_of(&words[(word % 16) as usize..], k, x, start)
}

// With the one or two blocks alone that the window lies in.
#[inline(never)]
fn f1_few_blocks(id: &[u8; 32], k: u32, x: u64) -> u64 {
    let key = key_of(id);
    let start = x * u64::from(k);
    let word = start / 32;
    let at = (word % 16) as usize;
    let mut words = [0u32; 32];
    words[..16].copy_from_slice(&one_block(&key, word / 16));
    if at + 3 > 16 {
        words[16..].copy_from_slice(&one_block(&key, word / 16 + 1));
    }
    f1_of(&words[at..], k, x, start)
}

fn time_f1(name: &str, f1: fn(&[u8; 32], u32, u64) -> u64) {
    let calls = 1_000_000u64;
    let id = [7u8; 32];
    let start = Instant::now();
    let mut sum = 0u64;
    for x in 0..calls {
        sum = sum.wrapping_add(f1(black_box(&id), 32, x.wrapping_mul(2654435761) % (1 << 32)));
    }
    println!("{name} {} ps a call, {sum}", start.elapsed().as_nanos() as u64 * 1000 / calls);
}

fn main() {
    let calls = 1_000_000u64;
    let start = Instant::now();
    let mut sum = 0u8;
    for x in 0..calls {
        sum ^= hash_block(black_box(&[(x & 0xff) as u8; 37]))[0];
    }
    println!("hash_block {} ps a call, {sum}", start.elapsed().as_nanos() as u64 * 1000 / calls);
    time_f1("f1", f1);
    time_f1("f1_few_blocks", f1_few_blocks);
}
