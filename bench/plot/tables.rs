// The seven tables of an id in plain Rust, by the same steps as the proved crates but all in memory, on one core: rows of 32
// bytes, the targets as sums of two small tables, eight hashes side by side, the sort of the standard library.
use std::simd::num::SimdUint;
use std::simd::u32x4;

const B: usize = 119;
const C: usize = 127;
pub const BUCKET: u64 = (B * C) as u64;
const TARGETS: usize = 64;

// The processor's time of this process, of the program and of the system for it, shared out to stages.
pub struct Stages {
    last: u64,
    spent: Vec<(&'static str, u64)>,
}

#[repr(C)]
struct Timespec {
    seconds: i64,
    nanoseconds: i64,
}

unsafe extern "C" {
    fn clock_gettime(clock: i32, time: *mut Timespec) -> i32;
}

fn processor_time() -> u64 {
    let mut time = Timespec { seconds: 0, nanoseconds: 0 };
    // 2 is the clock of the process.
    unsafe { clock_gettime(2, &mut time) };
    time.seconds as u64 * 1_000_000_000 + time.nanoseconds as u64
}

impl Stages {
    pub fn new() -> Stages {
        Stages { last: processor_time(), spent: Vec::new() }
    }

    // What was spent since the last call is this stage's.
    pub fn end(&mut self, name: &'static str) {
        let now = processor_time();
        let time = now - self.last;
        self.last = now;
        match self.spent.iter_mut().find(|stage| stage.0 == name) {
            Some(stage) => stage.1 += time,
            None => self.spent.push((name, time)),
        }
    }

    pub fn show(&self) {
        for (name, time) in &self.spent {
            println!("{name} {} us", time / 1000);
        }
    }
}

// A number in 128 bits, as two words, so that a row has 32 bytes.
#[derive(Clone, Copy, Default)]
pub struct Metadata {
    pub high: u64,
    pub low: u64,
}

impl Metadata {
    #[inline(always)]
    pub fn of(number: u128) -> Metadata {
        Metadata { high: (number >> 64) as u64, low: number as u64 }
    }

    #[inline(always)]
    fn number(self) -> u128 {
        ((self.high as u128) << 64) | self.low as u128
    }
}

#[derive(Clone, Copy, Default)]
pub struct Row {
    pub y: u64,
    pub meta: Metadata,
    pub left: u32,
    pub right: u32,
}

// The tables: the values of table 1 by place, the pairs of tables 2 to 7, and the y of table 7.
pub struct Tables {
    pub values: Vec<u32>,
    pub pairs: Vec<Vec<(u32, u32)>>,
    pub last: Vec<u64>,
}

// f1: the cipher's stream in order, four blocks at a time.

#[inline(always)]
fn xor_rotate(x: u32x4, y: u32x4, n: u32) -> u32x4 {
    let z = x ^ y;
    (z << u32x4::splat(n)) | (z >> u32x4::splat(32 - n))
}

#[inline(always)]
fn quarter(x: &mut [u32x4; 16], a: usize, b: usize, c: usize, d: usize) {
    x[a] += x[b];
    x[d] = xor_rotate(x[d], x[a], 16);
    x[c] += x[d];
    x[b] = xor_rotate(x[b], x[c], 12);
    x[a] += x[b];
    x[d] = xor_rotate(x[d], x[a], 8);
    x[c] += x[d];
    x[b] = xor_rotate(x[b], x[c], 7);
}

#[inline(never)]
fn four_blocks(key: &[u32; 8], block: u32, out: &mut [u32; 64]) {
    let mut start = [u32x4::splat(0); 16];
    for (lanes, word) in start.iter_mut().zip([0x61707865, 0x3320646e, 0x79622d32, 0x6b206574]) {
        *lanes = u32x4::splat(word);
    }
    for (lanes, word) in start[4..12].iter_mut().zip(key) {
        *lanes = u32x4::splat(*word);
    }
    start[12] = u32x4::from_array([block, block + 1, block + 2, block + 3]);
    let mut x = start;
    for _ in 0..4 {
        quarter(&mut x, 0, 4, 8, 12);
        quarter(&mut x, 1, 5, 9, 13);
        quarter(&mut x, 2, 6, 10, 14);
        quarter(&mut x, 3, 7, 11, 15);
        quarter(&mut x, 0, 5, 10, 15);
        quarter(&mut x, 1, 6, 11, 12);
        quarter(&mut x, 2, 7, 8, 13);
        quarter(&mut x, 3, 4, 9, 14);
    }
    for word in 0..16 {
        let sums = (x[word] + start[word]).to_array();
        for lane in 0..4 {
            out[16 * lane + word] = sums[lane];
        }
    }
}

// y and value of each entry of table 1, by value.
pub fn first_rows<const K: u32>(id: &[u8; 32]) -> Vec<(u64, u64)> {
    let mut seed = [1u8; 32];
    seed[1..].copy_from_slice(&id[..31]);
    let mut key = [0u32; 8];
    for (word, four) in key.iter_mut().zip(seed.chunks_exact(4)) {
        *word = u32::from_le_bytes(four.try_into().unwrap());
    }
    let mut words = [0u32; 64];
    let (mut block, mut at) = (0, 64);
    let (mut window, mut fill) = (0u64, 0);
    let mut rows = Vec::with_capacity(1 << K);
    for x in 0..1u64 << K {
        if fill < K {
            if at == 64 {
                four_blocks(&key, block, &mut words);
                block += 4;
                at = 0;
            }
            window = (window << 32) | words[at].swap_bytes() as u64;
            at += 1;
            fill += 32;
        }
        fill -= K;
        let stream = (window >> fill) & ((1 << K) - 1);
        rows.push(((stream << 6) + (x >> (K - 6)), x));
    }
    rows
}

// Matching.

pub struct Targets {
    highs: Vec<u16>,
    lows: Vec<u16>,
    marks: Vec<u8>,
    firsts: Vec<u32>,
}

impl Targets {
    pub fn new() -> Targets {
        let highs = (0..B + TARGETS - 1).map(|i| (i % B * C) as u16).collect();
        let lows = (0..2 * C * TARGETS).map(|i| {
            let (line, m) = (i / TARGETS, i % TARGETS);
            let root = 2 * m + line / C;
            ((root * root + line % C) % C) as u16
        });
        Targets {
            highs,
            lows: lows.collect(),
            marks: vec![0; BUCKET as usize],
            firsts: vec![0; BUCKET as usize],
        }
    }

    // The matching pairs of two neighbouring buckets, whose first places are these.
    pub fn list(&mut self, left: &[Row], right: &[Row], first: (u32, u32), pairs: &mut Vec<(u32, u32)>) {
        let base = right[0].y / BUCKET * BUCKET;
        for (i, row) in right.iter().enumerate() {
            let place = (row.y - base) as usize;
            if self.marks[place] == 0 {
                self.marks[place] = 1;
                self.firsts[place] = i as u32;
            }
        }
        let parity = (left[0].y / BUCKET % 2) as usize;
        let marks: &[u8; B * C] = self.marks.as_slice().try_into().unwrap();
        let firsts: &[u32; B * C] = self.firsts.as_slice().try_into().unwrap();
        for (i, row) in left.iter().enumerate() {
            let place = (row.y % BUCKET) as usize;
            let highs: &[u16; TARGETS] = self.highs[place / C..place / C + TARGETS].try_into().unwrap();
            let low = (parity * C + place % C) * TARGETS;
            let lows: &[u16; TARGETS] = self.lows[low..low + TARGETS].try_into().unwrap();
            let mut hits = 0u64;
            for m in (0..TARGETS).rev() {
                hits = hits * 2 + marks[(highs[m] + lows[m]) as usize] as u64;
            }
            while hits != 0 {
                let m = hits.trailing_zeros() as usize;
                hits &= hits - 1;
                let target = (highs[m] + lows[m]) as usize;
                let y = base + target as u64;
                for j in firsts[target] as usize..right.len() {
                    if right[j].y != y {
                        break;
                    }
                    pairs.push((first.0 + i as u32, first.1 + j as u32));
                }
            }
        }
        for row in right {
            self.marks[(row.y - base) as usize] = 0;
        }
    }
}

// Where the bucket ends that begins at this place.
fn end_of(rows: &[Row], start: usize) -> usize {
    let limit = (rows[start].y / BUCKET + 1) * BUCKET;
    rows[start..].iter().position(|row| row.y >= limit).map_or(rows.len(), |count| start + count)
}

#[inline(never)]
fn list_pairs(targets: &mut Targets, rows: &[Row], pairs: &mut Vec<(u32, u32)>) {
    pairs.clear();
    let (mut start, mut middle) = (0, end_of(rows, 0));
    while middle < rows.len() {
        let end = end_of(rows, middle);
        if rows[start].y / BUCKET + 1 == rows[middle].y / BUCKET {
            targets.list(&rows[start..middle], &rows[middle..end], (start as u32, middle as u32), pairs);
        }
        (start, middle) = (middle, end);
    }
}

// BLAKE3 of one block, four side by side.

const INITIAL: [u32; 8] = [
    0x6a09e667, 0xbb67ae85, 0x3c6ef372, 0xa54ff53a, 0x510e527f, 0x9b05688c, 0x1f83d9ab, 0x5be0cd19,
];

#[inline(always)]
fn mix(v: &mut [u32x4; 16], a: usize, b: usize, c: usize, d: usize, p: u32x4, q: u32x4) {
    v[a] = v[a] + v[b] + p;
    v[d] = xor_rotate(v[d], v[a], 16);
    v[c] += v[d];
    v[b] = xor_rotate(v[b], v[c], 20);
    v[a] = v[a] + v[b] + q;
    v[d] = xor_rotate(v[d], v[a], 24);
    v[c] += v[d];
    v[b] = xor_rotate(v[b], v[c], 25);
}

#[inline(always)]
fn round(v: &mut [u32x4; 16], m: &[u32x4; 16]) {
    mix(v, 0, 4, 8, 12, m[0], m[1]);
    mix(v, 1, 5, 9, 13, m[2], m[3]);
    mix(v, 2, 6, 10, 14, m[4], m[5]);
    mix(v, 3, 7, 11, 15, m[6], m[7]);
    mix(v, 0, 5, 10, 15, m[8], m[9]);
    mix(v, 1, 6, 11, 12, m[10], m[11]);
    mix(v, 2, 7, 8, 13, m[12], m[13]);
    mix(v, 3, 4, 9, 14, m[14], m[15]);
}

#[inline(always)]
fn permuted(m: &[u32x4; 16]) -> [u32x4; 16] {
    [
        m[2], m[6], m[3], m[10], m[7], m[0], m[4], m[13], m[1], m[11], m[12], m[5], m[9], m[14], m[15], m[8],
    ]
}

// Words 2 i and 2 i + 1 of the hashed text of four entries, of word i of each.
#[inline(always)]
fn two_words(texts: &[[u64; 8]; 4], i: usize) -> [u32x4; 2] {
    let high = |j: usize| ((texts[j][i] >> 32) as u32).swap_bytes();
    let low = |j: usize| (texts[j][i] as u32).swap_bytes();
    [
        u32x4::from_array([high(0), high(1), high(2), high(3)]),
        u32x4::from_array([low(0), low(1), low(2), low(3)]),
    ]
}

// The first 192 bits of four hashes.
#[inline(always)]
fn hash4(texts: &[[u64; 8]; 4], bytes: u32) -> [[u64; 3]; 4] {
    let mut m = [u32x4::splat(0); 16];
    for i in 0..8 {
        [m[2 * i], m[2 * i + 1]] = two_words(texts, i);
    }
    let mut v = [u32x4::splat(0); 16];
    for i in 0..8 {
        v[i] = u32x4::splat(INITIAL[i]);
    }
    for i in 0..4 {
        v[8 + i] = u32x4::splat(INITIAL[i]);
    }
    v[14] = u32x4::splat(bytes);
    v[15] = u32x4::splat(11);
    for _ in 0..6 {
        round(&mut v, &m);
        m = permuted(&m);
    }
    round(&mut v, &m);
    let mut words = [[0; 4]; 6];
    for i in 0..6 {
        words[i] = (v[i] ^ v[i + 8]).swap_bytes().to_array();
    }
    std::array::from_fn(|j| std::array::from_fn(|i| ((words[2 * i][j] as u64) << 32) | words[2 * i + 1][j] as u64))
}

// fx.

pub fn units_of(t: u32) -> u32 {
    [0, 1, 2, 4, 4, 3, 2, 0][t as usize]
}

// Puts the low bits of a number, from 1 to 128 of them, behind the first `at` bits of a text.
#[inline(always)]
fn put(text: &mut [u64; 8], at: u32, number: u128, width: u32) {
    let number = number << (128 - width);
    let (high, low) = ((number >> 64) as u64, number as u64);
    let (word, skip) = ((at / 64) as usize, at % 64);
    text[word] |= high >> skip;
    text[word + 1] |= ((high << 1) << (63 - skip)) | (low >> skip);
    text[word + 2] |= (low << 1) << (63 - skip);
}

// The row of table t of two rows of the table below by their hash.
#[inline(always)]
fn row_of<const K: u32>(t: u32, left: &Row, right: &Row, pair: (u32, u32), hash: &[u64; 3]) -> Row {
    let width = K * units_of(t);
    let meta = if t < 4 {
        (left.meta.number() << (width / 2)) | right.meta.number()
    } else if t < 7 {
        let skip = K + 6;
        let high = (hash[0] << skip) | (hash[1] >> (64 - skip));
        let low = (hash[1] << skip) | (hash[2] >> (64 - skip));
        (((high as u128) << 64) | low as u128) >> (128 - width)
    } else {
        0
    };
    Row { y: hash[0] >> (64 - (K + 6)), meta: Metadata::of(meta), left: pair.0, right: pair.1 }
}

// Four rows of table t, each of a left and a right row of the table below that stand at the places of a pair.
#[inline(always)]
pub fn four_rows<const K: u32>(t: u32, left: [&Row; 4], right: [&Row; 4], pairs: &[(u32, u32); 4]) -> [Row; 4] {
    let width = K * units_of(t - 1);
    let mut texts = [[0u64; 8]; 4];
    for (i, text) in texts.iter_mut().enumerate() {
        put(text, 0, left[i].y as u128, K + 6);
        put(text, K + 6, left[i].meta.number(), width);
        put(text, K + 6 + width, right[i].meta.number(), width);
    }
    let hashes = hash4(&texts, (K + 6 + 2 * width).div_ceil(8));
    std::array::from_fn(|i| row_of::<K>(t, left[i], right[i], pairs[i], &hashes[i]))
}

#[inline(always)]
fn four_of<const K: u32>(t: u32, rows: &[Row], pairs: &[(u32, u32); 4]) -> [Row; 4] {
    let left = pairs.map(|pair| &rows[pair.0 as usize]);
    let right = pairs.map(|pair| &rows[pair.1 as usize]);
    four_rows::<K>(t, left, right, pairs)
}

#[inline(never)]
fn make_rows<const K: u32>(t: u32, rows: &[Row], pairs: &[(u32, u32)], made: &mut Vec<Row>) {
    made.clear();
    let (fours, rest) = pairs.as_chunks::<4>();
    for four in fours {
        made.extend_from_slice(&four_of::<K>(t, rows, four));
    }
    if let Some(last) = rest.last() {
        let mut four = [*last; 4];
        four[..rest.len()].copy_from_slice(rest);
        made.extend_from_slice(&four_of::<K>(t, rows, &four)[..rest.len()]);
    }
}

pub fn tables_of<const K: u32>(id: &[u8; 32], stages: &mut Stages) -> Tables {
    let mut first = first_rows::<K>(id);
    stages.end("f1");
    first.sort_unstable_by_key(|row| row.0);
    stages.end("sort of table 1");
    let values = first.iter().map(|row| row.1 as u32).collect();
    let mut rows: Vec<Row> = Vec::with_capacity((1 << K) + (1 << (K - 4)));
    rows.extend(first.iter().map(|row| Row { y: row.0, meta: Metadata::of(row.1 as u128), left: 0, right: 0 }));
    drop(first);
    stages.end("columns");
    let mut made = Vec::with_capacity((1 << K) + (1 << (K - 4)));
    let mut targets = Targets::new();
    let mut found = Vec::new();
    let mut pairs = Vec::new();
    for t in 2..=7 {
        if rows.is_empty() {
            pairs.push(Vec::new());
            continue;
        }
        list_pairs(&mut targets, &rows, &mut found);
        stages.end("matching");
        make_rows::<K>(t, &rows, &found, &mut made);
        stages.end("fx");
        made.sort_unstable_by_key(|row| row.y);
        stages.end("sort");
        pairs.push(made.iter().map(|row| (row.left, row.right)).collect());
        (rows, made) = (made, rows);
        stages.end("columns");
    }
    Tables { values, pairs, last: rows.iter().map(|row| row.y).collect() }
}
