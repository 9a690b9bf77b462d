// The whole of a plot in plain Rust, all in memory, with the processor's time of each stage: bench/plot/run.sh builds it.
// The file is, byte for byte, the one that the proved program writes, in the second layout without a memo.
#![feature(portable_simd)]

mod tables;

use std::fs::File;
use std::os::unix::fs::FileExt;
use std::path::Path;
use tables::{Stages, Tables, tables_of};

const HEADER_BYTES: usize = 176;

// What a layout of the file fixes: its name, how many numbers a full park has, and how many bytes of its SHA-256 are kept of a park.
struct Layout {
    name: &'static [u8; 15],
    most_numbers: usize,
    digest_bytes: usize,
}

const ONE: Layout = Layout { name: b"SPACEPLOT-OWN-1", most_numbers: 2048, digest_bytes: 8 };
const TWO: Layout = Layout { name: b"SPACEPLOT-OWN-2", most_numbers: 4096, digest_bytes: 16 };

// SHA-256, by the steps of the library that the proved crates use.

const K32: [u32; 64] = [
    0x428a2f98, 0x71374491, 0xb5c0fbcf, 0xe9b5dba5, 0x3956c25b, 0x59f111f1, 0x923f82a4, 0xab1c5ed5, 0xd807aa98,
    0x12835b01, 0x243185be, 0x550c7dc3, 0x72be5d74, 0x80deb1fe, 0x9bdc06a7, 0xc19bf174, 0xe49b69c1, 0xefbe4786,
    0x0fc19dc6, 0x240ca1cc, 0x2de92c6f, 0x4a7484aa, 0x5cb0a9dc, 0x76f988da, 0x983e5152, 0xa831c66d, 0xb00327c8,
    0xbf597fc7, 0xc6e00bf3, 0xd5a79147, 0x06ca6351, 0x14292967, 0x27b70a85, 0x2e1b2138, 0x4d2c6dfc, 0x53380d13,
    0x650a7354, 0x766a0abb, 0x81c2c92e, 0x92722c85, 0xa2bfe8a1, 0xa81a664b, 0xc24b8b70, 0xc76c51a3, 0xd192e819,
    0xd6990624, 0xf40e3585, 0x106aa070, 0x19a4c116, 0x1e376c08, 0x2748774c, 0x34b0bcb5, 0x391c0cb3, 0x4ed8aa4a,
    0x5b9cca4f, 0x682e6ff3, 0x748f82ee, 0x78a5636f, 0x84c87814, 0x8cc70208, 0x90befffa, 0xa4506ceb, 0xbef9a3f7,
    0xc67178f2,
];

#[inline(always)]
fn sha_round(v: [u32; 8], k: u32, word: u32) -> [u32; 8] {
    let [a, b, c, d, e, f, g, h] = v;
    let sigma1 = (e ^ (e ^ e.rotate_right(14)).rotate_right(5)).rotate_right(6);
    let ch = g ^ (e & (f ^ g));
    let temp1 = h.wrapping_add(sigma1).wrapping_add(ch).wrapping_add(k).wrapping_add(word);
    let sigma0 = (a ^ (a ^ a.rotate_right(9)).rotate_right(11)).rotate_right(2);
    let maj = b ^ ((a ^ b) & (b ^ c));
    [temp1.wrapping_add(sigma0.wrapping_add(maj)), a, b, c, d.wrapping_add(temp1), e, f, g]
}

#[inline(always)]
fn next_word(w: &mut [u32; 16], place: usize) -> u32 {
    let one = w[(place + 14) % 16];
    let zero = w[(place + 1) % 16];
    let sigma1 = (one ^ one.rotate_right(2)).rotate_right(17) ^ (one >> 10);
    let sigma0 = (zero ^ zero.rotate_right(11)).rotate_right(7) ^ (zero >> 3);
    let word = sigma1.wrapping_add(w[(place + 9) % 16]).wrapping_add(sigma0).wrapping_add(w[place]);
    w[place] = word;
    word
}

#[inline(never)]
fn sha_block(state: &mut [u32; 8], block: &[u8; 64]) {
    let mut w = [0u32; 16];
    for (word, four) in w.iter_mut().zip(block.chunks_exact(4)) {
        *word = u32::from_be_bytes(four.try_into().unwrap());
    }
    let mut v = *state;
    macro_rules! steps {
        ($step:ident: $($place:literal)*) => { $( $step!($place); )* };
    }
    macro_rules! first {
        ($place:literal) => { v = sha_round(v, K32[$place], w[$place]); };
    }
    steps!(first: 0 1 2 3 4 5 6 7 8 9 10 11 12 13 14 15);
    for turn in 1..4 {
        macro_rules! step {
            ($place:literal) => { v = sha_round(v, K32[16 * turn + $place], next_word(&mut w, $place)); };
        }
        steps!(step: 0 1 2 3 4 5 6 7 8 9 10 11 12 13 14 15);
    }
    for (sum, word) in state.iter_mut().zip(v) {
        *sum = sum.wrapping_add(word);
    }
}

#[inline(never)]
fn park_digest(park: &[u8]) -> [u8; 32] {
    let mut state = [
        0x6a09e667, 0xbb67ae85, 0x3c6ef372, 0xa54ff53a, 0x510e527f, 0x9b05688c, 0x1f83d9ab, 0x5be0cd19,
    ];
    let (blocks, tail) = park.as_chunks::<64>();
    for block in blocks {
        sha_block(&mut state, block);
    }
    let mut last = [0u8; 128];
    last[..tail.len()].copy_from_slice(tail);
    last[tail.len()] = 0x80;
    let end = if tail.len() < 56 { 64 } else { 128 };
    last[end - 8..end].copy_from_slice(&(8 * park.len() as u64).to_be_bytes());
    for block in last[..end].as_chunks::<64>().0 {
        sha_block(&mut state, block);
    }
    let mut digest = [0; 32];
    for (four, word) in digest.chunks_exact_mut(4).zip(state) {
        four.copy_from_slice(&word.to_be_bytes());
    }
    digest
}

// Parks. All numbers have at most 64 bits at the sizes here.

struct BitWriter {
    bytes: Vec<u8>,
    rest: u64,
    fill: u32,
}

impl BitWriter {
    // Appends at most 64 bits.
    #[inline(always)]
    fn put(&mut self, value: u64, width: u32) {
        let room = 64 - self.fill;
        if width < room {
            self.rest = (self.rest << width) | value;
            self.fill += width;
        } else {
            let left = width - room;
            let word = if room < 64 { (self.rest << room) | (value >> left) } else { value >> left };
            self.bytes.extend_from_slice(&word.to_be_bytes());
            self.rest = value & ((1 << left) - 1);
            self.fill = left;
        }
    }

    fn put_run(&mut self, ones: u64) {
        let mut left = ones;
        while left >= 32 {
            self.put(0xffff_ffff, 32);
            left -= 32;
        }
        self.put((2 << left) - 2, left as u32 + 1);
    }

    fn finish(&mut self) {
        if self.fill > 0 {
            let last = (self.rest << (64 - self.fill)).to_be_bytes();
            self.bytes.extend_from_slice(&last[..self.fill.div_ceil(8) as usize]);
        }
        self.rest = 0;
        self.fill = 0;
    }
}

#[inline(never)]
fn encode_park<const K: u32>(numbers: &[(u64, u32)], writer: &mut BitWriter) {
    writer.bytes.clear();
    let further = numbers.len() - 1;
    let low = if further == 0 { 0 } else { ((numbers[further].0 - numbers[0].0) / further as u64).ilog2() };
    writer.put(numbers[0].0, 2 * K + 2);
    writer.put(low as u64, 7);
    for two in numbers.windows(2) {
        let step = two[1].0 - two[0].0 - 1;
        let (run, rest) = (step >> low, step & ((1 << low) - 1));
        if run + (low as u64) < 63 {
            // a whole code as one number
            writer.put((((2 << run) - 2) << low) | rest, run as u32 + 1 + low);
        } else {
            writer.put_run(run);
            writer.put(rest, low);
        }
    }
    writer.finish();
}

// The writer of the file.

struct Writer {
    layout: &'static Layout,
    file: File,
    bits: BitWriter,
    header: Vec<u8>,
    directory: Vec<u8>,
    length: u64,
}

// Syncs a file and the folder that it is in.
fn sync(file: &File, name: &str) {
    file.sync_all().unwrap();
    let folder = Path::new(name).parent().filter(|parent| parent.as_os_str().len() > 0).unwrap_or(Path::new("."));
    File::open(folder).unwrap().sync_all().unwrap();
}

impl Writer {
    fn begin(layout: &'static Layout, name: &str, id: &[u8; 32], k: u32) -> Writer {
        let file = File::options().write(true).create_new(true).open(name).unwrap();
        file.write_all_at(&[0], 0).unwrap();
        sync(&file, name);
        file.write_all_at(&[0; HEADER_BYTES - 1], 1).unwrap();
        let mut header = vec![0];
        header.extend_from_slice(layout.name);
        header.extend_from_slice(id);
        header.push(k as u8);
        header.resize(56, 0);
        let bits = BitWriter { bytes: Vec::new(), rest: 0, fill: 0 };
        Writer { layout, file, bits, header, directory: Vec::new(), length: HEADER_BYTES as u64 }
    }

    fn table<const K: u32>(&mut self, t: u32, numbers: &[(u64, u32)], stages: &mut Stages) {
        for park in numbers.chunks(self.layout.most_numbers) {
            encode_park::<K>(park, &mut self.bits);
            let bytes = &self.bits.bytes;
            self.directory.extend_from_slice(&self.length.to_be_bytes());
            self.directory.extend_from_slice(&(bytes.len() as u32).to_be_bytes());
            self.directory.extend_from_slice(&(park.len() as u32).to_be_bytes());
            stages.end("park code");
            self.directory.extend_from_slice(&park_digest(bytes)[..self.layout.digest_bytes]);
            stages.end("SHA-256");
            let head = if t == 7 { park[0].0 >> (K + 1) } else { 0 };
            self.directory.extend_from_slice(&head.to_be_bytes());
            self.file.write_all_at(bytes, self.length).unwrap();
            self.length += bytes.len() as u64;
            stages.end("file writes");
        }
        self.file.write_all_at(&self.directory, self.length).unwrap();
        self.header.extend_from_slice(&(numbers.len() as u64).to_be_bytes());
        self.header.extend_from_slice(&self.length.to_be_bytes());
        self.length += self.directory.len() as u64;
        self.directory.clear();
        stages.end("file writes");
    }

    fn finish(mut self, name: &str) {
        self.header.extend_from_slice(&self.length.to_be_bytes());
        self.file.write_all_at(&self.header[1..], 1).unwrap();
        sync(&self.file, name);
        self.file.write_all_at(&[1], 0).unwrap();
        sync(&self.file, name);
    }
}

// Which places of tables 2 to 6 an entry of table 7 reaches, a bit for each.

fn set(marks: &mut [u64], place: u32) {
    marks[(place / 64) as usize] |= 1 << (place % 64);
}

fn has(marks: &[u64], place: usize) -> bool {
    marks[place / 64] >> (place % 64) & 1 == 1
}

#[inline(never)]
fn prune(tables: &Tables) -> Vec<Vec<u64>> {
    let mut marks: Vec<Vec<u64>> = tables.pairs[..5].iter().map(|pairs| vec![0; pairs.len().div_ceil(64)]).collect();
    for pair in &tables.pairs[5] {
        set(&mut marks[4], pair.0);
        set(&mut marks[4], pair.1);
    }
    for level in (1..5).rev() {
        let (below, above) = marks.split_at_mut(level);
        for (place, pair) in tables.pairs[level].iter().enumerate() {
            if has(&above[0], place) {
                set(&mut below[level - 1], pair.0);
                set(&mut below[level - 1], pair.1);
            }
        }
    }
    marks
}

// New places by the order of line points.

fn to_point(a: u32, b: u32) -> u64 {
    let (greater, lesser) = (a.max(b) as u64, a.min(b) as u64);
    greater * (greater - 1) / 2 + lesser
}

#[inline(never)]
fn gather(pairs: &[(u32, u32)], marks: Option<&[u64]>, below: &[u32], points: &mut Vec<(u64, u32)>) {
    points.clear();
    for (place, pair) in pairs.iter().enumerate() {
        if marks.is_none_or(|marks| has(marks, place)) {
            points.push((to_point(below[pair.0 as usize], below[pair.1 as usize]), place as u32));
        }
    }
}

#[inline(never)]
fn places_of(points: &[(u64, u32)], count: usize, places: &mut Vec<u32>) {
    places.clear();
    places.resize(count, 0);
    for (new, point) in points.iter().enumerate() {
        places[point.1 as usize] = new as u32;
    }
}

fn relocate<const K: u32>(tables: Tables, marks: &[Vec<u64>], writer: &mut Writer, stages: &mut Stages) {
    let Tables { values, pairs, last } = tables;
    let mut places = values;
    let mut points = Vec::new();
    for level in 0..6 {
        gather(&pairs[level], marks.get(level).map(Vec::as_slice), &places, &mut points);
        stages.end("points");
        points.sort_unstable_by_key(|point| point.0);
        stages.end("sort by point");
        writer.table::<K>(level as u32 + 1, &points, stages);
        places_of(&points, pairs[level].len(), &mut places);
        stages.end("new places");
    }
    points.clear();
    for (y, place) in last.iter().zip(&places) {
        points.push((((y >> 6) << (K + 1)) + *place as u64, *place));
    }
    stages.end("points");
    points.sort_unstable_by_key(|point| point.0);
    stages.end("sort by point");
    writer.table::<K>(7, &points, stages);
}

fn plot<const K: u32>(layout: &'static Layout, id: &[u8; 32], name: &str, stages: &mut Stages) {
    let mut writer = Writer::begin(layout, name, id, K);
    stages.end("syncs");
    let tables = tables_of::<K>(id, stages);
    let marks = prune(&tables);
    stages.end("prune");
    relocate::<K>(tables, &marks, &mut writer, stages);
    writer.finish(name);
    stages.end("syncs");
}

fn main() {
    let words: Vec<String> = std::env::args().collect();
    let mut id = [0; 32];
    for (byte, two) in id.iter_mut().zip(words[1].as_bytes().chunks(2)) {
        *byte = u8::from_str_radix(str::from_utf8(two).unwrap(), 16).unwrap();
    }
    // The second layout, as the proved program writes it, but where a fourth word asks for the first.
    let layout = if words.len() > 4 { &ONE } else { &TWO };
    let mut stages = Stages::new();
    match words[2].as_str() {
        "11" => plot::<11>(layout, &id, &words[3], &mut stages),
        "12" => plot::<12>(layout, &id, &words[3], &mut stages),
        "16" => plot::<16>(layout, &id, &words[3], &mut stages),
        "18" => plot::<18>(layout, &id, &words[3], &mut stages),
        "20" => plot::<20>(layout, &id, &words[3], &mut stages),
        "22" => plot::<22>(layout, &id, &words[3], &mut stages),
        _ => plot::<24>(layout, &id, &words[3], &mut stages),
    }
    stages.show();
}
