// Plain Rust that marks the places of pairs as bits, counts them, writes them to a file by pages, and asks for them in order:
// bench/marks/run.sh builds it.
use std::fs::File;
use std::hint::black_box;
use std::os::unix::fs::FileExt;
use std::time::Instant;

const PLACES: u64 = 1_048_576;
const CHUNK: u64 = 16_384;
const PAGE_BYTES: usize = 65_536;
const PAGE_PLACES: u64 = 524_288;
const BLOCK_BYTES: usize = 512;
const BLOCK_PLACES: u64 = 4_096;

fn next(x: u64) -> u64 {
    x.wrapping_mul(6364136223846793005).wrapping_add(1442695040888963407)
}

struct Marks {
    file: File,
    bits: Vec<u8>,
    counts: Vec<u64>,
    loaded: Option<u64>,
    page: Vec<u8>,
}

fn word_at(bytes: &[u8], i: usize) -> u64 {
    u64::from_le_bytes(bytes.as_chunks::<8>().0[i])
}

fn ones_in(bytes: &[u8]) -> u64 {
    bytes.as_chunks::<8>().0.iter().map(|word| u64::from(u64::from_le_bytes(*word).count_ones())).sum()
}

impl Marks {
    fn new(name: &str) -> Marks {
        let file = File::options().read(true).write(true).create(true).truncate(true).open(name).unwrap();
        let bits = vec![0; PLACES.div_ceil(PAGE_PLACES) as usize * PAGE_BYTES];
        Marks { file, bits, counts: Vec::new(), loaded: None, page: Vec::new() }
    }

    #[inline(always)]
    fn set(&mut self, i: u64) {
        self.bits[(i / 8) as usize] |= 1 << (i % 8);
    }

    fn seal(&mut self) {
        let mut ones = 0;
        self.counts.push(0);
        for block in self.bits.chunks_exact(BLOCK_BYTES) {
            ones += ones_in(block);
            self.counts.push(ones);
        }
        for (page, bytes) in self.bits.chunks_exact(PAGE_BYTES).enumerate() {
            self.file.write_all_at(bytes, (page * PAGE_BYTES) as u64).unwrap();
        }
        self.bits = Vec::new();
        self.page = vec![0; PAGE_BYTES];
    }

    #[inline(always)]
    fn load(&mut self, page: u64) {
        if self.loaded != Some(page) {
            self.read(page);
        }
    }

    #[inline(never)]
    fn read(&mut self, page: u64) {
        self.file.read_exact_at(&mut self.page, page * PAGE_BYTES as u64).unwrap();
        self.loaded = Some(page);
    }

    #[inline(always)]
    fn has(&mut self, i: u64) -> bool {
        self.load(i / PAGE_PLACES);
        self.page[(i % PAGE_PLACES / 8) as usize] >> (i % 8) & 1 == 1
    }

    fn rank(&mut self, i: u64) -> u64 {
        let before = self.counts[(i / BLOCK_PLACES) as usize];
        if i % BLOCK_PLACES == 0 {
            return before;
        }
        self.load(i / PAGE_PLACES);
        let at = i % PAGE_PLACES;
        let start = (at / BLOCK_PLACES) as usize * BLOCK_BYTES;
        let block = &self.page[start..start + BLOCK_BYTES];
        let whole = (at % BLOCK_PLACES / 64) as usize;
        let low = word_at(block, whole) & ((1 << (at % 64)) - 1);
        before + ones_in(&block[..whole * 8]) + u64::from(low.count_ones())
    }
}

// The least time of a chunk among all chunks of the places.
fn least(name: &str, mut chunk: impl FnMut(u64) -> u64) {
    let mut least = u64::MAX;
    let mut sum = 0u64;
    for i in 0..PLACES / CHUNK {
        let start = Instant::now();
        sum = sum.wrapping_add(chunk(black_box(i * CHUNK)));
        least = least.min(start.elapsed().as_nanos() as u64);
    }
    println!("{name} {} ps a piece, {sum}", least * 1000 / CHUNK);
}

fn main() {
    let mut marks = Marks::new("plain.marks");
    let mut x = 1;
    least("set_both_places", |start| {
        for _ in start..start + CHUNK {
            x = next(x);
            marks.set(x >> 44);
            marks.set((x >> 20) % PLACES);
        }
        x
    });
    let start = Instant::now();
    marks.seal();
    println!("seal {} ps a piece", start.elapsed().as_nanos() as u64 * 1000 / PLACES);
    least("has", |start| (start..start + CHUNK).filter(|i| marks.has(*i)).count() as u64);
    least("rank", |start| (start..start + CHUNK).map(|i| marks.rank(i)).fold(0, u64::wrapping_add));
    std::fs::remove_file("plain.marks").unwrap();
}
