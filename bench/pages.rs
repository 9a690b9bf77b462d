// Numbers packed bit by bit on pages of a file, one record after another, none over a page's end, and read back in order, in plain
// Rust: what the lists on pages of the proved crates do. bench/lists and bench/forward have it as a module.
use std::fs::File;
use std::os::unix::fs::FileExt;

pub const PAGE: usize = 65_536;

// What is read past a page's end, so that a record is always read from whole windows.
const BEHIND: usize = 16;

pub struct Pages {
    file: File,
    page: Vec<u8>,
    written: u64,
    rest: u64,
    fill: u32,
}

impl Pages {
    pub fn new(name: &str) -> Pages {
        let file = File::options().read(true).write(true).create(true).truncate(true).open(name).unwrap();
        Pages { file, page: Vec::with_capacity(PAGE), written: 0, rest: 0, fill: 0 }
    }

    // Appends at most 64 bits.
    #[inline(always)]
    pub fn put(&mut self, value: u64, width: u32) {
        let room = 64 - self.fill;
        if width < room {
            self.rest = (self.rest << width) | value;
            self.fill += width;
        } else {
            let left = width - room;
            let word = if room < 64 { (self.rest << room) | (value >> left) } else { value >> left };
            self.page.extend_from_slice(&word.to_be_bytes());
            self.rest = value & ((1 << left) - 1);
            self.fill = left;
        }
    }

    // Writes the page that is filled, and begins the next one.
    pub fn end_page(&mut self) {
        if self.fill > 0 {
            let word = self.rest << (64 - self.fill);
            self.page.extend_from_slice(&word.to_be_bytes());
        }
        self.page.resize(PAGE, 0);
        self.file.write_all_at(&self.page, self.written * PAGE as u64).unwrap();
        self.written += 1;
        self.page.clear();
        self.rest = 0;
        self.fill = 0;
    }

    // Reads a page into a buffer of `page_buffer`.
    pub fn read_page(&self, number: u64, page: &mut [u8]) {
        self.file.read_exact_at(&mut page[..PAGE], number * PAGE as u64).unwrap();
    }
}

pub fn page_buffer() -> Vec<u8> {
    vec![0; PAGE + BEHIND]
}

// The number of at most 57 bits from a bit of a page on.
#[inline(always)]
pub fn number_at(page: &[u8], at: usize, width: u32) -> u64 {
    let window = u64::from_be_bytes(page[at / 8..at / 8 + 8].try_into().unwrap());
    (window << (at % 8)) >> (64 - width)
}
