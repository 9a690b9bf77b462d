// The seven tables of an id in plain Rust, by the same steps as the proved crates with their lists on pages: the rows of the table
// below are read in order, two buckets of them are held, entries are made by fours across buckets and gathered in memory,
// sorted, and put onto two new lists.
use crate::pages::{PAGE, Pages, number_at, page_buffer};
use crate::tables::{BUCKET, Metadata, Row, Stages, Targets, first_rows, four_rows, units_of};

// The number of 1 to 121 bits from a bit of a page on.
#[inline(always)]
fn wide_number_at(page: &[u8], at: usize, width: u32) -> u128 {
    let window = u128::from_be_bytes(page[at / 8..at / 8 + 16].try_into().unwrap());
    (window << (at % 8)) >> (128 - width)
}

// Records of so many bits, one behind the other.
struct List {
    pages: Pages,
    width: u32,
    on_page: u32,
    count: u64,
}

impl List {
    fn new(name: &str, width: u32) -> List {
        List { pages: Pages::new(name), width, on_page: 0, count: 0 }
    }

    // Makes room for one record more.
    #[inline(always)]
    fn begin(&mut self) {
        if (self.on_page + 1) * self.width > 8 * PAGE as u32 {
            self.pages.end_page();
            self.on_page = 0;
        }
        self.on_page += 1;
        self.count += 1;
    }

    fn seal(&mut self) {
        self.pages.end_page();
    }
}

// A list that is read in order.
struct Reader {
    list: List,
    page: Vec<u8>,
    next_page: u64,
    at: usize,
    left: u64,
}

impl Reader {
    fn of(list: List) -> Reader {
        let left = list.count;
        Reader { list, page: page_buffer(), next_page: 0, at: 8 * PAGE, left }
    }

    // Where the next record begins on the page.
    #[inline(always)]
    fn next(&mut self) -> Option<usize> {
        if self.left == 0 {
            return None;
        }
        let width = self.list.width as usize;
        if self.at + width > 8 * PAGE {
            self.list.pages.read_page(self.next_page, &mut self.page);
            self.next_page += 1;
            self.at = 0;
        }
        self.left -= 1;
        self.at += width;
        Some(self.at - width)
    }

    // The next row of table t.
    #[inline(always)]
    fn row<const K: u32>(&mut self, t: u32) -> Option<Row> {
        let at = self.next()?;
        let page = self.page.as_slice();
        let y = number_at(page, at, K + 6);
        let meta = wide_number_at(page, at + K as usize + 6, K * units_of(t));
        Some(Row { y, meta: Metadata::of(meta), left: 0, right: 0 })
    }
}

fn put_row<const K: u32>(list: &mut List, t: u32, row: &Row) {
    list.begin();
    let meta = K * units_of(t);
    list.pages.put(row.y, K + 6);
    if meta > 64 {
        list.pages.put(row.meta.high, meta - 64);
        list.pages.put(row.meta.low, 64);
    } else {
        list.pages.put(row.meta.low, meta);
    }
    if t > 1 {
        list.pages.put(row.left as u64, K + 1);
        list.pages.put(row.right as u64, K + 1);
    }
}

fn row_width<const K: u32>(t: u32) -> u32 {
    K + 6 + K * units_of(t) + if t > 1 { 2 * (K + 1) } else { 0 }
}

// Table 1: its values on one list, its rows on another.
#[inline(never)]
fn first_table<const K: u32>(id: &[u8; 32], stages: &mut Stages) -> List {
    let mut first = first_rows::<K>(id);
    stages.end("f1");
    first.sort_unstable_by_key(|row| row.0);
    stages.end("sort of table 1");
    let mut values = List::new("plain.1", K);
    let mut rows = List::new("plain.rows.1", row_width::<K>(1));
    for (y, x) in &first {
        values.begin();
        values.pages.put(*x, K);
        put_row::<K>(&mut rows, 1, &Row { y: *y, meta: Metadata { high: 0, low: *x }, left: 0, right: 0 });
    }
    values.seal();
    rows.seal();
    stages.end("packing and pages");
    rows
}

// Rows that follow one another, all of one bucket, and the place of the first.
#[derive(Default)]
struct Bucket {
    number: u64,
    first: u32,
    rows: Vec<Row>,
}

// Fewer than four pairs whose entries are not made yet.
#[derive(Default)]
struct Waiting {
    count: usize,
    left: [Row; 4],
    right: [Row; 4],
    pairs: [(u32, u32); 4],
}

impl Waiting {
    #[inline(always)]
    fn add<const K: u32>(&mut self, t: u32, left: &Row, right: &Row, pair: (u32, u32), made: &mut Vec<Row>) {
        self.left[self.count] = *left;
        self.right[self.count] = *right;
        self.pairs[self.count] = pair;
        self.count += 1;
        if self.count == 4 {
            self.make::<K>(t, made);
        }
    }

    fn make<const K: u32>(&mut self, t: u32, made: &mut Vec<Row>) {
        let four = four_rows::<K>(t, self.left.each_ref(), self.right.each_ref(), &self.pairs);
        made.extend_from_slice(&four[..self.count]);
        self.count = 0;
    }
}

struct Matcher {
    targets: Targets,
    found: Vec<(u32, u32)>,
    left: Bucket,
    right: Bucket,
    waiting: Waiting,
}

impl Matcher {
    fn new() -> Matcher {
        Matcher {
            targets: Targets::new(),
            found: Vec::new(),
            left: Bucket::default(),
            right: Bucket::default(),
            waiting: Waiting::default(),
        }
    }

    // Makes the entries of the matching pairs of the two buckets, and begins a new right one.
    #[inline(never)]
    fn close<const K: u32>(&mut self, t: u32, number: u64, made: &mut Vec<Row>, stages: &mut Stages) {
        let (left, right) = (&self.left, &self.right);
        stages.end("reading rows");
        if left.number + 1 == right.number && !left.rows.is_empty() {
            self.found.clear();
            self.targets.list(&left.rows, &right.rows, (left.first, right.first), &mut self.found);
            stages.end("matching");
            for pair in &self.found {
                let (i, j) = (pair.0 - left.first, pair.1 - right.first);
                self.waiting.add::<K>(t, &left.rows[i as usize], &right.rows[j as usize], *pair, made);
            }
            stages.end("fx");
        }
        let first = self.right.first + self.right.rows.len() as u32;
        std::mem::swap(&mut self.left, &mut self.right);
        self.right.rows.clear();
        self.right.first = first;
        self.right.number = number;
    }
}

// The rows of table t, in no order.
#[inline(never)]
fn gather<const K: u32>(t: u32, rows: &mut Reader, matcher: &mut Matcher, made: &mut Vec<Row>, stages: &mut Stages) {
    made.clear();
    matcher.left = Bucket { rows: std::mem::take(&mut matcher.left.rows), ..Bucket::default() };
    matcher.right = Bucket { rows: std::mem::take(&mut matcher.right.rows), ..Bucket::default() };
    matcher.left.rows.clear();
    matcher.right.rows.clear();
    while let Some(row) = rows.row::<K>(t - 1) {
        let number = row.y / BUCKET + 1;
        if number > matcher.right.number {
            matcher.close::<K>(t, number, made, stages);
        }
        matcher.right.rows.push(row);
    }
    matcher.close::<K>(t, u64::MAX, made, stages);
    matcher.waiting.make::<K>(t, made);
    stages.end("fx");
}

// The rows of a table onto a list of pairs, and of their rows, or of the y of table 7.
#[inline(never)]
fn store<const K: u32>(t: u32, made: &[Row]) -> List {
    let mut pairs = List::new(&format!("plain.{t}"), 2 * (K + 1));
    let mut rows = List::new(&format!("plain.rows.{t}"), if t < 7 { row_width::<K>(t) } else { 2 * K + 2 });
    for row in made {
        pairs.begin();
        pairs.pages.put(row.left as u64, K + 1);
        pairs.pages.put(row.right as u64, K + 1);
        if t < 7 {
            put_row::<K>(&mut rows, t, row);
        } else {
            rows.begin();
            rows.pages.put(row.y, 2 * K + 2);
        }
    }
    pairs.seal();
    rows.seal();
    rows
}

// Makes the tables on lists, and answers how many entries tables 1 to 7 have.
pub fn tables_on_pages<const K: u32>(id: &[u8; 32], stages: &mut Stages) -> Vec<u64> {
    let mut rows = first_table::<K>(id, stages);
    let mut counts = vec![rows.count];
    let mut matcher = Matcher::new();
    let mut made: Vec<Row> = Vec::new();
    for t in 2..=7 {
        let mut reader = Reader::of(rows);
        gather::<K>(t, &mut reader, &mut matcher, &mut made, stages);
        drop(reader);
        std::fs::remove_file(format!("plain.rows.{}", t - 1)).unwrap();
        stages.end("files");
        made.sort_unstable_by_key(|row| row.y);
        stages.end("sort");
        rows = store::<K>(t, &made);
        counts.push(rows.count);
        stages.end("packing and pages");
    }
    counts
}
