// Parks in plain Rust, in the fastest form that was found, timed over many calls.
use std::hint::black_box;
use std::time::Instant;

const MOST_NUMBERS: usize = 4096;
const MOST_BYTES: usize = 14 * MOST_NUMBERS;
const FULL: u32 = 57;

// Bits put behind one another into a slice that has room for them all.
struct BitWriter<'a> {
    bytes: &'a mut [u8],
    len: usize,
    rest: u64,
    fill: u32,
}

impl BitWriter<'_> {
    #[inline(always)]
    fn put(&mut self, value: u64, width: u32) {
        let room = 64 - self.fill;
        if width < room {
            self.rest = (self.rest << width) + value;
            self.fill += width;
            return;
        }
        let left = width - room;
        let word = if room < 64 { (self.rest << room) + (value >> left) } else { value >> left };
        // no test of the place: the bound on a park's length says that there is room
        unsafe { std::ptr::copy_nonoverlapping(word.to_be_bytes().as_ptr(), self.bytes.as_mut_ptr().add(self.len), 8) };
        self.len += 8;
        self.rest = value & ((1 << left) - 1);
        self.fill = left;
    }

    fn put_wide(&mut self, value: u128, width: u32) {
        if width > 64 {
            self.put((value >> 64) as u64, width - 64);
            self.put(value as u64, 64);
        } else {
            self.put(value as u64, width);
        }
    }

    #[inline(never)]
    fn put_long(&mut self, number: u128, low: u32) {
        let mut left = (number >> low) as u64;
        while left >= 32 {
            self.put(0xffff_ffff, 32);
            left -= 32;
        }
        self.put((2 << left) - 2, left as u32 + 1);
        self.put_wide(number % (1 << low), low);
    }
}

struct BitReader<'a> {
    bytes: &'a [u8],
    at: u64,
}

#[inline(always)]
fn bits_at_byte(bytes: &[u8], at: usize) -> u64 {
    if bytes.len() >= 8 && at <= bytes.len() - 8 {
        u64::from_be_bytes(bytes[at..at + 8].try_into().unwrap())
    } else {
        let mut window = 0u64;
        for i in 0..8 {
            let byte = if at < bytes.len() && i < bytes.len() - at { bytes[at + i] } else { 0 };
            window = window * 256 + byte as u64;
        }
        window
    }
}

#[inline(always)]
fn window_at(bytes: &[u8], at: u64) -> u64 {
    bits_at_byte(bytes, (at / 8) as usize) << (at % 8)
}

impl BitReader<'_> {
    fn left(&self) -> u64 {
        8 * self.bytes.len() as u64 - self.at
    }

    fn take(&mut self, width: u32) -> Option<u128> {
        if self.left() < width as u64 {
            return None;
        }
        let mut value = 0u128;
        let mut left = width;
        while left > 0 {
            let count = left.min(56);
            value = (value << count) + (window_at(self.bytes, self.at) >> (64 - count)) as u128;
            self.at += count as u64;
            left -= count;
        }
        Some(value)
    }

    fn take_run(&mut self) -> Option<u64> {
        let end = 8 * self.bytes.len() as u64;
        let mut ones = 0;
        while self.at + ones < end {
            let count = window_at(self.bytes, self.at + ones).leading_ones().min(FULL);
            ones += count as u64;
            if count < FULL {
                break;
            }
        }
        if ones == self.left() {
            return None;
        }
        self.at += ones + 1;
        Some(ones)
    }
}

fn low_width(numbers: &[u128]) -> u32 {
    let further = numbers.len() - 1;
    if further == 0 {
        return 0;
    }
    ((numbers[further] - numbers[0]) / further as u128).ilog2()
}

#[inline(never)]
fn encode_park(k: u32, numbers: &[u128]) -> Result<Vec<u8>, ()> {
    let first = numbers[0];
    let low = low_width(numbers);
    let most = ((2 * k as usize + 4) * numbers.len() + 12) / 8 + 8;
    let mut bytes = Vec::new();
    bytes.try_reserve(most).map_err(|_| ())?;
    bytes.resize(most, 0);
    let mut writer = BitWriter { bytes: &mut bytes, len: 0, rest: 0, fill: 0 };
    writer.put_wide(first, 2 * k + 2);
    writer.put_wide(low as u128, 7);
    // numbers whose codes have fewer than 64 bits
    let short = if low < 63 { ((63 - low) as u128) << low } else { 0 };
    let mut before = first;
    for number in &numbers[1..] {
        let step = *number - before - 1;
        if step < short {
            let step = step as u64;
            let run = (step >> low) as u32;
            writer.put((((2 << run) - 2) << low) + (step & ((1 << low) - 1)), run + 1 + low);
        } else {
            writer.put_long(step, low);
        }
        before = *number;
    }
    let BitWriter { len, rest, fill, .. } = writer;
    let last = fill.div_ceil(8) as usize;
    if fill > 0 {
        bytes[len..len + last].copy_from_slice(&(rest << (64 - fill)).to_be_bytes()[..last]);
    }
    bytes.truncate(len + last);
    Ok(bytes)
}

#[inline(always)]
fn take_step(reader: &mut BitReader, low: u32, room: u128) -> Option<u128> {
    let run = reader.take_run()? as u128;
    if run > room >> low {
        return None;
    }
    let step = (run << low) + reader.take(low)?;
    if step < room { Some(step) } else { None }
}

// In two loops: whole codes from one window without a test on the end while eight bytes are left, and then the rest.
fn take_steps(reader: &mut BitReader, low: u32, first: u128, limit: u128, out: &mut [u128]) -> Option<()> {
    let bytes = reader.bytes;
    let mut last = first;
    let mut at = reader.at;
    let mut done = 0;
    if low < 57 && bytes.len() >= 8 {
        let end = 8 * (bytes.len() as u64 - 8);
        while done < out.len() && at <= end {
            // no test of the place, as the line above has one
            let eight = unsafe { *(bytes.as_ptr().add((at / 8) as usize) as *const [u8; 8]) };
            let window = u64::from_be_bytes(eight) << (at % 8);
            let ones = window.leading_ones();
            if ones + low > 56 {
                break;
            }
            at += (ones + 1 + low) as u64;
            last += (((ones as u64) << low) + ((window << ones) >> (63 - low))) as u128 + 1;
            out[done] = last;
            done += 1;
        }
    }
    reader.at = at;
    if last > limit {
        return None;
    }
    while done < out.len() {
        last += take_step(reader, low, limit - last)? + 1;
        out[done] = last;
        done += 1;
    }
    Some(())
}

#[inline(never)]
fn decode_park(k: u32, count: u32, bytes: &[u8], out: &mut [u128]) -> Result<(), ()> {
    let count = count as usize;
    if bytes.len() > MOST_BYTES {
        return Err(());
    }
    let mut reader = BitReader { bytes, at: 0 };
    let first = reader.take(2 * k + 2).ok_or(())?;
    let low = reader.take(7).ok_or(())? as u32;
    if low >= 2 * k + 2 {
        return Err(());
    }
    out[0] = first;
    take_steps(&mut reader, low, first, (1 << (2 * k + 2)) - 1, &mut out[1..count]).ok_or(())?;
    if low != low_width(&out[..count]) {
        return Err(());
    }
    let left = reader.left();
    if left < 8 && reader.take(left as u32) == Some(0) { Ok(()) } else { Err(()) }
}

#[inline(never)]
fn are_numbers(k: u32, numbers: &[u128]) -> bool {
    if numbers.is_empty() || numbers.len() > MOST_NUMBERS {
        return false;
    }
    let limit = 1 << (2 * k + 2);
    for i in 0..numbers.len() {
        if numbers[i] >= limit {
            return false;
        }
        if i > 0 && numbers[i - 1] >= numbers[i] {
            return false;
        }
    }
    true
}

fn next(x: u64) -> u64 {
    x.wrapping_mul(6364136223846793005).wrapping_add(1442695040888963407)
}

fn numbers_of() -> Vec<u128> {
    let mut x = 1;
    let mut numbers = Vec::new();
    let mut number = 0u128;
    for _ in 0..2048 {
        x = next(x);
        let spread = (x >> 40).leading_zeros() - 40 + 1;
        x = next(x);
        number += (x >> 30) as u128 * spread as u128 + 1;
        numbers.push(number);
    }
    numbers
}

const PIECES: usize = 200;
const CALLS: u32 = 20;

// The least time of a piece of so many calls, in picoseconds a number.
fn least(mut piece: impl FnMut() -> u64) -> (u128, u64) {
    let mut best = u128::MAX;
    let mut sum = 0;
    for _ in 0..PIECES {
        let start = Instant::now();
        for _ in 0..black_box(CALLS) {
            sum += piece();
        }
        best = best.min(start.elapsed().as_nanos());
    }
    (best * 1000 / CALLS as u128 / 2048, sum)
}

fn main() {
    let numbers = numbers_of();
    assert!(are_numbers(32, &numbers));
    let park = encode_park(32, &numbers).unwrap();
    println!("{} bytes", park.len());
    let (time, sum) = least(|| are_numbers(32, black_box(&numbers)) as u64);
    println!("are_numbers {time} ps a number, {sum}");
    let (time, sum) = least(|| {
        if !are_numbers(32, &numbers) {
            return 0;
        }
        encode_park(32, &numbers).unwrap().len() as u64
    });
    println!("encode_park {time} ps a number with that test, {sum}");
    let mut out = [0u128; MOST_NUMBERS];
    let (time, sum) = least(|| {
        if decode_park(32, 2048, black_box(&park), &mut out).is_ok() {
            (out[2047] & 0xffff_ffff) as u64
        } else {
            0
        }
    });
    println!("decode_park {time} ps a number, {sum}");
}
