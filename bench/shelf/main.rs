// Times the calls of both makes beside a plain Rust struct that does the same.
use std::hint::black_box;
use std::time::Instant;

unsafe extern "C" {
    fn rows_numbers(turns: u32, text: *const u8, len: usize) -> u32;
    fn rows_texts(turns: u32, text: *const u8, len: usize, other: *const u8, other_len: usize) -> usize;
    fn rows_asks(turns: u32, text: *const u8, len: usize) -> usize;
    fn packed_numbers(turns: u32, text: *const u8, len: usize) -> u32;
    fn packed_texts(turns: u32, text: *const u8, len: usize, other: *const u8, other_len: usize) -> usize;
    fn packed_asks(turns: u32, text: *const u8, len: usize) -> usize;
}

#[derive(Clone, Copy)]
enum Value {
    Number(u32),
    Text { len: usize, bytes: [u8; 80] },
}

impl Value {
    fn size(&self) -> usize {
        match self {
            Value::Number(_) => 0,
            Value::Text { len, .. } => *len,
        }
    }
}

// The plain struct: a value to a slot, the total kept.
struct Plain {
    values: [Value; 64],
    count: usize,
    total: usize,
    capacity: usize,
}

impl Plain {
    fn new(capacity: usize) -> Plain {
        Plain { values: [Value::Number(0); 64], count: 0, total: 0, capacity }
    }

    fn open(&mut self, kinds: &[u8]) -> Result<(), u8> {
        if kinds.is_empty() || kinds.len() > 64 {
            return Err(60);
        }
        if kinds.iter().any(|k| *k != 1 && *k != 2) {
            return Err(61);
        }
        for (value, kind) in self.values.iter_mut().zip(kinds) {
            *value = if *kind == 1 { Value::Number(0) } else { Value::Text { len: 0, bytes: [0; 80] } };
        }
        self.count = kinds.len();
        self.total = 0;
        Ok(())
    }

    fn put_number(&mut self, i: usize, x: u32) -> Result<(), u8> {
        if i >= self.count {
            return Err(62);
        }
        self.total -= self.values[i].size();
        self.values[i] = Value::Number(x);
        Ok(())
    }

    fn put_text(&mut self, i: usize, text: &[u8]) -> Result<(), u8> {
        if i >= self.count {
            return Err(62);
        }
        if text.len() > 80 {
            return Err(64);
        }
        let total = self.total - self.values[i].size() + text.len();
        if total > self.capacity {
            return Err(65);
        }
        self.total = total;
        match &mut self.values[i] {
            Value::Text { len, bytes } => {
                *len = text.len();
                bytes[..text.len()].copy_from_slice(text);
            }
            value => {
                let mut bytes = [0; 80];
                bytes[..text.len()].copy_from_slice(text);
                *value = Value::Text { len: text.len(), bytes };
            }
        }
        Ok(())
    }

    fn number(&self, i: usize) -> Result<u32, u8> {
        if i >= self.count {
            return Err(62);
        }
        match self.values[i] {
            Value::Number(x) => Ok(x),
            Value::Text { .. } => Err(63),
        }
    }

    fn text(&self, i: usize, line: &mut [u8; 80]) -> Result<usize, u8> {
        if i >= self.count {
            return Err(62);
        }
        match &self.values[i] {
            Value::Number(_) => Err(63),
            Value::Text { len, bytes } => {
                *line = [0; 80];
                line[..*len].copy_from_slice(&bytes[..*len]);
                Ok(*len)
            }
        }
    }
}

fn next(seed: u32) -> u32 {
    seed.wrapping_mul(1664525).wrapping_add(1013904223)
}

fn number_at(seed: u32) -> usize {
    (seed >> 24) as usize % 8
}

fn filled(text: &[u8]) -> Plain {
    let mut shelf = Plain::new(5120);
    let _ = shelf.open(&[1, 1, 1, 1, 1, 1, 1, 1, 2, 2, 2, 2, 2, 2, 2, 2]);
    for i in 8..16 {
        let _ = shelf.put_text(i, text);
    }
    shelf
}

#[inline(never)]
fn plain_numbers(turns: u32, text: &[u8]) -> usize {
    let mut shelf = filled(text);
    let mut seed = 1;
    for _ in 0..turns {
        seed = next(seed);
        let _ = shelf.put_number(number_at(seed), seed);
    }
    shelf.number(3).unwrap_or(0) as usize
}

#[inline(never)]
fn plain_texts(turns: u32, text: &[u8], other: &[u8]) -> usize {
    let mut shelf = filled(text);
    let mut seed = 1;
    for _ in 0..turns {
        seed = next(seed);
        let put = if seed % 2 == 0 { text } else { other };
        let _ = shelf.put_text(8 + number_at(seed), put);
    }
    let mut line = [0; 80];
    shelf.text(11, &mut line).unwrap_or(0)
}

#[inline(never)]
fn plain_asks(turns: u32, text: &[u8]) -> usize {
    let shelf = filled(text);
    let mut seed = 1;
    let mut sum: usize = 0;
    let mut line = [0; 80];
    for _ in 0..turns {
        seed = next(seed);
        let len = shelf.text(8 + number_at(seed), &mut line).unwrap_or(0);
        sum = sum.wrapping_add(len).wrapping_add(line[39] as usize);
    }
    sum
}

// The best of five runs, in nanoseconds a call.
fn time(name: &str, run: impl Fn(u32) -> usize) {
    const TURNS: u32 = 2_000_000;
    let mut best = f64::MAX;
    let mut result = 0;
    for _ in 0..5 {
        let start = Instant::now();
        result = black_box(run(black_box(TURNS)));
        best = best.min(start.elapsed().as_nanos() as f64 / TURNS as f64);
    }
    println!("{name:<36} {best:6.1} ns  ({result})");
}

fn main() {
    let t = [b'a'; 40];
    let (p, n) = (t.as_ptr(), t.len());
    let s = [b'b'; 39];
    let (q, m) = (s.as_ptr(), s.len());
    time("put number, plain", |k| plain_numbers(k, black_box(&t)));
    time("put number, rows", |k| unsafe { rows_numbers(k, p, n) as usize });
    time("put number, packed", |k| unsafe { packed_numbers(k, p, n) as usize });
    time("put text of 40, plain", |k| plain_texts(k, black_box(&t), black_box(&t)));
    time("put text of 40, rows", |k| unsafe { rows_texts(k, p, n, p, n) });
    time("put text of 40, packed", |k| unsafe { packed_texts(k, p, n, p, n) });
    time("put text of 40 or 39, plain", |k| plain_texts(k, black_box(&t), black_box(&s)));
    time("put text of 40 or 39, rows", |k| unsafe { rows_texts(k, p, n, q, m) });
    time("put text of 40 or 39, packed", |k| unsafe { packed_texts(k, p, n, q, m) });
    time("text of 40, plain", |k| plain_asks(k, black_box(&t)));
    time("text of 40, rows", |k| unsafe { rows_asks(k, p, n) });
    time("text of 40, packed", |k| unsafe { packed_asks(k, p, n) });
}
