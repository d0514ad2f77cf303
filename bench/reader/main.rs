// How fast the proved check of program texts is, beside a plain Rust twin: same machine, same texts, one run.
use std::hint::black_box;
use std::time::Instant;

mod twin;

unsafe extern "C" {
    // target/staticlib/libprogram.a; a Rattle `&[u8]` is a pointer and a length.
    fn program_text_check(text: *const u8, len: usize) -> u32;
}

fn proved(text: &[u8]) -> u32 {
    // The check takes every byte slice: it has no precondition.
    unsafe { program_text_check(text.as_ptr(), text.len()) }
}

// xorshift, so that a run can be repeated
struct Random(u64);

impl Random {
    fn below(&mut self, n: u64) -> u64 {
        self.0 ^= self.0 << 13;
        self.0 ^= self.0 >> 7;
        self.0 ^= self.0 << 17;
        self.0 % n
    }

    fn step(&mut self, letter: u8, out: &mut Vec<u8>) {
        out.push(letter);
        for _ in 0..3 {
            out.push(self.below(256) as u8);
        }
    }

    fn body(&mut self, depth: u32, out: &mut Vec<u8>) {
        for _ in 0..self.below(4) {
            self.step(b'C', out);
        }
        if depth < 4 && self.below(3) != 0 {
            self.step(b'P', out);
            out.push(b'[');
            for _ in 0..self.below(3) {
                self.body(depth + 1, out);
                out.push(b'|');
            }
            for _ in 0..self.below(3) {
                self.step(b'R', out);
            }
            out.push(b']');
        }
    }

    // A text of the grammar, often within the limits; every third one is damaged at one byte.
    fn text(&mut self) -> Vec<u8> {
        let mut out = Vec::new();
        self.body(0, &mut out);
        out.push(b'.');
        if self.below(3) == 0 {
            let at = self.below(out.len() as u64) as usize;
            out[at] = self.below(256) as u8;
        }
        out
    }
}

fn flat() -> Vec<u8> {
    let mut out = Vec::new();
    for k in 0..32u8 {
        out.extend([b'C', k, 0, k]);
    }
    out.push(b'.');
    out
}

fn nested() -> Vec<u8> {
    let mut out = Vec::new();
    for k in 0..4u8 {
        out.extend([b'C', k, 0, k, b'P', k, 0, k, b'[']);
    }
    out.extend([b'R', 4, 0, 3, b']']);
    for k in 0..3u8 {
        out.extend([b'|', b'R', k, 0, k, b']']);
    }
    out.push(b'.');
    out
}

fn time(texts: &[Vec<u8>], rounds: u32, check: impl Fn(&[u8]) -> u32) -> (f64, u64) {
    let start = Instant::now();
    let mut sum = 0u64;
    for _ in 0..rounds {
        for text in texts {
            sum = sum.wrapping_add(check(black_box(text)) as u64);
        }
    }
    (start.elapsed().as_secs_f64(), sum)
}

fn compare(name: &str, texts: &[Vec<u8>], rounds: u32) {
    for text in texts {
        assert_eq!(proved(text), twin::check(text), "{text:?}");
    }
    let read = texts.iter().filter(|text| proved(text) == 0).count();
    let (mut ours, mut theirs) = (f64::MAX, f64::MAX);
    for _ in 0..7 {
        let (a, x) = time(texts, rounds, proved);
        let (b, y) = time(texts, rounds, twin::check);
        assert_eq!(x, y);
        ours = ours.min(a);
        theirs = theirs.min(b);
    }
    let each = |t: f64| t * 1e9 / (rounds as f64 * texts.len() as f64);
    println!(
        "{name:<16} {read:>5} of {:>5} texts read   proved {:>7.1} ns   twin {:>7.1} ns   speed of the twin's {:.2}",
        texts.len(),
        each(ours),
        each(theirs),
        theirs / ours
    );
}

fn main() {
    let mut random = Random(0x9e37_79b9_7f4a_7c15);
    let texts: Vec<Vec<u8>> = (0..10_000).map(|_| random.text()).collect();
    compare("32 flat", &[flat()], 1_000_000);
    compare("4 brackets", &[nested()], 1_000_000);
    compare("random", &texts, 100);
}
