//! What the C library and the engines should answer, from the Rust: its generators laid out as the scope document's saved forms, and its
//! fills as bytes. The Rust counts no draws, made or left, and no steps of a jump: those numbers are the customers'. Nor has it kinds 7 and
//! 8: these are the Rust's words, and the customers' formulas in integers.
#![allow(dead_code)] // each program uses a part of it
use tpt_simd_rng::{Philox4x32X8, Rng8, Xoshiro256pp, Xoshiro256ppX8};

/// A row of the table of kinds: an element has `width` bytes, and a group of `places` elements takes `draws` draws.
pub struct Kind {
    pub name: &'static str,
    pub number: u64,
    pub width: usize,
    pub places: usize,
    pub draws: usize,
}
pub const KINDS: [Kind; 8] = [
    Kind { name: "fill_u64", number: 1, width: 8, places: 8, draws: 1 },
    Kind { name: "fill_u32", number: 2, width: 4, places: 16, draws: 1 },
    Kind { name: "fill_f32", number: 3, width: 4, places: 16, draws: 1 },
    Kind { name: "fill_f64", number: 4, width: 8, places: 8, draws: 1 },
    Kind { name: "fill_normal_f32", number: 5, width: 4, places: 16, draws: 1 },
    Kind { name: "fill_normal_f64", number: 6, width: 8, places: 16, draws: 2 },
    Kind { name: "fill_open01_f32", number: 7, width: 4, places: 16, draws: 1 },
    Kind { name: "fill_open01_f64", number: 8, width: 8, places: 8, draws: 1 },
];

/// Numbers that are no kind's: the next ones, and those that would be one if some of their bits were dropped.
pub const UNKNOWN: [u64; 9] = [0, 9, 10, 255, 257, 264, (1 << 32) + 1, 1 << 63, u64::MAX];
impl Kind {
    pub fn draws_for(&self, n: usize) -> u64 {
        (self.draws * n.div_ceil(self.places)) as u64
    }
}

pub fn kind(number: u64) -> Option<&'static Kind> {
    KINDS.iter().find(|kind| kind.number == number)
}

/// The pattern of n / 2^scale, a normal number below 1, in a format of so many digits after the leading one: n's highest bit is the leading
/// one, the bits below it are the first digits, and where it stands gives the exponent. Nothing is dropped, because n has no more bits.
fn fraction(n: u64, scale: u64, digits: u64, bias: u64) -> u64 {
    let top = u64::from(n.ilog2());
    (bias + top - scale) << digits | (n ^ 1 << top) << (digits - top)
}

/// The element of kind 7 of a half: (2m + 1) / 2^24, where m = floor(h / 2^9).
pub fn open01_f32(h: u32) -> u32 {
    fraction(2 * u64::from(h >> 9) + 1, 24, 23, 127) as u32
}

/// The element of kind 8 of a word: (2m + 1) / 2^53, where m = floor(w / 2^12).
pub fn open01_f64(w: u64) -> u64 {
    fraction(2 * (w >> 12) + 1, 53, 52, 1023)
}

/// The patterns of a fill of kind 7, of the Rust's halves.
pub fn fill_open01_f32<R: Rng8>(rust: &mut R, out: &mut [u32]) {
    rust.fill_u32(out);
    out.iter_mut().for_each(|h| *h = open01_f32(*h));
}

/// The patterns of a fill of kind 8, of the Rust's words.
pub fn fill_open01_f64<R: Rng8>(rust: &mut R, out: &mut [u64]) {
    rust.fill_u64(out);
    out.iter_mut().for_each(|w| *w = open01_f64(*w));
}

/// The steps that a jump makes, and a long jump too.
pub const STEPS: u64 = 253;

/// The state that they lead to: the Rust's after so many.
pub fn walked(rng: &Xoshiro256pp) -> [u64; 4] {
    let mut rng = rng.clone();
    for _ in 0..STEPS {
        rng.next_u64();
    }
    rng.state()
}

fn bytes<T: Copy + Default, const W: usize>(n: usize, fill: impl FnOnce(&mut [T]), le: impl Fn(T) -> [u8; W]) -> Vec<u8> {
    let mut out = vec![T::default(); n];
    fill(&mut out);
    out.into_iter().flat_map(le).collect()
}

/// The draws of a fill of n elements, and their bytes.
pub fn filled<R: Rng8>(rust: &mut R, number: u64, n: usize) -> (i64, Vec<u8>) {
    let out = match number {
        1 => bytes(n, |out| rust.fill_u64(out), u64::to_le_bytes),
        2 => bytes(n, |out| rust.fill_u32(out), u32::to_le_bytes),
        3 => bytes(n, |out| rust.fill_f32(out), f32::to_le_bytes),
        4 => bytes(n, |out| rust.fill_f64(out), f64::to_le_bytes),
        5 => bytes(n, |out| rust.fill_normal_f32(out), f32::to_le_bytes),
        6 => bytes(n, |out| rust.fill_normal_f64(out), f64::to_le_bytes),
        7 => bytes(n, |out| fill_open01_f32(rust, out), u32::to_le_bytes),
        _ => bytes(n, |out| fill_open01_f64(rust, out), u64::to_le_bytes),
    };
    (kind(number).expect("a kind").draws_for(n) as i64, out)
}

/// n draws, one by one.
pub fn draw<R: Rng8>(rust: &mut R, n: u64) {
    for _ in 0..n {
        rust.next_u64x8();
    }
}

pub trait Saved: Rng8 {
    fn form(&self) -> Vec<u8>;
}

impl Saved for Xoshiro256ppX8 {
    fn form(&self) -> Vec<u8> {
        let lanes = [0, 1, 2, 3, 4, 5, 6, 7].map(|i| self.lane(i).state());
        (0..4).flat_map(|row| lanes.iter().flat_map(move |lane| lane[row].to_le_bytes())).collect()
    }
}

/// The Rust shows all its fields as text alone.
fn philox_numbers(rust: &Philox4x32X8) -> Vec<u64> {
    let text = format!("{rust:?}");
    let fields = text.strip_prefix("Philox4x32X8 { key: ").expect("the fields of a Philox generator");
    let numbers: Vec<u64> = fields.split(|c: char| !c.is_ascii_digit()).filter_map(|word| word.parse().ok()).collect();
    assert_eq!(numbers.len(), if fields.ends_with("pending: None }") { 4 } else { 12 }, "{text}");
    numbers
}

/// The Rust's Philox generator, and beside it what it doesn't keep: the first block of the group whose upper words wait. A draw of lower
/// words gives it, the draw of the upper words and a seek take it away, and `blocks` leaves it, though it moves the counter. The counter is
/// kept here as well, because the Rust shows it in text alone.
#[derive(Clone)]
pub struct Numbered {
    rust: Philox4x32X8,
    counter: u64,
    group: Option<u64>,
}

impl Numbered {
    pub fn new(seed: u64, stream: u64) -> Self {
        Numbered { rust: Philox4x32X8::new(seed, stream), counter: 0, group: None }
    }
    pub fn seek(&mut self, block: u64) {
        self.rust.seek(block);
        self.counter = block;
        self.group = None;
    }
    pub fn blocks(&mut self) -> [[u32; 8]; 4] {
        self.counter = self.counter.wrapping_add(8);
        self.rust.blocks()
    }
    /// The label of the next draw: the first block of its group, and whether it is the upper half.
    pub fn label(&self) -> (u64, bool) {
        self.group.map_or((self.counter, false), |first| (first, true))
    }
    /// The first block of the waiting group, 0 if no words wait.
    pub fn number(&self) -> u64 {
        self.group.unwrap_or(0)
    }
    /// The Rust's fields, as text.
    pub fn text(&self) -> String {
        format!("{:?}", self.rust)
    }
    /// 2 x floor((2^64 - counter) / 8), and 1 more when words wait. The Rust has no such call.
    pub fn draws_left(&self) -> u64 {
        let numbers = philox_numbers(&self.rust);
        let groups = ((1 << 64) - u128::from(numbers[3])) / 8;
        2 * groups as u64 + u64::from(numbers.len() > 4)
    }
}

/// The fills are the Rust's own, of the Rust's draws.
impl Rng8 for Numbered {
    #[inline(always)]
    fn next_u64x8(&mut self) -> [u64; 8] {
        if self.group.take().is_none() {
            self.group = Some(self.counter);
            self.counter = self.counter.wrapping_add(8);
        }
        self.rust.next_u64x8()
    }
}

impl Saved for Numbered {
    fn form(&self) -> Vec<u8> {
        let numbers = philox_numbers(&self.rust);
        assert_eq!((numbers[3], numbers.len() > 4), (self.counter, self.group.is_some()), "{}", self.text());
        let mut form = Vec::new();
        for half in &numbers[..2] {
            form.extend((*half as u32).to_le_bytes()); // the key
        }
        for word in [numbers[2], numbers[3], u64::from(numbers.len() > 4)] {
            form.extend(word.to_le_bytes()); // stream, counter, mark
        }
        for i in 4..12 {
            form.extend(numbers.get(i).unwrap_or(&0).to_le_bytes()); // the waiting words
        }
        form.extend(self.number().to_le_bytes());
        form
    }
}

/// The word of a form that begins at a byte.
pub fn word_at(form: &[u8], at: usize) -> u64 {
    u64::from_le_bytes(form[at..at + 8].try_into().expect("eight bytes"))
}

/// The refusal of a Philox form, 0 if it has none. The upper words of the numbered group are the Rust's second draw after a seek there.
pub fn philox_refusal(form: &[u8]) -> i64 {
    if form.len() != 104 {
        return 1;
    }
    let mark = word_at(form, 24);
    if mark > 1 || mark == 0 && form[32..].iter().any(|byte| *byte != 0) {
        return 2;
    }
    let mut rust = Philox4x32X8::new(word_at(form, 0), word_at(form, 8));
    rust.seek(word_at(form, 96));
    rust.next_u64x8();
    let upper = rust.next_u64x8();
    if mark == 1 && (0..8).any(|i| word_at(form, 32 + 8 * i) != upper[i]) {
        return 14;
    }
    0
}

/// A form of 96 bytes with its number: counter - 8 modulo 2^64 if words wait, else 0.
pub fn numbered(old: &[u8]) -> Vec<u8> {
    let number = if word_at(old, 24) == 1 { word_at(old, 16).wrapping_sub(8) } else { 0 };
    [old, &number.to_le_bytes()].concat()
}
