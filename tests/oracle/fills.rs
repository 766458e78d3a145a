//! Our engines and their fills, linked as static libraries, against the Rust's: the same calls on both sides, and after each of them the
//! same bits in the lent buffer and around it, the same words handed out, and the same generator. The Rust counts neither draws nor jumps
//! nor steps nor draws left, labels nothing and refuses nothing: those numbers are the customers'. Nor has it kinds 7 and 8: forms.rs makes
//! them of its words. The argument is how many lists of mixed calls each engine gets, and how many random states are jumped from.
mod common;
mod forms;
use common::{Count, Random};
use forms::{fill_open01_f32, fill_open01_f64, kind, walked, Kind, Numbered, KINDS, STEPS, UNKNOWN};
use tpt_simd_rng::{Rng8, Xoshiro256pp, Xoshiro256ppX8};

/// An element from any bits, and its bytes.
trait Element: Copy {
    fn of(bits: u64) -> Self;
    fn put(self, bytes: &mut Vec<u8>);
}
macro_rules! element {
    ($type:ty, $of:expr) => {
        impl Element for $type {
            fn of(bits: u64) -> Self {
                $of(bits)
            }
            fn put(self, bytes: &mut Vec<u8>) {
                bytes.extend_from_slice(&self.to_le_bytes()); // of a float: those of its bits
            }
        }
    };
}
element!(u8, |bits| bits as u8);
element!(u32, |bits| bits as u32);
element!(u64, |bits| bits);
element!(f32, |bits| f32::from_bits(bits as u32));
element!(f64, f64::from_bits);

/// Lends `fill` the n places in the middle of a buffer of noise, and hands back the bytes of the whole buffer, and what `fill` answers.
/// So a place that was left unwritten shows, and so does one that was written outside the slice.
fn lent<T: Element, A>(n: usize, fill: impl FnOnce(&mut [T]) -> A) -> (Vec<u8>, A) {
    let guard = 16 + n % 8; // a slice of bytes begins at any place of a word
    let mut noise = Random(n as u64);
    let mut buffer: Vec<T> = (0..n + 2 * guard).map(|_| T::of(noise.next())).collect();
    let answer = fill(&mut buffer[guard..guard + n]);
    let mut bytes = Vec::with_capacity(buffer.len() * size_of::<T>());
    for x in buffer {
        x.put(&mut bytes);
    }
    (bytes, answer)
}

/// Where two buffers first differ, if they do.
fn first_unlike(ours: &[u8], after: &[u8]) -> String {
    match ours.iter().zip(after).position(|(x, y)| x != y) {
        Some(k) => format!(", byte {k} of the {} with both ends is {:02x} and not {:02x}", ours.len(), ours[k], after[k]),
        None => String::new(),
    }
}

/// The Rust's fill of n elements of a kind.
fn expected<R: Rng8>(rust: &mut R, kind: u64, n: usize) -> Vec<u8> {
    match kind {
        1 => lent(n, |out| rust.fill_u64(out)).0,
        2 => lent(n, |out| rust.fill_u32(out)).0,
        3 => lent(n, |out| rust.fill_f32(out)).0,
        4 => lent(n, |out| rust.fill_f64(out)).0,
        5 => lent(n, |out| rust.fill_normal_f32(out)).0,
        6 => lent(n, |out| rust.fill_normal_f64(out)).0,
        7 => lent(n, |out| fill_open01_f32(rust, out)).0,
        _ => lent(n, |out| fill_open01_f64(rust, out)).0,
    }
}

/// Our generator beside the Rust's.
trait Engine: Sized {
    type Rust: Rng8;
    /// What a draw returns beside its words, and a fill for its first draw.
    type Label: PartialEq + std::fmt::Debug;
    const NAME: &'static str;
    fn rust(&mut self) -> &mut Self::Rust;
    fn same(&self) -> bool;
    /// What the generator tells of itself is right.
    fn tells(&self) -> bool {
        true
    }

    /// The label that the next draw should have, and that of a refused call, zero bits.
    fn next_label(&self) -> Self::Label;
    fn no_label() -> Self::Label;

    // Our calls. A fill of n elements answers its draws and its label, a fill of n bytes the refusal's number before them.
    fn fill(&mut self, kind: u64, n: usize) -> (Vec<u8>, (u64, Self::Label));
    fn fill_bytes(&mut self, kind: u64, n: usize) -> (Vec<u8>, (u64, u64, Self::Label));
    fn draw(&mut self) -> ([u64; 8], Self::Label);

    // On both sides: one of some starts, a random start, and a random call that this engine alone has.
    fn start(which: u64, count: &mut Count) -> Self;
    fn random_start(random: &mut Random, count: &mut Count) -> Self;
    fn own_call(&mut self, random: &mut Random, count: &mut Count);

    fn check(&self, right: bool, what: impl Fn() -> String, count: &mut Count) {
        if !right {
            count.differ(format!("{} {}: not the expected answer", Self::NAME, what()));
        }
        if !self.same() {
            count.differ(format!("{} {}: not the Rust's generator afterwards", Self::NAME, what()));
        }
        if !self.tells() {
            count.differ(format!("{} {}: not the draws left afterwards", Self::NAME, what()));
        }
    }

    fn typed(&mut self, kind: &Kind, n: usize, count: &mut Count) {
        let answer = (kind.draws_for(n), self.next_label());
        let (ours, found) = self.fill(kind.number, n);
        let after = expected(self.rust(), kind.number, n);
        let right = ours == after && found == answer;
        count.fills += 1;
        count.elements += n as u64;
        let what = || format!("{} of {n} elements, {found:?} for {answer:?}{}", kind.name, first_unlike(&ours, &after));
        self.check(right, what, count);
    }

    /// A fill of n bytes, against the bytes of the Rust's elements. Where it should be refused, nothing happens on the Rust's side.
    fn bytes(&mut self, number: u64, n: usize, count: &mut Count) {
        let (kind, label) = (kind(number), self.next_label());
        let (ours, found) = self.fill_bytes(number, n);
        let (answer, after) = match kind {
            Some(kind) if n % kind.width == 0 => {
                let whole = expected(self.rust(), number, n / kind.width);
                let guard = (whole.len() - n) / 2;
                count.fills += 1;
                count.elements += (n / kind.width) as u64;
                ((0, kind.draws_for(n / kind.width), label), lent(n, |out: &mut [u8]| out.copy_from_slice(&whole[guard..guard + n])).0)
            }
            _ => {
                count.refused += 1;
                ((if kind.is_none() { 4 } else { 5 }, 0, Self::no_label()), lent(n, |_: &mut [u8]| ()).0)
            }
        };
        let right = ours == after && found == answer;
        let what = || format!("fill_bytes of kind {number}, {n} bytes, {found:?} for {answer:?}{}", first_unlike(&ours, &after));
        self.check(right, what, count);
    }

    fn single(&mut self, count: &mut Count) {
        let label = self.next_label();
        let found = self.draw();
        let expected = (self.rust().next_u64x8(), label);
        count.others += 1;
        self.check(found == expected, || format!("next_u64x8, {:?} for {:?}", found.1, expected.1), count);
    }
}

/// A fill of ours, lent what it writes to.
macro_rules! ours {
    ($call:ident, $n:expr, $($state:expr),*) => {
        lent($n, |out| unsafe { $call($($state,)* out.as_mut_ptr(), out.len()) })
    };
}

// ---- xoshiro

type Rows = [[u64; 8]; 4];
extern "C" {
    fn oracle_xoshiro_jump(s: &mut [u64; 4], walked: &mut [u64; 4]) -> u64;
    fn oracle_xoshiro_long_jump(s: &mut [u64; 4], walked: &mut [u64; 4]) -> u64;
    fn oracle_xoshiro_from_seed_block(s: &mut Rows, seed: u64, block: u64) -> u64;
    fn oracle_xoshiro_jump_blocks(s: &mut Rows, n: u64) -> u64;
    fn oracle_xoshiro_next_u64x8(s: &mut Rows, words: &mut [u64; 8]);
    fn oracle_xoshiro_fill_u64(s: &mut Rows, out: *mut u64, n: usize) -> u64;
    fn oracle_xoshiro_fill_u32(s: &mut Rows, out: *mut u32, n: usize) -> u64;
    fn oracle_xoshiro_fill_f32(s: &mut Rows, out: *mut f32, n: usize) -> u64;
    fn oracle_xoshiro_fill_f64(s: &mut Rows, out: *mut f64, n: usize) -> u64;
    fn oracle_xoshiro_fill_normal_f32(s: &mut Rows, out: *mut f32, n: usize) -> u64;
    fn oracle_xoshiro_fill_normal_f64(s: &mut Rows, out: *mut f64, n: usize) -> u64;
    fn oracle_xoshiro_fill_open01_f32(s: &mut Rows, out: *mut f32, n: usize) -> u64;
    fn oracle_xoshiro_fill_open01_f64(s: &mut Rows, out: *mut f64, n: usize) -> u64;
    fn oracle_xoshiro_fill_bytes(s: &mut Rows, kind: u64, out: *mut u8, n: usize, draws: &mut u64) -> u64;
}

struct Xoshiro {
    s: Rows,
    rust: Xoshiro256ppX8,
}

/// So many blocks are 2^64 jumps, which both sides take for none.
const ROUND: u64 = 1 << 61;

impl Xoshiro {
    fn placed(seed: u64, block: u64, count: &mut Count) -> Self {
        let mut s = [[7; 8]; 4];
        let jumps = unsafe { oracle_xoshiro_from_seed_block(&mut s, seed, block) };
        let g = Xoshiro { s, rust: Xoshiro256ppX8::from_seed_block(seed, block) };
        count.others += 1;
        g.check(jumps == block.wrapping_mul(8), || format!("from_seed_block({seed}, {block}), {jumps} jumps"), count);
        g
    }
}

impl Engine for Xoshiro {
    type Rust = Xoshiro256ppX8;
    type Label = ();
    const NAME: &'static str = "xoshiro";

    fn rust(&mut self) -> &mut Xoshiro256ppX8 {
        &mut self.rust
    }
    fn same(&self) -> bool {
        (0..8).all(|i| self.rust.lane(i).state() == self.s.map(|row| row[i]))
    }

    fn next_label(&self) {}
    fn no_label() {}

    fn fill(&mut self, kind: u64, n: usize) -> (Vec<u8>, (u64, ())) {
        let s = &mut self.s;
        let (bytes, draws) = match kind {
            1 => ours!(oracle_xoshiro_fill_u64, n, s),
            2 => ours!(oracle_xoshiro_fill_u32, n, s),
            3 => ours!(oracle_xoshiro_fill_f32, n, s),
            4 => ours!(oracle_xoshiro_fill_f64, n, s),
            5 => ours!(oracle_xoshiro_fill_normal_f32, n, s),
            6 => ours!(oracle_xoshiro_fill_normal_f64, n, s),
            7 => ours!(oracle_xoshiro_fill_open01_f32, n, s),
            _ => ours!(oracle_xoshiro_fill_open01_f64, n, s),
        };
        (bytes, (draws, ()))
    }
    fn fill_bytes(&mut self, kind: u64, n: usize) -> (Vec<u8>, (u64, u64, ())) {
        let mut draws = u64::MAX; // so that a number left unwritten shows
        lent(n, |out| {
            let refusal = unsafe { oracle_xoshiro_fill_bytes(&mut self.s, kind, out.as_mut_ptr(), out.len(), &mut draws) };
            (refusal, draws, ())
        })
    }
    fn draw(&mut self) -> ([u64; 8], ()) {
        let mut words = [7; 8];
        unsafe { oracle_xoshiro_next_u64x8(&mut self.s, &mut words) };
        (words, ())
    }

    fn start(which: u64, count: &mut Count) -> Self {
        match which {
            0 => Self::placed(0, 0, count),
            1 => Self::placed(42, 1, count),
            2 => Self::placed(0x0123_4567_89ab_cdef, ROUND + 3, count),
            _ => Self::placed(u64::MAX, 13, count),
        }
    }
    fn random_start(random: &mut Random, count: &mut Count) -> Self {
        let block = random.below(4) + ROUND * random.below(8);
        Self::placed(random.next(), block, count)
    }
    fn own_call(&mut self, random: &mut Random, count: &mut Count) {
        let n = random.of(&[0, 1, 2, 3, ROUND, ROUND + 1, 5 * ROUND + 2]);
        let jumps = unsafe { oracle_xoshiro_jump_blocks(&mut self.s, n) };
        self.rust.jump_blocks(n);
        count.others += 1;
        self.check(jumps == n.wrapping_mul(8), || format!("jump_blocks({n}), {jumps} jumps"), count);
    }
}

// ---- Philox

/// Our generator's fields, with which every call begins.
struct Fields {
    key: [u32; 2],
    stream: u64,
    counter: u64,
    waiting: bool,
    pending: [u64; 8],
    first: u64,
}

/// Every call is lent the fields first. One that moves the generator leaves in them the generator after it. A draw and the fills are lent
/// then the two parts of their label.
macro_rules! philox {
    ($($name:ident($($more:ident: $type:ty),*) $(-> $answer:ty)?;)*) => {
        extern "C" {
            $(fn $name(
                key: &mut [u32; 2], stream: &mut u64, counter: &mut u64, waiting: &mut bool, pending: &mut [u64; 8], first: &mut u64,
                $($more: $type),*
            ) $(-> $answer)?;)*
        }
    };
}
extern "C" {
    fn oracle_philox_draws_left(key: &[u32; 2], stream: &u64, counter: &u64, waiting: &bool, pending: &[u64; 8], first: &u64) -> u64;
}
philox! {
    oracle_philox_new(seed: u64, id: u64);
    oracle_philox_seek(block: u64);
    oracle_philox_next_u64x8(from: &mut u64, upper: &mut bool, words: &mut [u64; 8]);
    oracle_philox_blocks(words: &mut [[u32; 8]; 4]);
    oracle_philox_fill_u64(from: &mut u64, upper: &mut bool, out: *mut u64, n: usize) -> u64;
    oracle_philox_fill_u32(from: &mut u64, upper: &mut bool, out: *mut u32, n: usize) -> u64;
    oracle_philox_fill_f32(from: &mut u64, upper: &mut bool, out: *mut f32, n: usize) -> u64;
    oracle_philox_fill_f64(from: &mut u64, upper: &mut bool, out: *mut f64, n: usize) -> u64;
    oracle_philox_fill_normal_f32(from: &mut u64, upper: &mut bool, out: *mut f32, n: usize) -> u64;
    oracle_philox_fill_normal_f64(from: &mut u64, upper: &mut bool, out: *mut f64, n: usize) -> u64;
    oracle_philox_fill_open01_f32(from: &mut u64, upper: &mut bool, out: *mut f32, n: usize) -> u64;
    oracle_philox_fill_open01_f64(from: &mut u64, upper: &mut bool, out: *mut f64, n: usize) -> u64;
    oracle_philox_fill_bytes(from: &mut u64, upper: &mut bool, kind: u64, out: *mut u8, n: usize, draws: &mut u64) -> u64;
}

/// A call of ours on a generator's fields.
macro_rules! called {
    ($call:ident, $fields:expr $(, $more:expr)*) => {{
        let Fields { key, stream, counter, waiting, pending, first } = $fields;
        unsafe { $call(key, stream, counter, waiting, pending, first $(, $more)*) }
    }};
}

/// A typed fill of ours: what it wrote, its draws and its label.
macro_rules! labelled {
    ($call:ident, $n:expr, $fields:expr) => {{
        let (mut from, mut upper) = UNWRITTEN;
        let (bytes, draws) = lent($n, |out| called!($call, $fields, &mut from, &mut upper, out.as_mut_ptr(), out.len()));
        (bytes, (draws, (from, upper)))
    }};
}

struct Philox {
    ours: Fields,
    rust: Numbered,
}

/// So that a label left unwritten shows.
const UNWRITTEN: (u64, bool) = (987_654_321, true);

impl Philox {
    fn new(seed: u64, id: u64, count: &mut Count) -> Self {
        let mut ours = Fields { key: [7; 2], stream: 7, counter: 7, waiting: true, pending: [7; 8], first: 7 };
        called!(oracle_philox_new, &mut ours, seed, id);
        let g = Philox { ours, rust: Numbered::new(seed, id) };
        count.others += 1;
        g.check(true, || format!("new({seed}, {id})"), count);
        g
    }

    fn seek(&mut self, block: u64, count: &mut Count) {
        called!(oracle_philox_seek, &mut self.ours, block);
        self.rust.seek(block);
        count.others += 1;
        self.check(true, || format!("seek({block})"), count);
    }

    fn blocks(&mut self, count: &mut Count) {
        let mut words = [[7; 8]; 4];
        called!(oracle_philox_blocks, &mut self.ours, &mut words);
        let right = words == self.rust.blocks();
        count.others += 1;
        self.check(right, || "blocks".to_string(), count);
    }
}

impl Engine for Philox {
    type Rust = Numbered;
    type Label = (u64, bool);
    const NAME: &'static str = "Philox";

    fn rust(&mut self) -> &mut Numbered {
        &mut self.rust
    }
    /// The Rust shows all its fields as text alone. Words that don't wait are zeros here and none there, and then the number is 0.
    fn same(&self) -> bool {
        let Fields { key, stream, counter, waiting, pending, first } = &self.ours;
        let words = waiting.then_some(pending);
        let ours = format!("Philox4x32X8 {{ key: {key:?}, stream: {stream}, counter: {counter}, pending: {words:?} }}");
        (*waiting || *pending == [0; 8]) && ours == self.rust.text() && *first == self.rust.number()
    }
    fn tells(&self) -> bool {
        called!(oracle_philox_draws_left, &self.ours) == self.rust.draws_left()
    }
    fn next_label(&self) -> (u64, bool) {
        self.rust.label()
    }
    fn no_label() -> (u64, bool) {
        (0, false)
    }

    fn fill(&mut self, kind: u64, n: usize) -> (Vec<u8>, (u64, (u64, bool))) {
        let ours = &mut self.ours;
        match kind {
            1 => labelled!(oracle_philox_fill_u64, n, ours),
            2 => labelled!(oracle_philox_fill_u32, n, ours),
            3 => labelled!(oracle_philox_fill_f32, n, ours),
            4 => labelled!(oracle_philox_fill_f64, n, ours),
            5 => labelled!(oracle_philox_fill_normal_f32, n, ours),
            6 => labelled!(oracle_philox_fill_normal_f64, n, ours),
            7 => labelled!(oracle_philox_fill_open01_f32, n, ours),
            _ => labelled!(oracle_philox_fill_open01_f64, n, ours),
        }
    }
    fn fill_bytes(&mut self, kind: u64, n: usize) -> (Vec<u8>, (u64, u64, (u64, bool))) {
        let (mut draws, (mut from, mut upper)) = (u64::MAX, UNWRITTEN); // so that a number left unwritten shows
        lent(n, |out| {
            let (at, n) = (out.as_mut_ptr(), out.len());
            let refusal = called!(oracle_philox_fill_bytes, &mut self.ours, &mut from, &mut upper, kind, at, n, &mut draws);
            (refusal, draws, (from, upper))
        })
    }
    fn draw(&mut self) -> ([u64; 8], (u64, bool)) {
        let (mut words, (mut from, mut upper)) = ([7; 8], UNWRITTEN);
        called!(oracle_philox_next_u64x8, &mut self.ours, &mut from, &mut upper, &mut words);
        (words, (from, upper))
    }

    /// Words wait in the second and the fourth, and in the fourth `blocks` moved the counter since. The counter passes 2^64 in the third,
    /// and 2^32 in the fourth.
    fn start(which: u64, count: &mut Count) -> Self {
        let (seed, id, block) = match which {
            0 => (0, 0, 0),
            1 => (42, 7, 0),
            2 => (u64::MAX, u64::MAX, u64::MAX - 3000),
            _ => (0x0123_4567_89ab_cdef, 1 << 32, (1 << 32) - 3001),
        };
        let mut g = Self::new(seed, id, count);
        g.seek(block, count);
        if which % 2 == 1 {
            g.single(count);
        }
        if which == 3 {
            g.blocks(count);
        }
        g
    }
    fn random_start(random: &mut Random, count: &mut Count) -> Self {
        let id = random.next() >> random.of(&[0, 40, 63]);
        Self::new(random.next(), id, count)
    }
    fn own_call(&mut self, random: &mut Random, count: &mut Count) {
        let small = random.below(300);
        match random.below(6) {
            0 => self.seek(small, count),
            1 => self.seek(u64::MAX - small, count),
            2 => self.seek((random.next() << 32).wrapping_sub(small), count),
            _ => self.blocks(count),
        }
    }
}

// ---- the runs

/// A jump and a long jump from a state: the Rust's state after it, the steps, and the Rust's state after so many.
fn both_jumps(s: [u64; 4], count: &mut Count) {
    let (mut jumped, mut led_to) = (s, [7; 4]);
    let steps = unsafe { oracle_xoshiro_jump(&mut jumped, &mut led_to) };
    let (mut long, mut long_led_to) = (s, [7; 4]);
    let long_steps = unsafe { oracle_xoshiro_long_jump(&mut long, &mut long_led_to) };
    let start = Xoshiro256pp::from_state(s);
    let (mut rust, mut rust_long) = (start.clone(), start.clone());
    rust.jump();
    rust_long.long_jump();
    count.others += 2;
    count.same(&format!("jump from {s:x?}"), (jumped, steps, led_to), (rust.state(), STEPS, walked(&start)));
    count.same(&format!("long_jump from {s:x?}"), (long, long_steps, long_led_to), (rust_long.state(), STEPS, walked(&start)));
}

/// Every state of one bit, every state of words that are 0, 1, 2^63 or 2^64 - 1 (but for four zero words), and random ones.
fn jumps(states: u64, random: &mut Random) -> u64 {
    let mut count = Count::default();
    for k in 0..256 {
        both_jumps(std::array::from_fn(|i| if k / 64 == i { 1 << (k % 64) } else { 0 }), &mut count);
    }
    let words = [0, 1, 1 << 63, u64::MAX];
    for k in 1..256usize {
        both_jumps(std::array::from_fn(|i| words[k >> (2 * i) & 3]), &mut count);
    }
    for _ in 0..states {
        both_jumps(std::array::from_fn(|_| random.next()), &mut count);
    }
    count.report("xoshiro jump and long_jump of one stream")
}

/// Our fills draw up to 64 times ahead, which makes 512 elements of some kinds and 1024 of others: every length to somewhat more, and
/// lengths about multiples of these.
fn lengths() -> impl Iterator<Item = usize> {
    (0..=1104).chain(1530..=1542).chain(2030..=2066).chain(4090..=4102)
}

/// On each start a call of each length, one after another. So each length meets a Philox generator with words that wait, and one without.
fn every_length<E: Engine>(name: &str, call: impl Fn(&mut E, usize, &mut Count)) -> u64 {
    let mut count = Count::default();
    for (which, large) in [(0, 100_003), (1, 1_000_000), (2, 99_992), (3, 65_536)] {
        let mut g = E::start(which, &mut count);
        for n in lengths().chain([large]) {
            call(&mut g, n, &mut count);
        }
    }
    count.report(&format!("{} {name}", E::NAME))
}

/// Every small number of bytes for every kind, which some refuse, and for what is no kind.
fn refusals<E: Engine>() -> u64 {
    let mut count = Count::default();
    let mut g = E::start(1, &mut count);
    for n in 0..=300 {
        for number in KINDS.iter().map(|kind| kind.number).chain(UNKNOWN) {
            g.bytes(number, n, &mut count);
        }
    }
    count.report(&format!("{} fill_bytes of any length and kind", E::NAME))
}

fn random_length(random: &mut Random) -> usize {
    let n = match random.below(4) {
        0 | 1 => random.below(70),
        2 => random.below(1100),
        _ => (8 * random.below(280)).saturating_add_signed(random.below(5) as i64 - 2),
    };
    n as usize
}

/// A list of forty calls on one generator, or as many as agree.
fn list<E: Engine>(random: &mut Random, count: &mut Count) {
    let before = count.differences;
    let mut g = E::random_start(random, count);
    for _ in 0..40 {
        let n = random_length(random);
        let kind = &KINDS[random.below(KINDS.len() as u64) as usize];
        match random.below(10) {
            0..=2 => g.typed(kind, n, count),
            3 | 4 => g.bytes(kind.number, n * kind.width, count),
            5 => g.bytes(kind.number, n, count),
            6 => g.bytes(random.of(&UNKNOWN), n, count),
            7 => g.single(count),
            _ => g.own_call(random, count),
        }
        if count.differences != before {
            return;
        }
    }
}

fn run<E: Engine>(lists: u64, random: &mut Random) -> u64 {
    let mut differences = 0;
    for kind in &KINDS {
        differences += every_length::<E>(kind.name, |g, n, count| g.typed(kind, n, count));
    }
    for kind in &KINDS {
        let name = format!("fill_bytes of kind {}", kind.number);
        differences += every_length::<E>(&name, |g, n, count| g.bytes(kind.number, n * kind.width, count));
    }
    differences += refusals::<E>();
    let mut count = Count::default();
    for _ in 0..lists {
        list::<E>(random, &mut count);
    }
    differences + count.report(&format!("{}, {lists} lists of mixed calls", E::NAME))
}

fn main() {
    let lists = std::env::args().nth(1).and_then(|n| n.parse().ok()).expect("how many lists of mixed calls an engine");
    let random = &mut Random(20_260_102);
    let differences = jumps(lists, random) + run::<Xoshiro>(lists, random) + run::<Philox>(lists, random);
    std::process::exit(i32::from(differences != 0));
}
