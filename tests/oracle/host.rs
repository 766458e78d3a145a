//! The C library, linked as a static library, against the Rust's: the same calls on both sides, and after each of them the same bits in
//! the output and around it, the answer that the scope document gives, and a saved form that is the Rust's generator laid out (forms.rs).
//! The arguments are how many lists of mixed calls each engine gets, and to which draw the Rust walks beside the skips.
mod common;
mod forms;
use common::{Count, Random};
use forms::{draw, filled, kind, numbered, philox_refusal, Numbered, Saved, KINDS, UNKNOWN};
use tpt_simd_rng::{Xoshiro256pp, Xoshiro256ppX8};

type Fill = unsafe extern "C" fn(*mut u8, usize, u64, *mut u8, usize) -> i64;
type Skip = unsafe extern "C" fn(*mut u8, usize, u64) -> i64;
extern "C" {
    fn gp_xoshiro_fill(form: *mut u8, form_len: usize, kind: u64, out: *mut u8, out_len: usize) -> i64;
    fn gp_philox_fill(form: *mut u8, form_len: usize, kind: u64, out: *mut u8, out_len: usize) -> i64;
    fn gp_xoshiro_new(seed: u64, block: u64, form: *mut u8, form_len: usize, jumps: *mut u64) -> i64;
    fn gp_xoshiro_jump_blocks(form: *mut u8, form_len: usize, n: u64, jumps: *mut u64) -> i64;
    fn gp_xoshiro_skip(form: *mut u8, form_len: usize, draws: u64) -> i64;
    fn gp_philox_new(seed: u64, stream: u64, form: *mut u8, form_len: usize) -> i64;
    fn gp_philox_seek(form: *mut u8, form_len: usize, block: u64) -> i64;
    fn gp_philox_skip(form: *mut u8, form_len: usize, draws: u64) -> i64;
    fn gp_philox_draws_left(form: *const u8, form_len: usize) -> i64;
    fn gp_philox_label(form: *const u8, form_len: usize, first: *mut u64) -> i64;
    fn gp_philox_from_96(old: *const u8, old_len: usize, form: *mut u8, form_len: usize) -> i64;
    fn gp_philox_to_96(form: *const u8, form_len: usize, old: *mut u8, old_len: usize) -> i64;
}

/// What a call is lent, between two ends of noise.
struct Lent {
    whole: Vec<u8>,
    guard: usize,
}
impl Lent {
    fn new(content: &[u8]) -> Self {
        let guard = 16 + content.len() % 8; // so that a lent buffer begins at any place of a word
        let ends = Random(content.len() as u64).bytes(2 * guard);
        Lent { whole: [&ends[..guard], content, &ends[guard..]].concat(), guard }
    }
    fn at(&mut self) -> *mut u8 {
        self.whole[self.guard..].as_mut_ptr()
    }
    fn len(&self) -> usize {
        self.whole.len() - 2 * self.guard
    }
    /// After a call: the content expected, and both ends as they were.
    fn check(&self, what: impl Fn() -> String, expected: &[u8], count: &mut Count) {
        let after = Lent::new(expected).whole;
        assert_eq!(after.len(), self.whole.len());
        if let Some(k) = (0..after.len()).find(|&k| self.whole[k] != after[k]) {
            let place = k as i64 - self.guard as i64;
            count.differ(format!("{}: byte {place} of {} is {:02x} and not {:02x}", what(), self.len(), self.whole[k], after[k]));
        }
    }
}

/// A number that a refused call leaves as it was.
const UNTOUCHED: u64 = 987_654_321;

/// A form beside the Rust's generator. `refusal` is 0, or the number for which every call on this form is refused: then nothing happens on
/// the Rust's side.
struct Pair<'a, R> {
    form: &'a mut Vec<u8>,
    rust: &'a mut R,
    refusal: i64,
}

impl<R: Engine> Pair<'_, R> {
    /// After a call: its answer, or minus the refusal; and the form, which is the Rust's generator, or what it was.
    fn check(&mut self, what: impl Fn() -> String, ours: (i64, Lent), expected: i64, count: &mut Count) {
        let (answer, form) = ours;
        let expected = if self.refusal == 0 { expected } else { -self.refusal };
        if self.refusal == 0 {
            *self.form = self.rust.form();
        } else {
            count.refused += 1;
        }
        if answer != expected {
            count.differ(format!("{} {}: the answer is {answer} and not {expected}", R::NAME, what()));
        }
        form.check(|| format!("{} {}, the form", R::NAME, what()), self.form, count);
    }

    fn fill(mut self, number: u64, length: usize, random: &mut Random, count: &mut Count) {
        let noise = random.bytes(length);
        let (mut form, mut out) = (Lent::new(self.form), Lent::new(&noise));
        let answer = unsafe { R::FILL(form.at(), form.len(), number, out.at(), out.len()) };
        let own = kind(number).map_or(4, |kind| if length % kind.width == 0 { 0 } else { 5 });
        self.refusal = lowest(self.refusal, own);
        let (draws, after) = if self.refusal == 0 {
            let n = length / kind(number).expect("a kind").width;
            count.fills += 1;
            count.elements += n as u64;
            filled(self.rust, number, n)
        } else {
            (0, noise)
        };
        let what = || format!("fill of kind {number}, {length} bytes");
        self.check(what, (answer, form), draws, count);
        out.check(|| format!("{} {}, the output", R::NAME, what()), &after, count);
    }

    fn skip(mut self, draws: u64, count: &mut Count) {
        let mut form = Lent::new(self.form);
        let answer = unsafe { R::SKIP(form.at(), form.len(), draws) };
        if self.refusal == 0 {
            draw(self.rust, draws);
        }
        count.others += 1;
        self.check(|| format!("skip of {draws} draws"), (answer, form), 0, count);
    }
}

/// The lower of two refusals that both apply, 0 for none.
fn lowest(a: i64, b: i64) -> i64 {
    if a == 0 || b == 0 {
        a + b
    } else {
        a.min(b)
    }
}

/// How many draws a skip of a list is: none, few, or many.
fn random_draws(random: &mut Random) -> u64 {
    let most = random.of(&[1, 4, 64, 2000]);
    random.below(most)
}

trait Engine: Saved + Sized {
    const NAME: &'static str;
    const FILL: Fill;
    const SKIP: Skip;
    /// A random start, on both sides.
    fn start(random: &mut Random, count: &mut Count) -> (Vec<u8>, Self);
    /// A random call that this engine alone has.
    fn own_call(pair: Pair<Self>, random: &mut Random, count: &mut Count);
    /// Makes a form of the right length one that is refused, and answers the number.
    fn damage(form: &mut [u8], random: &mut Random) -> i64;
}

// ---- xoshiro

/// So many blocks are 2^64 jumps, which both sides take for none.
const ROUND: u64 = 1 << 61;

impl Engine for Xoshiro256ppX8 {
    const NAME: &'static str = "xoshiro";
    const FILL: Fill = gp_xoshiro_fill;
    const SKIP: Skip = gp_xoshiro_skip;

    /// From a seed and a block, or from lanes of any words, some of them zero.
    fn start(random: &mut Random, count: &mut Count) -> (Vec<u8>, Self) {
        if random.below(4) == 0 {
            let word = |random: &mut Random| random.next() * random.below(2);
            let lane = |random: &mut Random| Xoshiro256pp::from_state([word(random), random.next() | 1, word(random), word(random)]);
            let rust = Xoshiro256ppX8::from_lanes(&[(); 8].map(|()| lane(random)));
            return (rust.form(), rust);
        }
        let (seed, block) = (random.next(), random.below(4) + ROUND * random.below(8));
        let (mut form, mut rust, mut jumps) = (random.bytes(256), Xoshiro256ppX8::from_seed_block(seed, block), UNTOUCHED);
        let mut lent = Lent::new(&form);
        let answer = unsafe { gp_xoshiro_new(seed, block, lent.at(), lent.len(), &mut jumps) };
        let what = || format!("new({seed}, {block})");
        count.others += 1;
        count.same(&what(), jumps, block.wrapping_mul(8));
        Pair { form: &mut form, rust: &mut rust, refusal: 0 }.check(what, (answer, lent), 0, count);
        (form, rust)
    }

    fn own_call(mut pair: Pair<Self>, random: &mut Random, count: &mut Count) {
        let n = random.of(&[0, 1, 2, 3, ROUND, ROUND + 1, 5 * ROUND + 2]);
        let (mut form, mut jumps) = (Lent::new(pair.form), UNTOUCHED);
        let answer = unsafe { gp_xoshiro_jump_blocks(form.at(), form.len(), n, &mut jumps) };
        let expected = if pair.refusal == 0 { n.wrapping_mul(8) } else { UNTOUCHED };
        if pair.refusal == 0 {
            pair.rust.jump_blocks(n);
        }
        count.others += 1;
        count.same(&format!("xoshiro jump_blocks({n}), jumps"), jumps, expected);
        pair.check(|| format!("jump_blocks({n})"), (answer, form), 0, count);
    }

    fn damage(form: &mut [u8], random: &mut Random) -> i64 {
        let lane = 8 * random.below(8) as usize;
        for row in 0..4 {
            form[64 * row + lane..64 * row + lane + 8].fill(0);
        }
        3
    }
}

// ---- Philox

/// The call that tells of the next draw, and both moves.
impl Pair<'_, Numbered> {
    fn label(mut self, count: &mut Count) {
        let (mut form, mut first) = (Lent::new(self.form), UNTOUCHED);
        let answer = unsafe { gp_philox_label(form.at(), form.len(), &mut first) };
        let (block, upper) = self.rust.label();
        count.same("Philox label, the block", first, if self.refusal == 0 { block } else { UNTOUCHED });
        self.check(|| "label".to_string(), (answer, form), i64::from(upper), count);
    }

    /// To a buffer of another length now and then, which is refused.
    fn to_96(mut self, random: &mut Random, count: &mut Count) {
        let length = random.of(&[96, 96, 96, 0, 95, 97, 104]) as usize;
        let noise = random.bytes(length);
        let (mut form, mut old) = (Lent::new(self.form), Lent::new(&noise));
        let answer = unsafe { gp_philox_to_96(form.at(), form.len(), old.at(), old.len()) };
        self.refusal = lowest(self.refusal, i64::from(length != 96));
        let after = if self.refusal == 0 { self.rust.form()[..96].to_vec() } else { noise };
        self.check(|| format!("to_96 of {length} bytes"), (answer, form), 0, count);
        old.check(|| format!("Philox to_96, the {length} bytes"), &after, count);
    }

    /// The bytes of this form without its number, or as many of them as there are, moved to a buffer of 104 bytes.
    fn from_96(self, random: &mut Random, count: &mut Count) {
        let (content, noise) = (self.form[..self.form.len().min(96)].to_vec(), random.bytes(104));
        let (mut old, mut form) = (Lent::new(&content), Lent::new(&noise));
        let answer = unsafe { gp_philox_from_96(old.at(), old.len(), form.at(), form.len()) };
        let moved = if content.len() == 96 { numbered(&content) } else { Vec::new() };
        let refusal = philox_refusal(&moved);
        count.refused += u64::from(refusal != 0);
        count.same("Philox from_96, the answer", answer, -refusal);
        old.check(|| "Philox from_96, the old form".to_string(), &content, count);
        form.check(|| "Philox from_96, the form".to_string(), if refusal == 0 { &moved } else { &noise }, count);
    }
}

impl Engine for Numbered {
    const NAME: &'static str = "Philox";
    const FILL: Fill = gp_philox_fill;
    const SKIP: Skip = gp_philox_skip;

    fn start(random: &mut Random, count: &mut Count) -> (Vec<u8>, Self) {
        let (seed, stream) = (random.next(), random.next() >> random.of(&[0, 40, 63]));
        let (mut form, mut rust) = (random.bytes(104), Numbered::new(seed, stream));
        let mut lent = Lent::new(&form);
        let answer = unsafe { gp_philox_new(seed, stream, lent.at(), lent.len()) };
        count.others += 1;
        Pair { form: &mut form, rust: &mut rust, refusal: 0 }.check(|| format!("new({seed}, {stream})"), (answer, lent), 0, count);
        (form, rust)
    }

    fn own_call(mut pair: Pair<Self>, random: &mut Random, count: &mut Count) {
        count.others += 1;
        let mut choice = random.below(6);
        if choice == 4 && pair.refusal == 0 {
            // not a call of the library: the form of a generator whose counter was moved while words may wait
            pair.rust.blocks();
            *pair.form = pair.rust.form();
            choice = 1 + random.below(3);
        }
        let mut form = Lent::new(pair.form);
        match choice {
            0 => {
                let answer = unsafe { gp_philox_draws_left(form.at(), form.len()) };
                let left = pair.rust.draws_left() as i64;
                return pair.check(|| "draws_left".to_string(), (answer, form), left, count);
            }
            1 => return pair.label(count),
            2 => return pair.to_96(random, count),
            3 => return pair.from_96(random, count),
            _ => (),
        }
        let (small, high) = (random.below(300), random.next() << 32);
        let block = random.of(&[small, u64::MAX - small, high.wrapping_sub(small)]);
        let answer = unsafe { gp_philox_seek(form.at(), form.len(), block) };
        if pair.refusal == 0 {
            pair.rust.seek(block);
        }
        pair.check(|| format!("seek({block})"), (answer, form), 0, count);
    }

    /// A mark that is neither 0 nor 1, or mark 0 with a byte among the waiting words or the number's; or mark 1 with such a byte, so that
    /// the words are not those of the numbered group.
    fn damage(form: &mut [u8], random: &mut Random) -> i64 {
        let mark = random.of(&[0, 0, 0, 0, 1, 1, 1, 1, 1, 1, 1, 1, 2, 3, 255, 256, 257, 1 << 32, (1 << 32) + 1, 1 << 63, u64::MAX]);
        form[24..32].copy_from_slice(&mark.to_le_bytes());
        let at = if random.below(2) == 0 { 32 + random.below(64) } else { 96 + random.below(8) };
        form[at as usize] ^= 1 << random.below(8);
        philox_refusal(form)
    }
}

// ---- the runs

fn random_kind(random: &mut Random) -> u64 {
    1 + random.below(KINDS.len() as u64)
}

fn random_length(random: &mut Random) -> usize {
    let n = match random.below(4) {
        0 | 1 => random.below(70),
        2 => random.below(1100),
        _ => (8 * random.below(280)).saturating_add_signed(random.below(5) as i64 - 2),
    };
    n as usize
}

/// Any call on a form that is refused: damaged, of another length, or both.
fn refused<R: Engine>(form: &[u8], rust: &mut R, random: &mut Random, count: &mut Count) {
    let mut form = form.to_vec();
    let right = form.len() as u64;
    let mut refusal = R::damage(&mut form, random);
    if random.below(2) == 0 {
        refusal = 1;
        // the old length of Philox and the other engine's among them
        let other = random.of(&[0, 8, 96, right - 1, right + 1, 2 * right, 360 - right]);
        form.resize(other as usize, 7);
    }
    let pair = Pair { form: &mut form, rust, refusal };
    match random.below(4) {
        0 => R::own_call(pair, random, count),
        3 => pair.skip(random_draws(random), count),
        1 => pair.fill(random_kind(random), random_length(random), random, count),
        _ => pair.fill(random.of(&UNKNOWN), random_length(random), random, count),
    }
}

/// A list of forty calls on one form, or as many as agree.
fn list<R: Engine>(random: &mut Random, count: &mut Count) {
    let before = count.differences;
    let (mut form, mut rust) = R::start(random, count);
    for _ in 0..40 {
        let n = random_length(random);
        let number = random_kind(random);
        let width = kind(number).expect("a kind").width;
        let pair = Pair { form: &mut form, rust: &mut rust, refusal: 0 };
        match random.below(11) {
            10 => pair.skip(random_draws(random), count),
            0..=5 => pair.fill(number, n * width, random, count),
            6 => pair.fill(number, n, random, count),
            7 => pair.fill(random.of(&UNKNOWN), n, random, count),
            8 => refused(&form, &mut rust, random, count),
            _ => R::own_call(pair, random, count),
        }
        if count.differences != before {
            return;
        }
    }
}

fn run<R: Engine>(lists: u64, random: &mut Random) -> u64 {
    let mut count = Count::default();
    for _ in 0..lists {
        list::<R>(random, &mut count);
    }
    count.report(&format!("{}, {lists} lists of mixed calls", R::NAME))
}

/// Skips from one start on, held to the Rust's generator, which walks there draw by draw.
fn walk<R: Engine>(far: u64, random: &mut Random) -> u64 {
    let mut count = Count::default();
    let (mut start, mut rust) = R::start(random, &mut count);
    // one draw before, so that on Philox words wait
    Pair { form: &mut start, rust: &mut rust, refusal: 0 }.fill(1, 64, random, &mut count);
    let mut stops: Vec<u64> = std::iter::successors(Some(far), |n| (*n > 0).then(|| n / 10)).collect();
    stops.extend((0..20).map(|_| random.below(far)));
    stops.sort_unstable();
    let mut at = 0;
    for n in stops {
        draw(&mut rust, n - at);
        at = n;
        let (mut form, mut lent) = (start.clone(), Lent::new(&start));
        let answer = unsafe { R::SKIP(lent.at(), lent.len(), n) };
        count.others += 1;
        Pair { form: &mut form, rust: &mut rust, refusal: 0 }.check(|| format!("skip of {n} draws"), (answer, lent), 0, &mut count);
    }
    count.report(&format!("{}, skips to draw {far}", R::NAME))
}

/// Blocks, each held to the Rust's, which makes its jumps one by one; and moves from block 0 to them.
fn blocks(random: &mut Random) -> u64 {
    let mut count = Count::default();
    let seed = random.next();
    let zero = Xoshiro256ppX8::from_seed_block(seed, 0).form();
    for block in [7, 999, 1000, 30_000 + random.below(9000), 99_999, 100_000] {
        let mut rust = Xoshiro256ppX8::from_seed_block(seed, block);
        let (mut form, mut begun, mut moved) = (rust.form(), Lent::new(&[0; 256]), Lent::new(&zero));
        let mut jumps = [UNTOUCHED; 2];
        let begins = unsafe { gp_xoshiro_new(seed, block, begun.at(), begun.len(), &mut jumps[0]) };
        Pair { form: &mut form, rust: &mut rust, refusal: 0 }.check(|| format!("new({seed}, {block})"), (begins, begun), 0, &mut count);
        let moves = unsafe { gp_xoshiro_jump_blocks(moved.at(), moved.len(), block, &mut jumps[1]) };
        Pair { form: &mut form, rust: &mut rust, refusal: 0 }.check(|| format!("a move by {block}"), (moves, moved), 0, &mut count);
        count.same(&format!("the jumps to block {block}"), jumps, [8 * block; 2]);
        count.others += 2;
    }
    count.report("xoshiro, blocks to 100000")
}

fn main() {
    let number = |i| std::env::args().nth(i).and_then(|n| n.parse().ok());
    let lists = number(1).expect("how many lists of mixed calls an engine");
    let far = number(2).expect("how many draws to walk");
    let random = &mut Random(20_260_103);
    let mut differences = run::<Xoshiro256ppX8>(lists, random) + run::<Numbered>(lists, random);
    differences += walk::<Xoshiro256ppX8>(far, random) + walk::<Numbered>(far, random) + blocks(random);
    std::process::exit(i32::from(differences != 0));
}
