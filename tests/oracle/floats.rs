//! Our float calls, linked as a static library, against the Rust's: the same bits for the same bits, at every lane. Inputs are random
//! patterns of each call's domain, patterns with one lane of any kind, and every boundary at every lane; what a call should
//! refuse is told here from the fields of the pattern. Units that are never 0, which the Rust doesn't have, are held to their formulas in
//! integers (forms.rs). The argument is how many random lanes each function gets; or `answers`, which reads the lanes of lanes.txt and
//! writes them with the Rust's results.
mod common;
mod forms;
use common::Random;
use forms::{open01_f32, open01_f64};
use tpt_simd_rng::{math, u32_to_unit_f32, u64_to_unit_f64};

/// How many lanes were compared, how many calls were refused, and what differed.
#[derive(Default)]
struct Count {
    lanes: u64,
    refused: u64,
    differences: u64,
}
impl Count {
    fn differ(&mut self, what: String) {
        self.differences += 1;
        if self.differences <= 5 {
            println!("  DIFFERENCE: {what}");
        }
    }
    fn report(&self, name: &str) -> u64 {
        println!("  {name}: {} lanes compared, {} calls refused, {} differences", self.lanes, self.refused, self.differences);
        self.differences
    }
}

macro_rules! compared {
    (mod $name:ident, $float:ty, $bits:ty,
     width $width:expr, digits $digits:expr, bias $bias:expr, reach $reach:expr, root2 $root2:expr, low $low:expr,
     ours $c_ln:ident $c_sincos:ident $c_sqrt:ident $c_bm:ident $c_unit:ident $c_rest:ident $c_open01:ident,
     rust $ln:ident $sincos:ident $sqrt:ident $bm:ident $unit:ident, formula $open01:ident) => {
        mod $name {
            use super::*;
            type Lanes = [$float; 8];

            extern "C" {
                fn $c_ln(x: &Lanes, out: &mut Lanes) -> u64;
                fn $c_sqrt(x: &Lanes, out: &mut Lanes) -> u64;
                fn $c_sincos(t: &Lanes, cos: &mut Lanes, sin: &mut Lanes) -> u64;
                fn $c_bm(u1: &Lanes, u2: &Lanes, cos: &mut Lanes, sin: &mut Lanes) -> u64;
                fn $c_unit(x: $bits) -> $bits;
                fn $c_rest(x: $bits) -> $bits;
                fn $c_open01(x: $bits) -> $bits;
            }

            const SIGN: $bits = 1 << ($width - 1);
            const LEAST: $bits = 1 << $digits;
            const INFINITY: $bits = (2 * $bias + 1) << $digits;
            const ONE: $bits = $bias << $digits;
            const LIMIT: $bits = ($bias + $reach) << $digits;

            // The domains, by the fields of a pattern.
            fn normal(b: $bits) -> bool {
                LEAST <= b && b < INFINITY
            }
            fn root(b: $bits) -> bool {
                b & !SIGN == 0 || normal(b)
            }
            fn turn(b: $bits) -> bool {
                b & !SIGN < LIMIT
            }
            fn u1(b: $bits) -> bool {
                LEAST <= b && b <= ONE
            }
            fn u2(b: $bits) -> bool {
                b == SIGN || b < ONE
            }

            /// Patterns where something changes, each with two neighbours on both sides, in both signs.
            fn boundaries() -> Vec<$bits> {
                let mut at: Vec<$bits> = vec![0, LEAST, INFINITY, ONE, LIMIT, !SIGN, INFINITY + LEAST / 2];
                for e in 0..=(2 * $bias + 1) {
                    let power = e << $digits;
                    at.push(power);
                    at.push(power | (LEAST / 2)); // the digit after the leading one
                    at.push(power | ($root2 & (LEAST - 1))); // m at the threshold sqrt(2)
                }
                for k in 1..=4096u32 {
                    at.push((k as $float / 8.0).to_bits()); // ties of the quarter at odd k
                }
                for j in 0..$reach {
                    for k in 1..8u32 {
                        let whole = (1u64 << j) as $float;
                        at.push((whole + k as $float / 8.0).to_bits());
                        at.push((whole - k as $float / 8.0).abs().to_bits());
                    }
                }
                let mut all = vec![];
                for b in at {
                    for near in -2i32..=2 {
                        let n = (b & !SIGN).wrapping_add(near as $bits) & !SIGN;
                        all.push(n);
                        all.push(n | SIGN);
                    }
                }
                all.sort_unstable();
                all.dedup();
                all
            }

            fn bits(x: &Lanes) -> [$bits; 8] {
                x.map(<$float>::to_bits)
            }
            fn floats(x: &[$bits; 8]) -> Lanes {
                x.map(<$float>::from_bits)
            }
            fn draw(random: &mut Random, domain: fn($bits) -> bool) -> $bits {
                loop {
                    let b = random.next() as $bits;
                    // Half of the time a number about 1, where the calls are used.
                    let b = if random.next() & 1 == 0 { b } else { (b >> 6) + (ONE - ONE / 32) };
                    if domain(b) {
                        return b;
                    }
                }
            }

            /// One call on up to two arrays, with one or two results: ours against the Rust's, or against its refusal.
            struct Call {
                name: &'static str,
                number: u64,
                results: usize,
                domains: &'static [fn($bits) -> bool],
                ours: fn(&[Lanes; 2], &mut [Lanes; 2]) -> u64,
                rust: fn(&[Lanes; 2]) -> [Lanes; 2],
            }

            const CALLS: [Call; 4] = [
                Call {
                    name: stringify!($ln),
                    number: 7,
                    results: 1,
                    domains: &[normal],
                    ours: |x, out| unsafe { $c_ln(&x[0], &mut out[0]) },
                    rust: |x| [math::$ln(x[0]), [0.0; 8]],
                },
                Call {
                    name: stringify!($sincos),
                    number: 8,
                    results: 2,
                    domains: &[turn],
                    ours: |x, out| {
                        let [cos, sin] = out;
                        unsafe { $c_sincos(&x[0], cos, sin) }
                    },
                    rust: |x| {
                        let (sin, cos) = math::$sincos(x[0]);
                        [cos, sin]
                    },
                },
                Call {
                    name: stringify!($sqrt),
                    number: 9,
                    results: 1,
                    domains: &[root],
                    ours: |x, out| unsafe { $c_sqrt(&x[0], &mut out[0]) },
                    rust: |x| [math::$sqrt(x[0]), [0.0; 8]],
                },
                Call {
                    name: stringify!($bm),
                    number: 10,
                    results: 2,
                    domains: &[u1, u2],
                    ours: |x, out| {
                        let [cos, sin] = out;
                        unsafe { $c_bm(&x[0], &x[1], cos, sin) }
                    },
                    rust: |x| {
                        let (cos, sin) = math::$bm(x[0], x[1]);
                        [cos, sin]
                    },
                },
            ];

            impl Call {
                /// The refusal's number or 0, and the results.
                fn expected(&self, x: &[[$bits; 8]; 2]) -> (u64, [Lanes; 2]) {
                    if self.domains.iter().zip(x).all(|(domain, lanes)| lanes.iter().all(|&b| domain(b))) {
                        (0, (self.rust)(&[floats(&x[0]), floats(&x[1])]))
                    } else {
                        (self.number, [[0.0; 8]; 2])
                    }
                }

                fn check(&self, x: &[[$bits; 8]; 2], count: &mut Count) {
                    let mut out = [[7.0; 8]; 2]; // so that a result left unwritten shows
                    let refusal = (self.ours)(&[floats(&x[0]), floats(&x[1])], &mut out);
                    let (number, expected) = self.expected(x);
                    if number == 0 {
                        count.lanes += 8;
                    } else {
                        count.refused += 1;
                    }
                    if refusal != number || (0..self.results).any(|k| bits(&out[k]) != bits(&expected[k])) {
                        count.differ(format!("{} of {x:x?}: {refusal} {out:?}, not {number} {expected:?}", self.name));
                    }
                }

                fn draws(&self, random: &mut Random) -> [[$bits; 8]; 2] {
                    let mut x = [[ONE; 8]; 2];
                    for (lanes, domain) in x.iter_mut().zip(self.domains) {
                        for b in lanes {
                            *b = draw(random, *domain);
                        }
                    }
                    x
                }

                /// Writes eight lanes, one a line: the call, the refusal's number or 0, the arguments, and the Rust's results or zero bits.
                fn write(&self, x: &[[$bits; 8]; 2]) {
                    let (number, results) = self.expected(x);
                    for lane in 0..8 {
                        print!("{} {number}", self.name);
                        for numbers in x[..self.domains.len()].iter().chain(&results.map(|lanes| bits(&lanes))[..self.results]) {
                            print!(" {:0digits$x}", numbers[lane], digits = $width / 4);
                        }
                        println!();
                    }
                }

                fn run(&self, lanes: u64, random: &mut Random) -> u64 {
                    let mut count = Count::default();
                    while count.lanes < lanes {
                        let mut x = self.draws(random);
                        self.check(&x, &mut count);
                        if random.below(8) == 0 {
                            let which = random.below(self.domains.len() as u64) as usize;
                            x[which][random.below(8) as usize] = random.next() as $bits;
                            self.check(&x, &mut count);
                        }
                    }
                    for b in boundaries() {
                        for which in 0..self.domains.len() {
                            for lane in 0..8 {
                                let mut x = self.draws(random);
                                x[which][lane] = b;
                                self.check(&x, &mut count);
                            }
                        }
                    }
                    count.report(self.name)
                }
            }

            /// Units of `n` words whose upper bits are the numbers from 0 on, or random ones, and Box-Muller of them.
            fn units(n: u64, every: bool, random: &mut Random) -> u64 {
                let (mut count, mut pairs) = (Count::default(), Count::default());
                let mut x = [[ONE; 8]; 2];
                for k in 0..n {
                    let noise = random.next() as $bits;
                    let w = if every { (k as $bits) << $low | noise >> ($width - $low) } else { noise };
                    let unit = $unit(w);
                    let (ours, rest) = unsafe { ($c_unit(w), $c_rest(w)) };
                    count.lanes += 1;
                    if ours != unit.to_bits() || rest != (1.0 - unit).to_bits() {
                        count.differ(format!("units of {w:x}: {ours:x} {rest:x}"));
                    }
                    x[0][(k % 8) as usize] = rest;
                    x[1][(k * 5 % 8) as usize] = ours;
                    if k % 8 == 7 {
                        CALLS[3].check(&x, &mut pairs);
                    }
                }
                if pairs.refused != 0 {
                    pairs.differ("Box-Muller refused units".to_string());
                }
                count.report(concat!(stringify!($unit), ", and 1 less it")) + pairs.report(concat!(stringify!($bm), " of these"))
            }

            /// Units that are never 0, of the words with these numbers in the upper bits, each with no bit below set, all and some; and of
            /// random words, until there are `n`.
            fn never_zero(upper: impl Iterator<Item = $bits>, n: u64, random: &mut Random) -> u64 {
                let mut count = Count::default();
                let mut check = |w: $bits| {
                    let (ours, expected) = (unsafe { $c_open01(w) }, $open01(w));
                    count.lanes += 1;
                    if ours != expected {
                        count.differ(format!("{} of {w:x}: {ours:x} and not {expected:x}", stringify!($open01)));
                    }
                    count.lanes
                };
                for m in upper {
                    for low in [0, <$bits>::MAX, random.next() as $bits] {
                        check(m << ($width - $digits) | low >> $digits);
                    }
                }
                while check(random.next() as $bits) < n {}
                count.report(stringify!($open01))
            }

            /// Writes the lines of eight lanes of a call, if it is one of these.
            pub fn answers(lines: &[Vec<&str>]) {
                let Some(call) = CALLS.iter().find(|call| call.name == lines[0][0]) else { return };
                let mut x = [[ONE; 8]; 2];
                for (lane, line) in lines.iter().enumerate() {
                    for which in 0..call.domains.len() {
                        x[which][lane] = <$bits>::from_str_radix(line[2 + which], 16).expect("a pattern");
                    }
                }
                call.write(&x);
            }

            pub fn run(lanes: u64, random: &mut Random) -> u64 {
                let mut differences = 0;
                for call in &CALLS {
                    differences += call.run(lanes, random);
                }
                let last: $bits = LEAST - 1; // the largest number that a unit which is never 0 is made of
                if $width == 32 {
                    differences + units(1 << 24, true, random) + never_zero(0..=last, lanes, random)
                } else {
                    // about powers of two, where the exponent changes, and at both ends
                    let about = |at: $bits| at.saturating_sub(1000)..=last.min(at + 1000);
                    let powers = (0..=$digits).flat_map(|place| about(1 << place));
                    differences + units(lanes, false, random) + never_zero(powers, lanes, random)
                }
            }
        }
    };
}

compared!(
    mod single, f32, u32,
    width 32, digits 23, bias 127, reach 20, root2 0x3FB5_04F3, low 8,
    ours oracle_ln_f32 oracle_sincos_turns_f32 oracle_sqrt_f32 oracle_box_muller_f32 oracle_unit_f32 oracle_one_minus_unit_f32
         oracle_open01_f32,
    rust ln_f32 sincos_turns_f32 sqrt_f32 box_muller_f32 u32_to_unit_f32, formula open01_f32
);
compared!(
    mod double, f64, u64,
    width 64, digits 52, bias 1023, reach 40, root2 0x3FF6_A09E_667F_3BCD, low 12,
    ours oracle_ln_f64 oracle_sincos_turns_f64 oracle_sqrt_f64 oracle_box_muller_f64 oracle_unit_f64 oracle_one_minus_unit_f64
         oracle_open01_f64,
    rust ln_f64 sincos_turns_f64 sqrt_f64 box_muller_f64 u64_to_unit_f64, formula open01_f64
);

fn main() {
    let argument = std::env::args().nth(1).expect("how many random lanes a function, or answers");
    if argument == "answers" {
        let text = std::io::read_to_string(std::io::stdin()).expect("standard input");
        let lines: Vec<Vec<&str>> = text.lines().map(|line| line.split(' ').collect()).collect();
        for eight in lines.chunks(8) {
            single::answers(eight);
            double::answers(eight);
        }
        return;
    }
    let lanes = argument.parse().expect("how many random lanes a function");
    let random = &mut Random(20_260_101);
    let differences = single::run(lanes, random) + double::run(lanes, random);
    std::process::exit(i32::from(differences != 0));
}
