// Test vectors of the plant's blocks on reals, computed by Rust's f32.
//
//     reals DIR
//
// writes DIR/reals.in, a block with its parameters and its input to a line, and DIR/reals.out, what
// each of them shows. A real is its pattern in eight hexadecimal digits; among the results
// not-a-number is always 7FC00000. A use with unlawful parameters shows zero.
//
//     limit LOW HIGH X      a real
//     seq M X               a whole number
//     scale A B C D X       a real

use std::fmt::Write;
use std::path::Path;

fn limit(low: f32, high: f32, x: f32) -> f32 {
    if !(low <= high) {
        return 0.0;
    }
    match x {
        x if x < low => low,
        x if x > high => high,
        x => x,
    }
}

fn seq(m: i16, x: f32) -> i16 {
    if !(1..=16).contains(&m) {
        return 0;
    }
    let percent = if x > 100.0 {
        100.0
    } else if x > 0.0 {
        x
    } else {
        0.0
    };
    let product = (f32::from(m) + 1.0) * percent;
    let on = ((product / 100.0).trunc() as u32).min(16);
    ((1u32 << on) - 1) as u16 as i16
}

fn scale(a: f32, b: f32, c: f32, d: f32, x: f32) -> f32 {
    if !(a < b || a > b) {
        return 0.0;
    }
    let slope = (d - c) / (b - a);
    let run = x - a;
    let rise = run * slope;
    rise + c
}

fn pattern(x: f32) -> u32 {
    if x.is_nan() { 0x7FC0_0000 } else { x.to_bits() }
}

#[derive(Default)]
struct Vectors {
    inputs: String,
    results: String,
}

// Inputs keep their own patterns, so that every form of not-a-number is read.
impl Vectors {
    fn limit(&mut self, low: f32, high: f32, x: f32) {
        let (l, h, i) = (low.to_bits(), high.to_bits(), x.to_bits());
        writeln!(self.inputs, "limit {l:08X} {h:08X} {i:08X}").unwrap();
        writeln!(self.results, "{:08X}", pattern(limit(low, high, x))).unwrap();
    }

    fn seq(&mut self, m: i16, x: f32) {
        writeln!(self.inputs, "seq {m} {:08X}", x.to_bits()).unwrap();
        writeln!(self.results, "{}", seq(m, x)).unwrap();
    }

    fn scale(&mut self, [a, b, c, d]: [f32; 4], x: f32) {
        write!(self.inputs, "scale").unwrap();
        for y in [a, b, c, d, x] {
            write!(self.inputs, " {:08X}", y.to_bits()).unwrap();
        }
        self.inputs.push('\n');
        writeln!(self.results, "{:08X}", pattern(scale(a, b, c, d, x))).unwrap();
    }
}

// A fixed generator: xorshift of 64 bits, of which the upper 32 are used.
struct Generator(u64);

impl Generator {
    fn bits(&mut self) -> u32 {
        self.0 ^= self.0 << 13;
        self.0 ^= self.0 >> 7;
        self.0 ^= self.0 << 17;
        (self.0 >> 32) as u32
    }

    // Any pattern.
    fn real(&mut self) -> f32 {
        f32::from_bits(self.bits())
    }

    // A number of the plant's usual size, between from and to.
    fn between(&mut self, from: f32, to: f32) -> f32 {
        from + (to - from) * (self.bits() as f32 / u32::MAX as f32)
    }

    fn pick(&mut self, from: &[f32]) -> f32 {
        from[self.bits() as usize % from.len()]
    }
}

// The number whose pattern lies n away: n steps up or down in magnitude.
fn moved(x: f32, n: i32) -> f32 {
    f32::from_bits(x.to_bits().wrapping_add_signed(n))
}

// One or more of every class of reals.
fn classes() -> Vec<f32> {
    let mut all = Vec::new();
    for bits in [
        0x0000_0000, // zero
        0x0000_0001, // the smallest subnormal
        0x0000_0002,
        0x0040_0000, // a subnormal power of two
        0x007F_FFFF, // the largest subnormal
        0x0080_0000, // the smallest normal number
        0x0080_0001,
        0x3F7F_FFFF, // just below 1
        0x3F80_0000,
        0x3F80_0001,
        0x4B7F_FFFF, // the largest number with a half
        0x4B80_0000, // from here on only even numbers
        0x7F7F_FFFF, // the largest number
        0x7F80_0000, // infinity
        0x7F80_0001, // not-a-number in several patterns
        0x7FC0_0000,
        0x7FFF_FFFF,
    ] {
        all.push(f32::from_bits(bits));
        all.push(f32::from_bits(bits | 0x8000_0000));
    }
    for exponent in [-149, -127, -126, -64, -24, -2, -1, 1, 2, 7, 23, 24, 64, 126, 127] {
        all.push(2f32.powi(exponent));
        all.push(-(2f32.powi(exponent)));
    }
    for half in [0.5f32, 1.5, 2.5, 49.5, 99.5, 100.5, 8388607.5] {
        all.push(half);
        all.push(-half);
    }
    for n in [-2, -1, 0, 1, 2] {
        all.push(moved(100.0, n));
    }
    all
}

fn limits(v: &mut Vectors, classes: &[f32], g: &mut Generator) {
    let bounds = [
        f32::NEG_INFINITY, f32::MIN, -1.0, -0.0, 0.0, f32::from_bits(1), 0.5, 100.0, f32::MAX, f32::INFINITY, f32::NAN,
    ];
    for low in bounds {
        for high in bounds {
            for _ in 0..16 {
                v.limit(low, high, g.pick(classes));
            }
        }
    }
    for x in classes {
        v.limit(-1.0, 1.0, *x);
        v.limit(-0.0, 0.0, *x);
        v.limit(0.0, -0.0, *x);
        v.limit(*x, *x, *x);
        v.limit(*x, 100.0, 50.0);
        v.limit(0.0, *x, 50.0);
    }
    // at the bounds and beside them
    for _ in 0..300 {
        let a = g.real();
        let b = g.real();
        let (low, high) = if a <= b { (a, b) } else { (b, a) };
        for n in [-1, 0, 1] {
            v.limit(low, high, moved(low, n));
            v.limit(low, high, moved(high, n));
        }
    }
    for _ in 0..1500 {
        v.limit(g.real(), g.real(), g.real());
        let low = g.between(-50.0, 50.0);
        v.limit(low, low + g.between(0.0, 40.0), g.between(-60.0, 100.0));
    }
}

fn sequences(v: &mut Vectors, classes: &[f32], g: &mut Generator) {
    for m in [i16::MIN, -1, 0, 17, 18, i16::MAX] {
        for x in [f32::NAN, -1.0, 0.0, 50.0, 100.0, f32::INFINITY] {
            v.seq(m, x);
        }
    }
    for m in 1..=16 {
        for x in classes {
            v.seq(m, *x);
        }
        // at each threshold and beside it
        for k in 0..=m + 1 {
            let threshold = f32::from(k) * 100.0 / (f32::from(m) + 1.0);
            for n in [-2, -1, 0, 1, 2] {
                v.seq(m, moved(threshold, n));
            }
        }
        for _ in 0..50 {
            v.seq(m, g.real());
        }
        for _ in 0..250 {
            v.seq(m, g.between(-5.0, 105.0));
        }
    }
}

fn scales(v: &mut Vectors, classes: &[f32], g: &mut Generator) {
    let plain = [4.0, 20.0, 0.0, 100.0];
    for x in classes {
        v.scale(plain, *x);
        v.scale([20.0, 4.0, -30.0, 60.0], *x);
        v.scale([*x, 20.0, 0.0, 100.0], 12.0);
        v.scale([4.0, *x, 0.0, 100.0], 12.0);
        v.scale([4.0, 20.0, *x, 100.0], 12.0);
        v.scale([4.0, 20.0, 0.0, *x], 12.0);
        v.scale([*x, *x, 0.0, 100.0], 12.0);
    }
    for _ in 0..1500 {
        v.scale(plain, g.between(0.0, 24.0));
        v.scale([g.real(), g.real(), g.real(), g.real()], g.real());
        let a = g.between(-50.0, 50.0);
        let b = g.between(-50.0, 50.0);
        v.scale([a, b, g.between(-500.0, 500.0), g.between(-500.0, 500.0)], g.between(-60.0, 60.0));
        v.scale(
            [g.pick(classes), g.pick(classes), g.pick(classes), g.pick(classes)],
            g.pick(classes),
        );
    }
}

fn main() -> std::io::Result<()> {
    let folder = std::env::args().nth(1).expect("usage: reals DIR");
    let folder = Path::new(&folder);
    let classes = classes();
    let mut v = Vectors::default();
    let mut g = Generator(0x9E37_79B9_7F4A_7C15);
    limits(&mut v, &classes, &mut g);
    sequences(&mut v, &classes, &mut g);
    scales(&mut v, &classes, &mut g);
    std::fs::write(folder.join("reals.in"), v.inputs)?;
    std::fs::write(folder.join("reals.out"), v.results)
}
