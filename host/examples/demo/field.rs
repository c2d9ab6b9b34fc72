//! A faint star field: black sky, read noise, and stars between the samples.

/// Samples in rows, without margins.
#[derive(Clone, Debug, PartialEq, Eq)]
pub struct Picture {
    pub w: usize,
    pub h: usize,
    pub samples: Vec<u8>,
}

impl Picture {
    pub fn black(w: usize, h: usize) -> Picture {
        Picture { w, h, samples: vec![0; w * h] }
    }

    /// The sample there; outside, that of the nearest row and column, as the standard has it.
    pub fn at(&self, x: isize, y: isize) -> u8 {
        let x = x.clamp(0, self.w as isize - 1) as usize;
        let y = y.clamp(0, self.h as isize - 1) as usize;
        self.samples[y * self.w + x]
    }

    /// The picture as a PGM file.
    pub fn pgm(&self) -> Vec<u8> {
        let mut file = format!("P5\n{} {}\n255\n", self.w, self.h).into_bytes();
        file.extend(&self.samples);
        file
    }
}

/// A place between the samples, or a way from one to another, in samples.
#[derive(Clone, Copy, Debug, PartialEq)]
pub struct Point {
    pub x: f64,
    pub y: f64,
}

impl Point {
    pub fn plus(self, way: Point) -> Point {
        Point { x: self.x + way.x, y: self.y + way.y }
    }

    pub fn minus(self, from: Point) -> Point {
        Point { x: self.x - from.x, y: self.y - from.y }
    }

    pub fn length(self) -> f64 {
        (self.x * self.x + self.y * self.y).sqrt()
    }
}

/// A point of light, and the grey levels that its middle adds to the sky.
struct Star {
    at: Point,
    peak: f64,
}

pub const W: usize = 160;
/// Not a multiple of 16, so that the last blocks are smaller.
pub const H: usize = 120;

/// Where the guide star is looked for. Its box ends with the picture's last row.
pub const GUIDE: (usize, usize) = (83, H - 7);
const GUIDE_STAR: Star = Star { at: Point { x: 83.37, y: H as f64 - 6.79 }, peak: 64.0 };

const STARS: usize = 36;
/// No other star comes as close to the guide star, so that it is measured alone.
const ALONE: f64 = 16.0;
/// The width of a star, as the standard deviation of its profile.
const SIGMA: f64 = 1.5;
const SKY: f64 = 6.0;
const READ_NOISE: f64 = 2.0;

/// The field, always the same.
pub fn drawn() -> Picture {
    let mut rng = Rng(0x9e37_79b9_7f4a_7c15);
    let mut stars = vec![GUIDE_STAR];
    while stars.len() <= STARS {
        let at = Point { x: rng.unit() * W as f64, y: rng.unit() * H as f64 };
        // Most are faint.
        let peak = 12.0 + 180.0 * rng.unit() * rng.unit() * rng.unit();
        if at.minus(GUIDE_STAR.at).length() > ALONE {
            stars.push(Star { at, peak });
        }
    }
    let mut picture = Picture::black(W, H);
    for (place, sample) in picture.samples.iter_mut().enumerate() {
        let at = Point { x: (place % W) as f64, y: (place / W) as f64 };
        let light: f64 = stars.iter().map(|star| star.light(at)).sum();
        *sample = (SKY + READ_NOISE * rng.normal() + light).round().clamp(0.0, 255.0) as u8;
    }
    picture
}

impl Star {
    fn light(&self, at: Point) -> f64 {
        let away = at.minus(self.at).length() / SIGMA;
        self.peak * bell(away * away / 2.0)
    }
}

/// e to the power of -x, nearly. Sums and products alone, which are the same on every machine.
fn bell(x: f64) -> f64 {
    let mut value = (1.0 - x / 4096.0).max(0.0);
    for _ in 0..12 {
        value *= value;
    }
    value
}

/// A small generator with a fixed start (xorshift64*).
struct Rng(u64);

impl Rng {
    /// From 0 up to, but not, 1.
    fn unit(&mut self) -> f64 {
        self.0 ^= self.0 >> 12;
        self.0 ^= self.0 << 25;
        self.0 ^= self.0 >> 27;
        let bits = self.0.wrapping_mul(0x2545_f491_4f6c_dd1d) >> 11;
        bits as f64 / (1u64 << 53) as f64
    }

    /// Nearly normal, with mean 0 and deviation 1: each of the twelve has a twelfth of the variance.
    fn normal(&mut self) -> f64 {
        (0..12).map(|_| self.unit()).sum::<f64>() - 6.0
    }
}
