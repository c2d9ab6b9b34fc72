//! The place of a star, as a guider takes it.

use crate::field::{Picture, Point};

/// How far the box reaches from its middle, on each side.
pub const REACH: usize = 6;
/// What a sample must have over the sky to count: twice the read noise.
const CUT: f64 = 4.0;

/// The mean place in a small box, weighted by what each sample has over the sky and the cut.
pub fn centroid(picture: &Picture, (cx, cy): (usize, usize)) -> Point {
    let sky = background(picture, (cx, cy));
    let (mut total, mut sum) = (0.0, Point { x: 0.0, y: 0.0 });
    for y in cy - REACH..=cy + REACH {
        for x in cx - REACH..=cx + REACH {
            let weight = (f64::from(picture.samples[y * picture.w + x]) - sky - CUT).max(0.0);
            total += weight;
            sum = sum.plus(Point { x: weight * x as f64, y: weight * y as f64 });
        }
    }
    Point { x: sum.x / total, y: sum.y / total }
}

/// The sky's level: the median of the box's outermost samples.
fn background(picture: &Picture, (cx, cy): (usize, usize)) -> f64 {
    let mut rim = Vec::new();
    for y in cy - REACH..=cy + REACH {
        for x in cx - REACH..=cx + REACH {
            if x.abs_diff(cx) == REACH || y.abs_diff(cy) == REACH {
                rim.push(picture.samples[y * picture.w + x]);
            }
        }
    }
    rim.sort_unstable();
    f64::from(rim[rim.len() / 2])
}

#[cfg(test)]
mod tests {
    use super::*;

    #[test]
    fn two_samples_alike_have_their_place_between_them() {
        let mut picture = Picture::black(16, 16);
        for x in [7, 8] {
            picture.samples[9 * 16 + x] = 50;
        }
        assert_eq!(centroid(&picture, (8, 8)), Point { x: 7.5, y: 9.0 });
    }
}
