//! One picture for a person: the guide star at each phase, and when the plane is one row short.

use crate::centroid::REACH;
use crate::field::{Picture, Point, GUIDE};
use crate::font;
use crate::guide::{asked, Night};
use crate::png::{self, Colour};

/// The greys come first, then these.
const WHITE: u8 = 12;
const MEASURED: u8 = 13;
const ASKED: u8 = 14;
const PAPER: u8 = 15;

const PALETTE: [Colour; 16] = {
    let mut palette = [[0; 3]; 16];
    let mut grey = 0;
    while grey <= WHITE {
        palette[grey as usize] = [(grey as usize * 255 / WHITE as usize) as u8; 3];
        grey += 1;
    }
    palette[MEASURED as usize] = [255, 64, 48];
    palette[ASKED as usize] = [64, 208, 96];
    palette[PAPER as usize] = [24, 36, 60];
    palette
};

/// Levels up to this are black, and from today's grey on white.
const DARKEST: f64 = 4.0;
const BRIGHTEST: f64 = 128.0;

/// The samples of a star's box, on a side.
const BOX: usize = 2 * REACH + 1;
/// Four pixels a sample, so that a quarter of a sample is one.
const TILE: usize = 4;
const PANEL: usize = 6;
const GAP: usize = 5;
const LINE: usize = font::HEIGHT + 2;

const TILE_STEP: (usize, usize) = (TILE * BOX + GAP, 2 * LINE + TILE * BOX + GAP);
const PANEL_STEP: usize = 2 * LINE + PANEL * BOX + GAP;
const TOP: usize = GAP + 2 * LINE + GAP;
const PANEL_LEFT: usize = 4 * TILE_STEP.0 + 2 * GAP;

struct Canvas {
    w: usize,
    pixels: Vec<u8>,
}

/// The sheet as a PNG file, each of its pixels drawn as `times` by `times`.
pub fn png(night: &Night, times: usize) -> Vec<u8> {
    let sheet = drawn(night).enlarged(times);
    png::encoded(sheet.w, &sheet.pixels, &PALETTE)
}

fn drawn(night: &Night) -> Canvas {
    let (w, h) = (PANEL_LEFT + PANEL * BOX + 3 * GAP, TOP + 4 * TILE_STEP.1);
    let mut sheet = Canvas { w, pixels: vec![PAPER; w * h] };
    sheet.text(GAP, GAP, "THE GUIDE STAR AT EACH OF SIXTEEN PHASES");
    sheet.text(GAP, GAP + LINE, "GREEN: ASKED. RED: MEASURED. OFF: SAMPLES BETWEEN");
    for moved in &night.moved {
        let (fx, fy) = moved.phase;
        let (left, top) = (GAP + fx * TILE_STEP.0, TOP + fy * TILE_STEP.1);
        sheet.text(left, top, &format!("({fx},{fy})"));
        sheet.text(left, top + LINE, &format!("OFF {:.3}", night.error(moved)));
        let view = View { left, top: top + 2 * LINE, scale: TILE };
        sheet.star(view, &moved.picture);
        sheet.asked(view, night.place.plus(asked(moved.phase)));
        sheet.measured(view, moved.place);
    }

    let full = &night.moved[0];
    let panels = [
        ("WHOLE PLANE", format!("OFF {:.2}", night.error(full)), Some((&full.picture, full.place))),
        (
            "ONE ROW SHORT, TODAY",
            format!("OFF {:.2}", full.pull()),
            Some((&full.todays, full.todays_place)),
        ),
        ("ONE ROW SHORT, OURS", "REFUSED WITH 2".to_string(), None),
    ];
    for (at, (title, line, shown)) in panels.into_iter().enumerate() {
        let top = GAP + at * PANEL_STEP;
        sheet.text(PANEL_LEFT, top, title);
        sheet.text(PANEL_LEFT, top + LINE, &line);
        let view = View { left: PANEL_LEFT, top: top + 2 * LINE, scale: PANEL };
        match shown {
            Some((picture, place)) => {
                sheet.star(view, picture);
                sheet.asked(view, night.place);
                sheet.measured(view, place);
            }
            None => sheet.nothing(view),
        }
    }
    sheet
}

/// Where a star's box is shown, and how many pixels a sample has on a side.
#[derive(Clone, Copy)]
struct View {
    left: usize,
    top: usize,
    scale: usize,
}

impl View {
    /// The pixel of a place; a sample's place is its middle.
    fn pixel(self, at: Point) -> (usize, usize) {
        let axis = |at: f64, middle: usize| {
            ((at - (middle - REACH) as f64 + 0.5) * self.scale as f64) as usize
        };
        (self.left + axis(at.x, GUIDE.0), self.top + axis(at.y, GUIDE.1))
    }
}

impl Canvas {
    fn put(&mut self, x: usize, y: usize, colour: u8) {
        self.pixels[y * self.w + x] = colour;
    }

    fn text(&mut self, left: usize, top: usize, text: &str) {
        for (at, letter) in text.chars().enumerate() {
            for (x, y) in font::pixels(letter) {
                self.put(left + at * (font::WIDTH + 1) + x, top + y, WHITE);
            }
        }
    }

    /// The box around the guide star.
    fn star(&mut self, View { left, top, scale }: View, picture: &Picture) {
        for y in 0..BOX * scale {
            for x in 0..BOX * scale {
                let (column, row) = (GUIDE.0 - REACH + x / scale, GUIDE.1 - REACH + y / scale);
                let level = f64::from(picture.samples[row * picture.w + column]);
                let light = ((level - DARKEST) / (BRIGHTEST - DARKEST)).clamp(0.0, 1.0);
                // The root shows what is faint.
                let grey = light.sqrt() * f64::from(WHITE);
                self.put(left + x, top + y, grey.round() as u8);
            }
        }
    }

    /// An empty box, crossed out.
    fn nothing(&mut self, View { left, top, scale }: View) {
        let side = BOX * scale;
        for at in 0..side {
            for (x, y) in [(at, 0), (at, side - 1), (0, at), (side - 1, at), (at, at)] {
                self.put(left + x, top + y, WHITE / 2);
            }
            self.put(left + at, top + side - 1 - at, WHITE / 2);
        }
    }

    /// Four strokes towards a place, which stays free.
    fn asked(&mut self, view: View, at: Point) {
        let (x, y) = view.pixel(at);
        for away in 4..9 {
            for (x, y) in [(x - away, y), (x + away, y), (x, y - away), (x, y + away)] {
                self.put(x, y, ASKED);
            }
        }
    }

    /// A small cross on a place.
    fn measured(&mut self, view: View, at: Point) {
        let (x, y) = view.pixel(at);
        for (x, y) in [(x, y), (x - 1, y), (x + 1, y), (x, y - 1), (x, y + 1)] {
            self.put(x, y, MEASURED);
        }
    }

    fn enlarged(&self, times: usize) -> Canvas {
        let row = |row: &[u8]| {
            let wide: Vec<u8> = row.iter().flat_map(|&pixel| vec![pixel; times]).collect();
            wide.repeat(times)
        };
        let pixels = self.pixels.chunks(self.w).flat_map(row).collect();
        Canvas { w: self.w * times, pixels }
    }
}

#[cfg(test)]
mod tests {
    use super::*;

    /// What the README shows is what the demo draws.
    #[test]
    fn the_readme_has_this_sheet() {
        let night = Night::observed().expect("every block is served");
        let kept = include_bytes!("../../../docs/demo.png");
        assert!(png(&night, 1) == kept, "docs/demo.png is not target/demo/sheet_small.png");
        assert!(kept.len() < 60_000);
    }
}
