//! What was seen, as tables.

use crate::exact::Ends;
use crate::field::{Picture, Point};
use crate::guide::{asked, Moved, Night};
use crate::short::Refused;

/// The guide star's way through the sixteen phases.
pub fn phases(night: &Night) -> String {
    let head = format!(
        "{:5}  {:^12}  {:^14}  {:>6}  {:^11}  {:^11}  routes\n",
        "phase", "asked x, y", "measured x, y", "off", "d seen", "d proved"
    );
    let rows: String = night.moved.iter().map(|moved| phase(night, moved)).collect();
    format!("{head}{}{rows}", ruler(&head))
}

fn phase(night: &Night, moved: &Moved) -> String {
    let (fx, fy) = moved.phase;
    let (asked, measured) = (asked(moved.phase), night.measured(moved));
    format!(
        "({fx},{fy})  {:5.2}  {:5.2}  {:6.3}  {:6.3}  {:6.3}  {}  {}  {}\n",
        asked.x,
        asked.y,
        measured.x,
        measured.y,
        night.error(moved),
        ends(moved.seen),
        ends(Ends::proved(moved.phase)),
        if moved.agree { "agree" } else { "DIFFER" },
    )
}

fn ends(Ends { least, most }: Ends) -> String {
    format!("{least:>5}..{most:<4}")
}

fn ruler(head: &str) -> String {
    format!("{}\n", "-".repeat(head.trim_end().len()))
}

/// What all phases have in common.
pub fn summary(night: &Night) -> String {
    let off = night.moved.iter().map(|moved| night.error(moved)).fold(0.0, f64::max);
    let bytes: usize = night.moved.iter().map(|moved| moved.picture.samples.len()).sum();
    let levels = |d: Option<i32>| f64::from(d.expect("there are phases")) / 2048.0;
    let below = -levels(night.moved.iter().map(|moved| moved.seen.least).min());
    let above = levels(night.moved.iter().map(|moved| moved.seen.most).max());
    let within = if night.moved.iter().all(Moved::is_within) { "within" } else { "NOT WITHIN" };
    format!(
        "The star is at most {off:.3} samples off. {bytes} bytes, {within} the proved ends: at most\n\
         {below:.3} of a grey level below the exact mean, and {above:.3} above.\n"
    )
}

/// The same star when the plane is one row short.
pub fn short(night: &Night) -> String {
    let full = &night.moved[0];
    let &Picture { w, h, .. } = &full.picture;
    let Refused { calls, as_promised } = night.refused;
    let answer = if as_promised == calls { "2, nothing written" } else { "WRONG" };
    let head = format!(
        "{:16}  {:12}  {:18}  {:>6}  {:>6}  {:>6}\n",
        "plane lent", "route", "answer", "x", "y", "pulled"
    );
    let row = |rows: usize, route: &str, answer: &str, star: [String; 3]| {
        let [x, y, pulled] = star;
        let plane = format!("{rows} rows of {w}");
        format!("{plane:16}  {route:12}  {answer:18}  {x:>6}  {y:>6}  {pulled:>6}\n")
    };
    let star = |at: Point| {
        [at.x, at.y, at.minus(full.place).length()].map(|number| format!("{number:.2}"))
    };
    let pulls = || night.moved.iter().map(Moved::pull);
    let (least, most) = (pulls().fold(f64::MAX, f64::min), pulls().fold(0.0, f64::max));
    // The phase that asks for three quarters to the left, and for nothing else.
    let left = &night.moved[3];
    let follows = left.todays_place.minus(full.todays_place);
    [
        ruler(&head),
        row(h, "this library", "0, done", star(full.place)),
        row(h - 1, "today's Rust", "done, grey 128", star(full.todays_place)),
        row(h - 1, "this library", answer, [(); 3].map(|()| "-".to_string())),
        format!(
            "Over the sixteen phases today's star is pulled by {least:.2} to {most:.2} samples; asked to\n\
             move by {:.2}, it moves by {:.2}. This library refuses {as_promised} of {calls} calls.\n",
            asked(left.phase).x,
            follows.x
        ),
    ]
    .into_iter()
    .fold(head, |text, part| text + &part)
}

#[cfg(test)]
mod tests {
    use super::*;

    /// The README shows the head and the first phases, and the short plane.
    #[test]
    fn the_readme_has_these_tables() {
        let night = Night::observed().expect("every block is served");
        let readme = include_str!("../../../README.md");
        let first: Vec<String> =
            phases(&night).lines().take(6).map(|line| format!("{line}\n")).collect();
        for text in [first.concat(), summary(&night), short(&night)] {
            assert!(readme.contains(&text), "the README does not have\n{text}");
        }
    }
}
