//! A guider's main job: the guide star's place after the picture was moved by each phase.

use inter::Refusal;

use crate::centroid::centroid;
use crate::exact::{extremes, phases, Ends, Phase};
use crate::field::{self, Picture, Point, GUIDE};
use crate::routes::Routes;
use crate::short::{self, Refused};

/// The reference moved by one phase.
pub struct Moved {
    pub phase: Phase,
    /// By the plain route.
    pub picture: Picture,
    /// Whether the two other routes gave the same bytes.
    pub agree: bool,
    /// The guide star's place.
    pub place: Point,
    /// The least and the most d of all bytes.
    pub seen: Ends,
    /// What today's Rust gives when the plane is one row short, and the guide star's place in it.
    pub todays: Picture,
    pub todays_place: Point,
}

/// All that the demo shows.
pub struct Night {
    pub reference: Picture,
    /// The guide star's place in the reference.
    pub place: Point,
    pub moved: Vec<Moved>,
    /// Whether `hpel_block` refused the full phase with 6.
    pub full_phase_is_unserved: bool,
    /// This library's answers when the plane is one row short.
    pub refused: Refused,
}

/// How a phase moves the picture: a block is read a part of a sample further right and down, so
/// that what it shows moves left and up.
pub fn asked((fx, fy): Phase) -> Point {
    // Subtracted, because a negated 0 would be printed with its sign.
    Point { x: 0.0 - fx as f64 / 4.0, y: 0.0 - fy as f64 / 4.0 }
}

impl Moved {
    fn by(phase: Phase, reference: &Picture, routes: &Routes) -> Result<Moved, Refusal> {
        let [picture, padded, from_planes] = routes.moved(phase)?;
        let todays = short::todays(reference, phase);
        Ok(Moved {
            phase,
            agree: picture == padded && picture == from_planes,
            place: centroid(&picture, GUIDE),
            seen: extremes(reference, &picture, phase),
            picture,
            todays_place: centroid(&todays, GUIDE),
            todays,
        })
    }

    pub fn is_within(&self) -> bool {
        Ends::proved(self.phase).hold(self.seen)
    }

    /// How far the missing row pulls the star's place, by today's route.
    pub fn pull(&self) -> f64 {
        self.todays_place.minus(self.place).length()
    }
}

impl Night {
    pub fn observed() -> Result<Night, Refusal> {
        let reference = field::drawn();
        let routes = Routes::of(&reference)?;
        let moved: Result<Vec<Moved>, Refusal> =
            phases().map(|phase| Moved::by(phase, &reference, &routes)).collect();
        Ok(Night {
            place: centroid(&reference, GUIDE),
            moved: moved?,
            full_phase_is_unserved: routes.full_phase_is_unserved(),
            refused: short::ours(&reference),
            reference,
        })
    }

    pub fn measured(&self, moved: &Moved) -> Point {
        moved.place.minus(self.place)
    }

    /// How far the star is from where it was asked to be.
    pub fn error(&self, moved: &Moved) -> f64 {
        self.measured(moved).minus(asked(moved.phase)).length()
    }

    /// What is not as promised, a line each.
    pub fn wrong(&self) -> Vec<String> {
        let mut wrong = Vec::new();
        for moved in &self.moved {
            let (fx, fy) = moved.phase;
            if !moved.agree {
                wrong.push(format!("phase ({fx},{fy}): the three routes do not agree"));
            }
            if !moved.is_within() {
                wrong.push(format!("phase ({fx},{fy}): a byte passes the proved ends"));
            }
        }
        if !self.full_phase_is_unserved {
            wrong.push("hpel_block did not refuse the full phase with 6".to_string());
        }
        let Refused { calls, as_promised } = self.refused;
        if as_promised != calls {
            wrong.push(format!("{} calls took a short plane", calls - as_promised));
        }
        wrong
    }
}

#[cfg(test)]
mod tests {
    use super::*;

    #[test]
    fn the_night_is_as_promised() {
        let night = Night::observed().expect("every block is served");
        assert_eq!(night.wrong(), [""; 0]);
        assert_eq!(night.moved.len(), 16);
        for moved in &night.moved {
            // No promise, but what the README says.
            assert!(night.error(moved) < 0.1, "phase {:?}", moved.phase);
            assert!(moved.pull() > 1.0, "phase {:?}", moved.phase);
        }
    }

    #[test]
    fn what_is_wrong_is_told() {
        let mut night = Night::observed().expect("every block is served");
        night.moved[1].agree = false;
        night.moved[2].seen.most = 1025;
        night.moved[3].seen.least = -481;
        night.full_phase_is_unserved = false;
        night.refused.as_promised -= 1;
        assert_eq!(night.wrong().len(), 5);
    }
}
