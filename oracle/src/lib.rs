//! The Rust of rusty_h264's inter.rs, as published but for one edit: the judge of the port.
//! Everything here but the module [`inter`] is a shim for what its text leans on.

extern crate alloc;

// Without the feature `knobs` a knob is its default, and its reader is never built.
macro_rules! cached_knob {
    ($kind:ty, $default:expr, $read:expr) => {
        $default
    };
}
use cached_knob;

// Without the feature `profile` a scope measures nothing.
mod prof {
    pub enum Stage {
        InterMc,
        MeHpel,
        MeHpelBuild,
    }

    pub fn scope(_: Stage) {}
}

include!(concat!(env!("OUT_DIR"), "/module.rs"));
