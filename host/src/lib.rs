//! H.264 inter prediction: safe calls over the exports of the proved Rattle crate `inter_c`.
//!
//! ```
//! # let picture: Vec<u8> = (0..352 * 288).map(|at| (at % 352) as u8).collect();
//! use inter::{Block, Mv, Plane};
//!
//! let plane = Plane { samples: &picture, w: 352, h: 288 };
//! let block = Block { x: 16, y: 16, w: 8, h: 8, mv: Mv { x: 6, y: -4 } };
//! let mut out = [0u8; 64];
//! plane.luma(block, &mut out)?;
//! # // Each sample is its column: one and a half further, a half rounded up.
//! # assert!(out.chunks(8).all(|row| *row == [18, 19, 20, 21, 22, 23, 24, 25]));
//! # Ok::<(), inter::Refusal>(())
//! ```
//!
//! The same block with the Rust's own parameters:
//!
//! ```
//! # let picture: Vec<u8> = (0..352 * 288).map(|at| (at % 352) as u8).collect();
//! # let (mvx, mvy) = (6, -4);
//! let mut block = [0u8; 64];
//! inter::mc_luma(&picture, 352, 288, 16, 16, 8, 8, mvx, mvy, &mut block)?;
//! # assert!(block.chunks(8).all(|row| *row == [18, 19, 20, 21, 22, 23, 24, 25]));
//! # Ok::<(), inter::Refusal>(())
//! ```
//!
//! Each call checks its own arguments: what it cannot serve it answers with a [`Refusal`], and then
//! nothing that it was lent has changed.
//!
//! Every call is there twice. The methods name what they are given, so that no two numbers are
//! exchanged unseen; the functions carry the names and the parameters of rusty_h264's inter.rs. A
//! method does nothing but call its function:
//!
//! | given | method | function |
//! |---|---|---|
//! | [`Plane`] | [`luma`](Plane::luma), [`chroma`](Plane::chroma) | [`mc_luma`], [`mc_chroma`] |
//! | | [`edge_count`](Plane::edge_count) | [`edge_count()`] |
//! | | [`pad_into`](Plane::pad_into) | [`pad_plane`] |
//! | [`PaddedPlane`] | [`expand`](PaddedPlane::expand) | [`expand_plane`] |
//! | | [`luma`](PaddedPlane::luma), [`luma_with`](PaddedPlane::luma_with) | [`mc_luma_padded`], [`mc_luma_padded_pre`] |
//! | | [`chroma`](PaddedPlane::chroma) | [`mc_chroma_padded`] |
//! | [`PaddedPair`] | [`chroma`](PaddedPair::chroma) | [`mc_chroma_padded_pair`] |
//! | [`HpelPlanes`] | [`build`](HpelPlanes::build) | [`build_hpel_planes`] |
//! | | [`block`](HpelPlanes::block) | [`hpel_block`] |
//! | | [`reference`](HpelPlanes::reference), [`spot`](HpelPlanes::spot) | [`hpel_ref`], [`hpel_ref_at`] |
//! | | [`quarter_references`](HpelPlanes::quarter_references), [`quarter_spots`](HpelPlanes::quarter_spots) | [`hpel_qpel_refs`], [`hpel_qpel_refs_at`] |
//! | [`Neighbors`] | [`predict`](Neighbors::predict), [`predict_part`](Neighbors::predict_part) | [`predict_mv`], [`predict_partition_mv`] |
//!
//! [`median3`], [`inter_partitions`] and [`avg_row_into`] have few arguments, and no method.

// The calls are inlined where they are used, so that each costs what the C call costs.
pub mod ffi;

mod hpel;
mod padded;
mod plain;
mod refusal;
mod vectors;

mod block;
mod bundle;
mod geometry;
mod neighbors;
mod padded_plane;
mod plane;

pub use block::Block;
pub use bundle::{HpelBuffers, HpelPlanes};
pub use geometry::Geometry;
pub use hpel::{
    build_hpel_planes, hpel_block, hpel_qpel_refs, hpel_qpel_refs_at, hpel_ref, hpel_ref_at,
    pad_plane, HpelSpot, View,
};
pub use neighbors::Neighbors;
pub use padded::{
    expand_plane, mc_chroma_padded, mc_chroma_padded_pair, mc_luma_padded, mc_luma_padded_pre,
    McScratch,
};
pub use padded_plane::{PaddedPair, PaddedPlane};
pub use plain::{avg_row_into, edge_count, mc_chroma, mc_luma};
pub use plane::{Plane, Sample};
pub use refusal::Refusal;
pub use vectors::{
    inter_partitions, median3, predict_mv, predict_partition_mv, Mv, MvNeighbor, Partitions, Rect,
};
