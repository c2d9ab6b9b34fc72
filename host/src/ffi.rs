//! The C calls of the proved archive and their records, as exported.
//! The crate's own functions are the same calls with Rust's types.

/// A motion vector, in quarter samples of luma.
#[repr(C)]
#[derive(Clone, Copy, Debug, Default, PartialEq, Eq, Hash)]
pub struct Mv {
    pub x: i32,
    pub y: i32,
}

/// A neighbouring block, as vector prediction sees it.
#[repr(C)]
#[derive(Clone, Copy, Debug, PartialEq, Eq, Hash)]
pub struct MvNeighbor {
    pub available: bool,
    pub mv: Mv,
    /// The reference index; negative for an intra block.
    pub ref_idx: i32,
}

/// A predicted vector: (0,0) where `refusal` is not 0.
#[repr(C)]
#[derive(Clone, Copy, Debug, PartialEq, Eq)]
pub struct MvAnswer {
    pub refusal: u32,
    pub mv: Mv,
}

/// A part of a macroblock, in luma samples.
#[repr(C)]
#[derive(Clone, Copy, Debug, Default, PartialEq, Eq, Hash)]
pub struct Rect {
    pub x: usize,
    pub y: usize,
    pub w: usize,
    pub h: usize,
}

/// The parts of a macroblock mode: the first `count` of `parts`, zeros after them.
#[repr(C)]
#[derive(Clone, Copy, Debug, PartialEq, Eq)]
pub struct Partitions {
    pub count: usize,
    pub parts: [Rect; 4],
}

/// The edge count of a block: 0 where `refusal` is not 0.
#[repr(C)]
#[derive(Clone, Copy, Debug, PartialEq, Eq)]
pub struct Edges {
    pub refusal: u32,
    pub count: u32,
}

/// Where the samples of a block lie in one of four half-sample planes: row y from `offset` +
/// y·`stride` on in plane 0 (f), 1 (h), 2 (v) or 3 (c). Zeros where `refusal` is not 0.
#[repr(C)]
#[derive(Clone, Copy, Debug, PartialEq, Eq)]
pub struct HpelAt {
    pub refusal: u32,
    pub plane: u32,
    pub offset: usize,
    pub stride: usize,
}

/// The same of two planes, whose average is the block. Zeros where `refusal` is not 0.
#[repr(C)]
#[derive(Clone, Copy, Debug, PartialEq, Eq)]
pub struct HpelPair {
    pub refusal: u32,
    pub plane_a: u32,
    pub plane_b: u32,
    pub offset_a: usize,
    pub offset_b: usize,
    pub stride: usize,
}

/// What `inter_mc_luma_padded_pre` works in. Its bytes say nothing, before a call or after.
#[repr(C)]
#[derive(Clone, Debug)]
pub struct McScratch {
    tile: [u8; 441],
    a: [u8; 256],
    b: [u8; 256],
}

impl McScratch {
    /// A scratch of zeros; any other would do as well.
    pub const fn new() -> McScratch {
        McScratch { tile: [0; 441], a: [0; 256], b: [0; 256] }
    }
}

impl Default for McScratch {
    fn default() -> McScratch {
        McScratch::new()
    }
}

// The unsafe ones read and write through each pointer: up to the length after it, or one record.
unsafe extern "C" {
    pub safe fn inter_median3(a: i32, b: i32, c: i32) -> i32;

    pub safe fn inter_predict_mv(
        a: MvNeighbor,
        b: MvNeighbor,
        c: MvNeighbor,
        cur_ref: i32,
    ) -> MvAnswer;

    pub safe fn inter_predict_partition_mv(
        mode: u8,
        part: usize,
        a: MvNeighbor,
        b: MvNeighbor,
        c: MvNeighbor,
        cur_ref: i32,
    ) -> MvAnswer;

    pub safe fn inter_inter_partitions(mode: u8) -> Partitions;

    pub unsafe fn inter_mc_luma(
        reference: *const u8,
        reference_len: usize,
        cw: usize,
        ch: usize,
        x0: usize,
        y0: usize,
        bw: usize,
        bh: usize,
        mvx: i32,
        mvy: i32,
        out: *mut u8,
        out_len: usize,
    ) -> u32;

    pub unsafe fn inter_mc_chroma(
        reference: *const u8,
        reference_len: usize,
        cw: usize,
        ch: usize,
        x0: usize,
        y0: usize,
        bw: usize,
        bh: usize,
        mvx: i32,
        mvy: i32,
        out: *mut u8,
        out_len: usize,
    ) -> u32;

    pub unsafe fn inter_avg_row_into(
        a: *const u8,
        a_len: usize,
        b: *const u8,
        b_len: usize,
        w: usize,
        out: *mut u8,
        out_len: usize,
    ) -> u32;

    pub safe fn inter_edge_count(
        cw: usize,
        ch: usize,
        x0: usize,
        y0: usize,
        bw: usize,
        bh: usize,
        mvx: i32,
        mvy: i32,
    ) -> Edges;

    pub unsafe fn inter_expand_plane(
        buf: *mut u8,
        buf_len: usize,
        stride: usize,
        pad: usize,
        pw: usize,
        ph: usize,
    ) -> u32;

    pub unsafe fn inter_mc_luma_padded(
        padded: *const u8,
        padded_len: usize,
        stride: usize,
        pad: usize,
        pw: usize,
        ph: usize,
        x0: usize,
        y0: usize,
        bw: usize,
        bh: usize,
        mvx: i32,
        mvy: i32,
        out: *mut u8,
        out_len: usize,
    ) -> u32;

    pub unsafe fn inter_mc_chroma_padded(
        padded: *const u8,
        padded_len: usize,
        stride: usize,
        pad: usize,
        pw: usize,
        ph: usize,
        x0: usize,
        y0: usize,
        bw: usize,
        bh: usize,
        mvx: i32,
        mvy: i32,
        out: *mut u8,
        out_len: usize,
    ) -> u32;

    pub unsafe fn inter_mc_luma_padded_pre(
        scr: *mut McScratch,
        padded: *const u8,
        padded_len: usize,
        stride: usize,
        pad: usize,
        pw: usize,
        ph: usize,
        x0: usize,
        y0: usize,
        bw: usize,
        bh: usize,
        mvx: i32,
        mvy: i32,
        out: *mut u8,
        out_len: usize,
    ) -> u32;

    pub unsafe fn inter_mc_chroma_padded_pair(
        pu: *const u8,
        pu_len: usize,
        pv: *const u8,
        pv_len: usize,
        stride: usize,
        pad: usize,
        pw: usize,
        ph: usize,
        x0: usize,
        y0: usize,
        bw: usize,
        bh: usize,
        mvx: i32,
        mvy: i32,
        outu: *mut u8,
        outu_len: usize,
        outv: *mut u8,
        outv_len: usize,
    ) -> u32;

    pub unsafe fn inter_pad_plane(
        src: *const u8,
        src_len: usize,
        w: usize,
        h: usize,
        pad: usize,
        out: *mut u8,
        out_len: usize,
    ) -> u32;

    pub unsafe fn inter_build_hpel_planes(
        reference: *const u8,
        reference_len: usize,
        cw: usize,
        ch: usize,
        pad: usize,
        f: *mut u8,
        f_len: usize,
        h: *mut u8,
        h_len: usize,
        v: *mut u8,
        v_len: usize,
        c: *mut u8,
        c_len: usize,
    ) -> u32;

    pub unsafe fn inter_hpel_ref(
        f: *const u8,
        f_len: usize,
        h: *const u8,
        h_len: usize,
        v: *const u8,
        v_len: usize,
        c: *const u8,
        c_len: usize,
        cw: usize,
        ch: usize,
        pad: usize,
        x0: usize,
        y0: usize,
        bw: usize,
        bh: usize,
        mvx: i32,
        mvy: i32,
    ) -> HpelAt;

    pub unsafe fn inter_hpel_qpel_refs(
        f: *const u8,
        f_len: usize,
        h: *const u8,
        h_len: usize,
        v: *const u8,
        v_len: usize,
        c: *const u8,
        c_len: usize,
        cw: usize,
        ch: usize,
        pad: usize,
        x0: usize,
        y0: usize,
        bw: usize,
        bh: usize,
        mvx: i32,
        mvy: i32,
    ) -> HpelPair;

    pub unsafe fn inter_hpel_block(
        f: *const u8,
        f_len: usize,
        h: *const u8,
        h_len: usize,
        v: *const u8,
        v_len: usize,
        c: *const u8,
        c_len: usize,
        cw: usize,
        ch: usize,
        pad: usize,
        x0: usize,
        y0: usize,
        bw: usize,
        bh: usize,
        mvx: i32,
        mvy: i32,
        out: *mut u8,
        out_len: usize,
    ) -> u32;
}
