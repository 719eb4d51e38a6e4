//! The calls of `maskcull_frame.h` as they are. That header has their preconditions and results.
#![allow(non_camel_case_types)]
use std::ffi::c_void;
use std::os::raw::c_char;

/// A frame, of which only the calls make sense.
#[repr(C)]
pub struct maskcull_frame {
    _opaque: [u8; 0],
}

/// `size` is this struct's; all others may be 0.
#[repr(C)]
#[derive(Clone, Copy, Debug, Default)]
pub struct maskcull_frame_options {
    pub size: u32,
    pub exact: u32,
    pub reach: u32,
    pub share: u32,
    pub winding: u32,
    pub by_rows: u32,
    pub y_is_down: u32,
    pub narrow: u32,
    pub orthographic: u32,
    pub at_near: f32,
    pub at_far: f32,
}

pub const MASKCULL_DONE: u32 = 0;
pub const MASKCULL_BAD_INDEX: u32 = 3;
pub const MASKCULL_NO_MEMORY: u32 = 6;
pub const MASKCULL_FRAME_NO_MEMORY: u32 = 10;
pub const MASKCULL_VISIBLE: u32 = 16;
pub const MASKCULL_OCCLUDED: u32 = 17;
pub const MASKCULL_OUTSIDE: u32 = 18;
pub const MASKCULL_OWN_WINDING: u32 = 3;

extern "C" {
    pub fn maskcull_frame_version() -> u32;
    pub fn maskcull_frame_make(
        width: u32,
        height: u32,
        near_distance: f32,
        options: *const maskcull_frame_options,
        reason: *mut u32,
    ) -> *mut maskcull_frame;
    pub fn maskcull_frame_text(reason: u32) -> *const c_char;
    pub fn maskcull_frame_free(frame: *mut maskcull_frame);
    pub fn maskcull_frame_clear(frame: *mut maskcull_frame);
    pub fn maskcull_frame_draw(
        frame: *mut maskcull_frame,
        model_to_clip: *const f32,
        positions: *const c_void,
        stride: usize,
        vertex_count: usize,
        indices: *const c_void,
        index_bytes: usize,
        index_count: usize,
        winding: u32,
    ) -> u32;
    pub fn maskcull_frame_test_boxes(
        frame: *const maskcull_frame,
        world_to_clip: *const f32,
        boxes: *const f32,
        box_count: usize,
        verdicts: *mut u8,
    ) -> usize;
    pub fn maskcull_frame_test_mesh(
        frame: *const maskcull_frame,
        model_to_clip: *const f32,
        positions: *const c_void,
        stride: usize,
        vertex_count: usize,
        indices: *const c_void,
        index_bytes: usize,
        index_count: usize,
    ) -> u32;
    pub fn maskcull_frame_nearness(
        frame: *const maskcull_frame,
        out: *mut u16,
        out_count: usize,
        row_stride: usize,
    ) -> u32;
}
