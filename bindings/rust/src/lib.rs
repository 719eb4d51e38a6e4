// SPDX-License-Identifier: MIT OR Apache-2.0
//! maskcull for Rust: tells, before a picture is drawn, what is hidden in it. `Frame` takes matrices and meshes of
//! floats and is safe: a slice says how long it is, and an index past the last vertex is an error. `sys` has the calls
//! in C.
//!
//! A matrix of another length, or floats of another size, don't compile:
//!
//! ```compile_fail,E0308
//! maskcull::Frame::new(64, 32, 0.1, maskcull::Options::default()).unwrap().test_boxes(&[0f32; 15], &[]);
//! ```
//! ```compile_fail,E0308
//! maskcull::Frame::new(64, 32, 0.1, maskcull::Options::default()).unwrap().test_boxes(&[0f64; 16], &[]);
//! ```
//! ```compile_fail,E0277
//! maskcull::Frame::new(64, 32, 0.1, maskcull::Options::default()).unwrap().draw(&[0f32; 16], &[], &[[0i32; 3]]);
//! ```
use std::error;
use std::ffi::{c_void, CStr};
use std::fmt;
use std::mem::size_of;
use std::ptr::NonNull;

pub mod sys;

/// Its example is run with the tests.
#[cfg(doctest)]
#[doc = include_str!("../README.md")]
struct Readme;

/// What a test says. `Visible`: not hidden, or not known to be. `Outside`: beside the screen, or behind the eye.
#[derive(Clone, Copy, Debug, PartialEq, Eq)]
pub enum Verdict {
    Visible,
    Occluded,
    Outside,
}

impl Verdict {
    fn of(number: u32) -> Verdict {
        match number {
            sys::MASKCULL_OCCLUDED => Verdict::Occluded,
            sys::MASKCULL_OUTSIDE => Verdict::Outside,
            _ => Verdict::Visible,
        }
    }
}

/// Which occluder triangles aren't drawn, by how they run on the screen.
#[derive(Clone, Copy, Debug, Default, PartialEq, Eq)]
pub enum Winding {
    #[default]
    KeepsBoth = 0,
    DropsClockwise = 1,
    DropsCounterclockwise = 2,
}

/// How a frame is to be. By default both windings are drawn, in the wide grade and a view in perspective; matrices lie
/// column by column, and y / w is 1 at the upper edge.
#[derive(Clone, Copy, Debug, Default, PartialEq)]
pub struct Options {
    pub winding: Winding,
    pub by_rows: bool,
    pub y_is_down: bool,
    pub narrow: bool,
    /// Of an orthographic view: z / w at the near plane and at the far one. The near distance isn't read then.
    pub depths: Option<(f32, f32)>,
}

/// Why there is no frame, or why nothing was drawn.
#[derive(Clone, Copy, Debug, PartialEq, Eq)]
pub enum Error {
    /// In words, by the library.
    Refused(&'static str),
    /// A triangle names a vertex that isn't there.
    BadIndex,
    OutOfMemory,
}

impl fmt::Display for Error {
    fn fmt(&self, out: &mut fmt::Formatter<'_>) -> fmt::Result {
        out.write_str(match self {
            Error::Refused(why) => why,
            Error::BadIndex => "a triangle names a vertex that isn't there",
            Error::OutOfMemory => "out of memory",
        })
    }
}

impl error::Error for Error {}

/// `u16` and `u32`.
pub trait Index: private::Sealed {}

impl Index for u16 {}
impl Index for u32 {}

mod private {
    pub trait Sealed {}
    impl Sealed for u16 {}
    impl Sealed for u32 {}
}

/// A screen: what was drawn since it was cleared, against which boxes and meshes are tested.
#[derive(Debug)]
pub struct Frame {
    frame: NonNull<sys::maskcull_frame>,
    width: u32,
    height: u32,
}

// SAFETY: a frame has its own memory, which no thread is bound to; calls with a const frame read it alone.
unsafe impl Send for Frame {}
unsafe impl Sync for Frame {}

impl Drop for Frame {
    fn drop(&mut self) {
        // SAFETY: it came from maskcull_frame_make, and nothing uses it behind this.
        unsafe { sys::maskcull_frame_free(self.frame.as_ptr()) }
    }
}

impl Frame {
    /// An empty frame for a window of any width and height from 1 to 2048.
    pub fn new(width: u32, height: u32, near_distance: f32, options: Options) -> Result<Frame, Error> {
        let (at_near, at_far) = options.depths.unwrap_or_default();
        let chosen = sys::maskcull_frame_options {
            size: size_of::<sys::maskcull_frame_options>() as u32,
            winding: options.winding as u32,
            by_rows: options.by_rows.into(),
            y_is_down: options.y_is_down.into(),
            narrow: options.narrow.into(),
            orthographic: options.depths.is_some().into(),
            at_near,
            at_far,
            ..Default::default()
        };
        Frame::with(width, height, near_distance, &chosen)
    }

    /// The same by the options in C, whose size is set here.
    pub fn with(
        width: u32,
        height: u32,
        near_distance: f32,
        options: &sys::maskcull_frame_options,
    ) -> Result<Frame, Error> {
        let options = sys::maskcull_frame_options { size: size_of::<sys::maskcull_frame_options>() as u32, ..*options };
        let mut reason = 0;
        // SAFETY: both places live through the call, and the options are as long as they say; a text is static.
        let made = unsafe { sys::maskcull_frame_make(width, height, near_distance, &options, &mut reason) };
        let text = unsafe { CStr::from_ptr(sys::maskcull_frame_text(reason)) };
        match NonNull::new(made) {
            Some(frame) => Ok(Frame { frame, width, height }),
            None if reason == sys::MASKCULL_FRAME_NO_MEMORY => Err(Error::OutOfMemory),
            None => Err(Error::Refused(text.to_str().unwrap_or("refused"))),
        }
    }

    pub fn width(&self) -> u32 {
        self.width
    }

    pub fn height(&self) -> u32 {
        self.height
    }

    pub fn clear(&mut self) {
        // SAFETY: nothing else uses the frame, since it is borrowed mutably.
        unsafe { sys::maskcull_frame_clear(self.frame.as_ptr()) }
    }

    /// Draws a mesh. On an error nothing was drawn.
    pub fn draw<I: Index>(
        &mut self,
        model_to_clip: &[f32; 16],
        points: &[[f32; 3]],
        triangles: &[[I; 3]],
    ) -> Result<(), Error> {
        self.draw_by(sys::MASKCULL_OWN_WINDING, model_to_clip, points, triangles)
    }

    /// The same with a winding for this mesh alone.
    pub fn draw_with<I: Index>(
        &mut self,
        winding: Winding,
        model_to_clip: &[f32; 16],
        points: &[[f32; 3]],
        triangles: &[[I; 3]],
    ) -> Result<(), Error> {
        self.draw_by(winding as u32, model_to_clip, points, triangles)
    }

    fn draw_by<I: Index>(
        &mut self,
        winding: u32,
        model_to_clip: &[f32; 16],
        points: &[[f32; 3]],
        triangles: &[[I; 3]],
    ) -> Result<(), Error> {
        // SAFETY: the slices are as long as is said, and nothing else uses the frame.
        let status = unsafe {
            sys::maskcull_frame_draw(
                self.frame.as_ptr(),
                model_to_clip.as_ptr(),
                points.as_ptr().cast::<c_void>(),
                size_of::<[f32; 3]>(),
                points.len(),
                triangles.as_ptr().cast::<c_void>(),
                size_of::<I>(),
                3 * triangles.len(),
                winding,
            )
        };
        match status {
            sys::MASKCULL_DONE => Ok(()),
            sys::MASKCULL_BAD_INDEX => Err(Error::BadIndex),
            sys::MASKCULL_NO_MEMORY => Err(Error::OutOfMemory),
            _ => Err(Error::Refused("no status of this version")),
        }
    }

    /// Tests boxes, each by its low corner and its high one.
    pub fn test_boxes(&self, world_to_clip: &[f32; 16], boxes: &[[f32; 6]]) -> Vec<Verdict> {
        let mut numbers = vec![0u8; boxes.len()];
        // SAFETY: the slices are as long as is said; others only test meanwhile.
        unsafe {
            sys::maskcull_frame_test_boxes(
                self.frame.as_ptr(),
                world_to_clip.as_ptr(),
                boxes.as_ptr().cast::<f32>(),
                boxes.len(),
                numbers.as_mut_ptr(),
            )
        };
        numbers.into_iter().map(|number| Verdict::of(number.into())).collect()
    }

    /// Tests a mesh. `Visible` too where a triangle names a vertex that isn't there.
    pub fn test_mesh<I: Index>(&self, model_to_clip: &[f32; 16], points: &[[f32; 3]], triangles: &[[I; 3]]) -> Verdict {
        // SAFETY: the slices are as long as is said; others only test meanwhile.
        Verdict::of(unsafe {
            sys::maskcull_frame_test_mesh(
                self.frame.as_ptr(),
                model_to_clip.as_ptr(),
                points.as_ptr().cast::<c_void>(),
                size_of::<[f32; 3]>(),
                points.len(),
                triangles.as_ptr().cast::<c_void>(),
                size_of::<I>(),
                3 * triangles.len(),
            )
        })
    }

    /// How near each pixel is at least, row by row from above: as long as the width times the height.
    pub fn picture(&self) -> Result<Vec<u16>, Error> {
        let width = self.width as usize;
        let mut out = vec![0; width * self.height as usize];
        // SAFETY: the room is as long as is said.
        match unsafe { sys::maskcull_frame_nearness(self.frame.as_ptr(), out.as_mut_ptr(), out.len(), width) } {
            sys::MASKCULL_DONE => Ok(out),
            _ => Err(Error::OutOfMemory),
        }
    }
}
