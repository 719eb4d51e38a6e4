//! What isn't allowed is an error, and nothing is drawn. What has another length or kind doesn't compile: src/lib.rs.
use maskcull::{sys, Error, Frame, Options, Verdict, Winding};

const CLIP: [f32; 16] = [1., 0., 0., 0., 0., 1., 0., 0., 0., 0., -1., -1., 0., 0., -0.25, 0.];
const WALL: [[f32; 3]; 4] = [[-9., 9., -4.], [9., 9., -4.], [9., -9., -4.], [-9., -9., -4.]];
const QUAD: [[u16; 3]; 2] = [[0, 1, 2], [0, 2, 3]];
const BOX: [[f32; 6]; 1] = [[-1., -1., -9., 1., 1., -8.]];

fn frame() -> Frame {
    Frame::new(61, 31, 0.1, Options::default()).expect("a frame")
}

fn reason(width: u32, near: f32, options: sys::maskcull_frame_options) -> String {
    Frame::with(width, 32, near, &options).expect_err("no frame").to_string()
}

#[test]
fn a_refusal_says_why() {
    let usual = sys::maskcull_frame_options::default();
    assert!(reason(0, 0.1, usual).contains("is 0"));
    assert!(reason(2049, 0.1, usual).contains("2048"));
    assert!(reason(64, f32::NAN, usual).contains("near distance"));
    assert!(reason(64, 0.1, sys::maskcull_frame_options { exact: 1, ..usual }).contains("exact"));
    assert!(reason(64, 0.1, sys::maskcull_frame_options { winding: 3, ..usual }).contains("winding"));
    let flat = Options { depths: Some((1., 1.)), ..Options::default() };
    assert!(matches!(Frame::new(64, 32, 0., flat), Err(Error::Refused(_))));
    assert_eq!(unsafe { sys::maskcull_frame_version() } / 100, 1);
}

#[test]
fn an_index_past_the_end_draws_nothing() {
    let mut frame = frame();
    assert_eq!(frame.draw(&CLIP, &WALL, &[[0u16, 1, 4]]), Err(Error::BadIndex));
    assert_eq!(frame.draw(&CLIP, &WALL, &[[0, 1, u32::MAX]]), Err(Error::BadIndex));
    assert_eq!(frame.draw(&CLIP, &[], &QUAD), Err(Error::BadIndex));
    assert_eq!(frame.draw::<u32>(&CLIP, &[], &[]), Ok(()));
    assert_eq!(frame.picture().map(|picture| picture.iter().all(|&near| near == 0)), Ok(true));
    assert_eq!(frame.test_boxes(&CLIP, &BOX), [Verdict::Visible]);
    assert!(frame.test_boxes(&CLIP, &[]).is_empty());
    assert_eq!(frame.test_mesh(&CLIP, &WALL, &[[0u16, 1, 4]]), Verdict::Visible);
}

#[test]
fn a_wall_hides_a_box_by_its_winding() {
    let mut frame = frame();
    assert_eq!(frame.draw_with(Winding::DropsClockwise, &CLIP, &WALL, &QUAD), Ok(()));
    assert_eq!(frame.test_boxes(&CLIP, &BOX), [Verdict::Visible]);
    assert_eq!(frame.draw_with(Winding::DropsCounterclockwise, &CLIP, &WALL, &QUAD), Ok(()));
    assert_eq!(frame.test_boxes(&CLIP, &BOX), [Verdict::Occluded]);
    assert_eq!(frame.test_mesh(&CLIP, &WALL, &QUAD), Verdict::Visible);
    assert_eq!(frame.picture().map(|picture| picture.len()), Ok(61 * 31));
    std::thread::scope(|scope| {
        for _ in 0..2 {
            scope.spawn(|| assert_eq!(frame.test_boxes(&CLIP, &BOX), [Verdict::Occluded]));
        }
    });
    frame.clear();
    assert_eq!(frame.test_boxes(&CLIP, &BOX), [Verdict::Visible]);
}
