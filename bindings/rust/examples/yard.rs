//! The program of bindings/c/yard.c.
use maskcull::{Error, Frame, Options, Verdict};

const TO_CLIP: [f32; 16] = [1., 0., 0., 0., 0., 1.75, 0., 0., 0., 0., -1., -1., 0., 0., -0.25, 0.];

struct Numbers(u32);

impl Numbers {
    fn below(&mut self, bound: u32) -> f32 {
        self.0 = self.0.wrapping_mul(1103515245).wrapping_add(12345) & 0x7fffffff;
        ((self.0 >> 16) % bound) as f32
    }
}

fn main() -> Result<(), Error> {
    let mut next = Numbers(1);
    let mut frame = Frame::new(1280, 720, 0.125, Options::default())?;
    frame.clear();
    for _ in 0..40 {
        let (x, z, half, top) = (next.below(64) - 32., -4. - next.below(60), 1. + next.below(4), next.below(8));
        let wall = [[x - half, top, z], [x + half, top, z], [x + half, -4., z], [x - half, -4., z]];
        frame.draw(&TO_CLIP, &wall, &[[0u16, 1, 2], [0, 2, 3]])?;
    }
    let mut boxes = Vec::new();
    for _ in 0..1000 {
        let (x, y, z) = (next.below(128) - 64., next.below(8) - 4., 2. - next.below(128));
        boxes.push([x, y, z - 1., x + 1., y + 1., z]);
    }
    let verdicts = frame.test_boxes(&TO_CLIP, &boxes);
    let count = |wanted| verdicts.iter().filter(|&&verdict| verdict == wanted).count();
    let (visible, occluded) = (count(Verdict::Visible), count(Verdict::Occluded));
    println!("visible {visible} occluded {occluded} outside {}", count(Verdict::Outside));
    println!("picture {}", frame.picture()?.iter().zip(1u64..).map(|(&near, k)| u64::from(near) * k).sum::<u64>());
    Ok(())
}
