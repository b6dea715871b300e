//! The sample frames of the folder `samples`, and what a run leaves of them.

use crate::frames::{Element, Frame, Sheet, sheet};
use crate::run::run;

/// A sample by its name.
pub struct Sample {
    pub name: &'static str,
    pub frame: Frame,
}

/// A sheet of these elements, with no more than 20 colours.
fn sample(
    name: &'static str,
    elements: &[Element],
    side: usize,
    mode: u32,
    resweeps: u32,
) -> Sample {
    let frame = sheet(&Sheet {
        elements,
        side,
        rows: 4096,
        colours: 20,
        mode,
        resweeps,
        warm_coefficient: 0.9,
        least_strain: 0.05,
    });
    Sample { name, frame }
}

/// All of them.
pub fn samples() -> Vec<Sample> {
    use Element::{Corotational, Dihedral, Distance, NeoHookean, Volume};
    let mut refused = sample("refused", &[Distance], 4, 1, 2);
    let row = refused.frame.rows().start + 2;
    refused.frame.put(row, "rest", 0, f32::INFINITY.to_bits());
    let all = [Distance, Dihedral, Volume, Corotational, NeoHookean];
    vec![
        sample("distances", &[Distance], 5, 1, 4),
        sample("dihedrals", &[Dihedral], 5, 1, 0),
        sample("volumes", &[Volume], 3, 3, 0),
        sample("corotational", &[Corotational], 3, 3, 4),
        sample("neo_hookean", &[NeoHookean], 3, 1, 4),
        sample("mixed", &all, 4, 3, 8),
        refused,
    ]
}

impl Sample {
    /// The file that holds what the run leaves, and its bytes: the frame, or of a refused one the line that `formrun` writes.
    pub fn after(&self) -> (String, Vec<u8>) {
        let mut frame = self.frame.bytes.clone();
        match run(&mut frame) {
            (0, _) => (format!("{}.frame", self.name), frame),
            (number, place) => (
                format!("{}.txt", self.name),
                format!("refused {number} at {place}\n").into(),
            ),
        }
    }
}
