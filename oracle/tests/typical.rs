//! The rows that are timed take the branches that their lines in the benchmark are named after.

use oracle::inputs::{typical_corotational, typical_neo_hookean, typical_scalar};
use oracle::random::Random;
use oracle::support::vector::Vector;
use oracle::words::words_of;

const ROWS: usize = 512;

#[test]
fn scalar_rows_have_gradients_and_a_mass() {
    let random = &mut Random::new(1, "typical");
    for kind in 0..3 {
        for _ in 0..ROWS {
            let row = typical_scalar(random, kind).updated;
            assert!(
                row.grad[..row.count as usize]
                    .iter()
                    .all(|&g| g != Vector::ZERO)
            );
            assert!(row.inv_lhs > 0.0);
        }
    }
}

#[test]
fn corotational_rows_are_volumetric_and_not_inverted() {
    let random = &mut Random::new(1, "typical");
    for _ in 0..ROWS {
        let row = typical_corotational(random).updated;
        assert!(!row.inverted && row.model.inv_s > 0.0);
    }
}

#[test]
fn neo_hookean_blocks_are_kept_or_renewed() {
    let random = &mut Random::new(1, "typical");
    for _ in 0..ROWS {
        let kept = typical_neo_hookean(random, true);
        let (before, after) = (kept.row.model, kept.updated.model);
        assert_eq!(words_of(&before.m), words_of(&after.m));
        assert_eq!(before.stiffness_strain, after.stiffness_strain);
        let renewed = typical_neo_hookean(random, false).updated;
        assert!(!renewed.inverted && renewed.model.m.0[0][0] > 0.0);
        assert_eq!(renewed.model.stiffness_strain, renewed.strain);
    }
}
