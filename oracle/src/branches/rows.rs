//! Branches of modules 4 and 5 of document 01, and of the sweeps' steps.

use super::arithmetic::{PIVOTS, SWEEPS, TURNS, pivots, sweeps, turns};
use super::{Branches, Tally};
use crate::answers::Six;
use crate::dynamics::SoftBody;
use crate::dynamics::solver::soft_element_constraint::{
    NeoHookeanConstraint, SoftElasticConstraint, StrainMatrix, outer_product, strain_rows_of,
    symmetric_eigen,
};
use crate::rows::{
    self, Corotational, CorotationalRow, ElasticRow, Head, NeoHookean, NeoHookeanRow, POINTS,
    Points, Row, ScalarRow,
};
use crate::support::real::{Real, max};
use crate::support::vector::{Matrix, Vector};
use crate::words::{Words, value_of};

// Ids.

const IDS: [&str; 4] = [
    "id in range",
    "id skipped",
    "id out of range",
    "one point named twice",
];

fn mark_ids(ids: &[u32], n: u32, tally: &mut Tally) {
    for (place, &id) in ids.iter().enumerate() {
        tally.hit(match id {
            u32::MAX => "id skipped",
            _ if id < n => "id in range",
            _ => "id out of range",
        });
        tally.hit_if(
            id < n && ids[..place].contains(&id),
            "one point named twice",
        );
    }
}

/// The ids that a scalar row names.
fn named(row: &ScalarRow) -> &[u32] {
    &row.ids[..row.count as usize]
}

// Dihedral.

pub const DIHEDRAL: Branches = Branches {
    labels: &DIHEDRALS,
    mark: |words, tally| {
        let (pos, _): ([Vector; 4], Real) = value_of(words);
        mark_dihedral(&pos, tally);
    },
};

const DIHEDRALS: [&str; 9] = [
    "first normal below 1.0e-9",
    "second normal below 1.0e-9",
    "a normal of exactly 1.0e-9",
    "dihedral flat, d = 1",
    "dihedral flat, d = -1",
    "dihedral bent, d >= 0",
    "dihedral bent, d < 0",
    "d of the normals clamped",
    "d of the normals is NaN",
];

fn mark_dihedral(pos: &[Vector; 4], tally: &mut Tally) {
    let edge = pos[1] - pos[0];
    let (n1, n2) = (edge.cross(pos[2] - pos[0]), edge.cross(pos[3] - pos[0]));
    let (l1, l2) = (n1.length(), n2.length());
    tally.hit_if(l1 == 1.0e-9 || l2 == 1.0e-9, "a normal of exactly 1.0e-9");
    if l1 < 1.0e-9 {
        return tally.hit("first normal below 1.0e-9");
    }
    if l2 < 1.0e-9 {
        return tally.hit("second normal below 1.0e-9");
    }
    let raw = (n1 / l1).dot(n2 / l2);
    let d = raw.clamp(-1.0, 1.0);
    tally.hit_if(raw != d && !raw.is_nan(), "d of the normals clamped");
    let flat = (1.0 - d * d).sqrt() < 1.0e-6;
    tally.hit(match d {
        _ if d.is_nan() => "d of the normals is NaN",
        _ if flat && d > 0.0 => "dihedral flat, d = 1",
        _ if flat => "dihedral flat, d = -1",
        _ if d >= 0.0 => "dihedral bent, d >= 0",
        _ => "dihedral bent, d < 0",
    });
}

// Scalar rows.

const GRADIENTS: [&str; 5] = [
    "distance, length above 1.0e-9",
    "distance, length of exactly 1.0e-9",
    "distance, length at most 1.0e-9",
    "dihedral",
    "cell volume",
];

/// Met only where a position is not finite, which no accepted frame has.
const LENGTHS: [&str; 1] = ["distance, length is NaN"];

pub const SCALAR_GRADIENTS: Branches = Branches {
    labels: joined!(GRADIENTS, LENGTHS, DIHEDRALS),
    mark: |words, tally| mark_gradients(&value_of(words), tally),
};

fn mark_gradients(row: &ScalarRow, tally: &mut Tally) {
    match row.kind {
        0 => {
            let length = (row.pos[1] - row.pos[0]).length();
            tally.hit_if(length == 1.0e-9, "distance, length of exactly 1.0e-9");
            tally.hit(if length > 1.0e-9 {
                "distance, length above 1.0e-9"
            } else if length.is_nan() {
                "distance, length is NaN"
            } else {
                "distance, length at most 1.0e-9"
            });
        }
        1 => {
            tally.hit("dihedral");
            mark_dihedral(&row.pos, tally);
        }
        _ => tally.hit("cell volume"),
    }
}

const UPDATES: [&str; 3] = [
    "count is the type's own",
    "another count",
    "inverse mass within 1.0e-20: inverse 0",
];

pub const SCALAR_UPDATE: Branches = Branches {
    labels: joined!(PEAKS, IDS, GRADIENTS, LENGTHS, DIHEDRALS, UPDATES, STRAINED),
    mark: |words, tally| {
        let (points, row, least) = value_of(words);
        mark_scalar_update(&points, &row, least, tally);
    },
};

/// Marks the branches of the peak, the update and the flag.
fn mark_scalar_update(points: &Points, row: &ScalarRow, least: Real, tally: &mut Tally) {
    tally.hit(if row.peak_impulse >= row.impulse {
        "peak stays"
    } else {
        "peak is the impulse"
    });
    mark_ids(named(row), points.n, tally);
    let after = rows::update(points, *row);
    mark_gradients(&after, tally);
    let own = if row.kind == 0 { 2 } else { 4 };
    tally.hit(if row.count == own {
        "count is the type's own"
    } else {
        "another count"
    });
    tally.hit_if(
        after.inv_lhs == 0.0,
        "inverse mass within 1.0e-20: inverse 0",
    );
    mark_scalar_strained(&after, least, tally);
}

pub const SCALAR_WARMSTART: Branches = Branches {
    labels: &IDS,
    mark: |words, tally| {
        let (points, row, _): (Points, ScalarRow, Real) = value_of(words);
        mark_ids(named(&row), points.n, tally);
    },
};

const TOTALS: [&str; 4] = [
    "impulse is NaN",
    "impulse at its lower bound",
    "impulse at its upper bound",
    "impulse between its bounds",
];

pub const SCALAR_SOLVE: Branches = Branches {
    labels: joined!(IDS, TOTALS),
    mark: |words, tally| {
        let (points, row): (Points, ScalarRow) = value_of(words);
        mark_ids(named(&row), points.n, tally);
        mark_total(&rows::solve(&points, row).0, tally);
    },
};

fn mark_total(after: &ScalarRow, tally: &mut Tally) {
    let [lower, upper] = after.impulse_bounds;
    tally.hit(match after.impulse {
        x if x.is_nan() => "impulse is NaN",
        x if x == lower => "impulse at its lower bound",
        x if x == upper => "impulse at its upper bound",
        _ => "impulse between its bounds",
    });
}

const STRAINED: [&str; 8] = [
    "not a distance",
    "erp_inv_dt not above 0",
    "erp_inv_dt is 0",
    "rest not above 0",
    "rest is 0",
    "error exactly the limit",
    "strained",
    "not strained",
];

fn above_zero(x: Real) -> bool {
    x > 0.0
}

fn mark_scalar_strained(row: &ScalarRow, least: Real, tally: &mut Tally) {
    if row.kind != 0 {
        return tally.hit("not a distance");
    }
    if !above_zero(row.erp_inv_dt) {
        tally.hit_if(row.erp_inv_dt == 0.0, "erp_inv_dt is 0");
        return tally.hit("erp_inv_dt not above 0");
    }
    if !above_zero(row.rest) {
        tally.hit_if(row.rest == 0.0, "rest is 0");
        return tally.hit("rest not above 0");
    }
    let error = (row.rhs / row.erp_inv_dt).abs();
    tally.hit_if(error == least * row.rest, "error exactly the limit");
    tally.hit(if error > least * row.rest {
        "strained"
    } else {
        "not strained"
    });
}

// Steps of the sweeps.

const MODES: [&str; 4] = [
    "solve alone",
    "update",
    "warm start",
    "update and warm start",
];
const FLAGS: [&str; 4] = [
    "flag set by the update",
    "flag cleared by the update",
    "flag 1 stays",
    "flag 0 stays",
];
const PEAKS: [&str; 2] = ["peak stays", "peak is the impulse"];

fn mark_mode(head: &Head, before: bool, after: bool, tally: &mut Tally) {
    tally.hit(MODES[head.mode as usize]);
    tally.hit(match (before, after) {
        (false, true) => "flag set by the update",
        (true, false) => "flag cleared by the update",
        (true, true) => "flag 1 stays",
        (false, false) => "flag 0 stays",
    });
}

pub const SCALAR_MAIN_STEP: Branches = Branches {
    labels: joined!(
        MODES, FLAGS, PEAKS, IDS, GRADIENTS, DIHEDRALS, UPDATES, STRAINED, TOTALS
    ),
    mark: |words, tally| {
        let (head, points, row): (Head, Points, ScalarRow) = value_of(words);
        if head.mode & 1 != 0 {
            mark_scalar_update(&points, &row, head.least_strain, tally);
        }
        let (after, _) = rows::main_step(&head, &points, row);
        mark_mode(&head, row.strained, after.strained, tally);
        mark_total(&after, tally);
    },
};

const RESWEEPS: [&str; 2] = ["strained is 1: solved", "strained is 0: left"];

fn mark_resweep(strained: bool, tally: &mut Tally) {
    tally.hit(RESWEEPS[usize::from(!strained)]);
}

pub const SCALAR_RESWEEP_STEP: Branches = Branches {
    labels: &RESWEEPS,
    mark: |words, tally| {
        let (_, row): (Points, ScalarRow) = value_of(words);
        mark_resweep(row.strained, tally);
    },
};

// Elastic rows.

const CELLS: [&str; 10] = [
    "cell inverted",
    "cell not inverted",
    "determinant 0 or NaN",
    "cap below 1 raised to 1",
    "cap below 1 kept, cell inverted",
    "cap of 1 or more",
    "strain is NaN",
    "strain raised to minus its cap",
    "strain cut to its cap",
    "strain within its cap",
];

/// The branches of an elastic update that both kinds share.
fn mark_cell<M>(points: &Points, row: &ElasticRow<M>, after: &ElasticRow<M>, tally: &mut Tally) {
    mark_ids(&row.ids, points.n, tally);
    let f = SoftBody::cell_edge_matrix(after.pos) * row.inv_rest_matrix;
    turns(f, row.rotation, tally);
    let determinant = f.determinant();
    tally.hit(if after.inverted {
        "cell inverted"
    } else {
        "cell not inverted"
    });
    tally.hit_if(
        determinant == 0.0 || determinant.is_nan(),
        "determinant 0 or NaN",
    );
    let raw = strain_rows_of(&(after.rot_mat.transpose() * f - Matrix::IDENTITY));
    for (&cap, &strain) in row.strain_cap.iter().zip(raw.iter()) {
        tally.hit(match (cap < 1.0, after.inverted) {
            (true, false) => "cap below 1 raised to 1",
            (true, true) => "cap below 1 kept, cell inverted",
            _ => "cap of 1 or more",
        });
        let cap = if after.inverted { cap } else { max(cap, 1.0) };
        tally.hit(match strain {
            _ if strain.is_nan() => "strain is NaN",
            _ if strain < -cap => "strain raised to minus its cap",
            _ if strain > cap => "strain cut to its cap",
            _ => "strain within its cap",
        });
    }
}

const VOLUMES: [&str; 7] = [
    "volume error cut or raised to its cap",
    "volume error within its cap",
    "volume error is NaN",
    "volumetric",
    "not volumetric",
    "Schur complement within 1.0e-20: inverse 0",
    "Schur complement outside",
];

pub const COROTATIONAL_UPDATE: Branches = Branches {
    labels: joined!(IDS, TURNS, CELLS, VOLUMES, ELASTIC_STRAINED),
    mark: |words, tally| mark_elastic_update(words, tally, mark_corotational_update),
};

fn mark_corotational_update(
    points: &Points,
    row: &CorotationalRow,
    tally: &mut Tally,
) -> CorotationalRow {
    let after = rows::update(points, *row);
    mark_cell(points, row, &after, tally);
    let f = SoftBody::cell_edge_matrix(after.pos) * row.inv_rest_matrix;
    let error = f.determinant() - 1.0;
    let cap = row.model.vol_cap;
    let cap = if after.inverted { cap } else { max(cap, 1.0) };
    tally.hit(match error {
        _ if error.is_nan() => "volume error is NaN",
        _ if error.abs() > cap => "volume error cut or raised to its cap",
        _ => "volume error within its cap",
    });
    if row.spare == 0 {
        tally.hit("not volumetric");
        return after;
    }
    tally.hit("volumetric");
    tally.hit(if after.model.inv_s == 0.0 {
        "Schur complement within 1.0e-20: inverse 0"
    } else {
        "Schur complement outside"
    });
    after
}

/// The floors of the modes.
const FLOORS: [&str; 5] = [
    "mode raised to its floor",
    "mode above its floor",
    "flip raised to its floor",
    "flip above its floor",
    "mode or flip is NaN",
];

pub const HESSIAN: Branches = Branches {
    labels: joined!(SWEEPS, FLOORS),
    mark: |words, tally| {
        let ((mu, lambda), s, kappa): ((Real, Real), Matrix, Real) = value_of(words);
        mark_hessian(mu, lambda, &s, kappa, tally);
    },
};

/// The Hessian's modes once more.
fn mark_hessian(mu: Real, lambda: Real, s: &Matrix, kappa: Real, tally: &mut Tally) {
    sweeps(s, tally);
    let (sigma, _) = symmetric_eigen(s);
    let one = |c: usize| 1.0 * sigma[c];
    let g = Vector::new(one(1) * sigma[2], one(0) * sigma[2], one(0) * sigma[1]);
    let mut h = Matrix::IDENTITY * mu;
    for (a, b, c) in [(0, 1, 2), (0, 2, 1), (1, 2, 0)] {
        h.col_mut(b)[a] += kappa * one(c);
        h.col_mut(a)[b] += kappa * one(c);
    }
    h += outer_product(g, g) * lambda;
    sweeps(&h, tally);
    let (nu, v) = symmetric_eigen(&h);
    for k in 0..3 {
        let sum = v.col(k).element_sum();
        let floor = 2.0 * mu + (lambda - mu) * sum * sum;
        tally.hit(match nu[k].partial_cmp(&floor) {
            None => "mode or flip is NaN",
            Some(std::cmp::Ordering::Less) => "mode raised to its floor",
            Some(_) => "mode above its floor",
        });
    }
    for c in [2, 1, 0] {
        let flip = mu - kappa * one(c);
        tally.hit(match flip.partial_cmp(&(2.0 * mu)) {
            None => "mode or flip is NaN",
            Some(std::cmp::Ordering::Less) => "flip raised to its floor",
            Some(_) => "flip above its floor",
        });
    }
}

const BLOCKS: [&str; 6] = [
    "block kept",
    "block renewed",
    "largest difference exactly 0.02",
    "largest difference the next f32 above 0.02",
    "a difference is NaN",
    "no inverse: zeros",
];

pub const NEO_HOOKEAN_UPDATE: Branches = Branches {
    labels: joined!(
        IDS,
        TURNS,
        CELLS,
        BLOCKS,
        SWEEPS,
        FLOORS,
        PIVOTS,
        ELASTIC_STRAINED
    ),
    mark: |words, tally| mark_elastic_update(words, tally, mark_neo_hookean_update),
};

fn mark_neo_hookean_update(
    points: &Points,
    row: &NeoHookeanRow,
    tally: &mut Tally,
) -> NeoHookeanRow {
    const LIMIT: Real = 0.02;
    let after = rows::update(points, *row);
    mark_cell(points, row, &after, tally);
    let apart = (after.strain - row.model.stiffness_strain).map(Real::abs);
    let largest = apart.iter().fold(0.0, |most, &part| max(most, part));
    tally.hit_if(largest == LIMIT, "largest difference exactly 0.02");
    tally.hit_if(
        largest.to_bits() == LIMIT.to_bits() + 1,
        "largest difference the next f32 above 0.02",
    );
    tally.hit_if(apart.iter().any(|x| x.is_nan()), "a difference is NaN");
    if apart.iter().all(|&x| x <= LIMIT) {
        tally.hit("block kept");
        return after;
    }
    tally.hit("block renewed");
    let NeoHookean { mu, lambda, .. } = row.model;
    let (s, kappa, _) = NeoHookeanConstraint::gradient(mu, lambda, &after.strain);
    mark_hessian(mu, lambda, &s, kappa, tally);
    let a = SoftElasticConstraint::strain_block(&row.coeffs, &row.im);
    let has_inverse = pivots(after.model.m * a + StrainMatrix::identity(), tally);
    tally.hit_if(!has_inverse, "no inverse: zeros");
    after
}

const ELASTIC_STRAINED: [&str; 4] = [
    "a strain above the limit",
    "no strain above the limit",
    "largest strain exactly the limit",
    "a strain is NaN",
];

fn mark_elastic_strained(strain: &Six, least: Real, tally: &mut Tally) {
    let largest = strain.iter().fold(0.0, |most, part| max(most, part.abs()));
    tally.hit_if(largest == least, "largest strain exactly the limit");
    tally.hit_if(strain.iter().any(|x| x.is_nan()), "a strain is NaN");
    tally.hit(if strain.iter().any(|x| x.abs() > least) {
        "a strain above the limit"
    } else {
        "no strain above the limit"
    });
}

fn mark_elastic_warmstart<M>(words: &[u32], tally: &mut Tally)
where
    ElasticRow<M>: Words,
{
    let (points, row, _): (Points, ElasticRow<M>, Real) = value_of(words);
    mark_ids(&row.ids, points.n, tally);
}

fn mark_elastic_solve<M>(words: &[u32], tally: &mut Tally)
where
    ElasticRow<M>: Words,
{
    let (points, row): (Points, ElasticRow<M>) = value_of(words);
    mark_ids(&row.ids, points.n, tally);
}

/// Marks the branches of an elastic update and of the flag.
fn mark_elastic_update<M>(words: &[u32], tally: &mut Tally, update: MarkUpdate<M>)
where
    ElasticRow<M>: Words,
{
    let (points, row, least): (Points, ElasticRow<M>, Real) = value_of(words);
    let updated = update(&points, &row, tally);
    mark_elastic_strained(&updated.strain, least, tally);
}

/// Marks the branches of an elastic update alone, and gives the row after it.
type MarkUpdate<M> = fn(&Points, &ElasticRow<M>, &mut Tally) -> ElasticRow<M>;

fn mark_elastic_resweep<M>(words: &[u32], tally: &mut Tally)
where
    ElasticRow<M>: Words,
{
    let (_, row): (Points, ElasticRow<M>) = value_of(words);
    mark_resweep(row.strained, tally);
}

fn mark_elastic_main<M>(words: &[u32], tally: &mut Tally, update: MarkUpdate<M>)
where
    ElasticRow<M>: Words + Row,
{
    let (head, points, row): (Head, Points, ElasticRow<M>) = value_of(words);
    if head.mode & 1 != 0 {
        let updated = update(&points, &row, tally);
        mark_elastic_strained(&updated.strain, head.least_strain, tally);
    }
    let (after, _): (_, [Vector; POINTS]) = rows::main_step(&head, &points, row);
    mark_mode(&head, row.strained, after.strained, tally);
}

pub const COROTATIONAL_WARMSTART: Branches = Branches {
    labels: &IDS,
    mark: mark_elastic_warmstart::<Corotational>,
};
pub const COROTATIONAL_SOLVE: Branches = Branches {
    labels: &IDS,
    mark: mark_elastic_solve::<Corotational>,
};
pub const COROTATIONAL_MAIN_STEP: Branches = Branches {
    labels: joined!(MODES, FLAGS, IDS, TURNS, CELLS, VOLUMES, ELASTIC_STRAINED),
    mark: |words, tally| mark_elastic_main(words, tally, mark_corotational_update),
};
pub const COROTATIONAL_RESWEEP_STEP: Branches = Branches {
    labels: &RESWEEPS,
    mark: mark_elastic_resweep::<Corotational>,
};
pub const NEO_HOOKEAN_WARMSTART: Branches = Branches {
    labels: &IDS,
    mark: mark_elastic_warmstart::<NeoHookean>,
};
pub const NEO_HOOKEAN_SOLVE: Branches = Branches {
    labels: &IDS,
    mark: mark_elastic_solve::<NeoHookean>,
};
pub const NEO_HOOKEAN_MAIN_STEP: Branches = Branches {
    labels: joined!(
        MODES,
        FLAGS,
        IDS,
        TURNS,
        CELLS,
        BLOCKS,
        SWEEPS,
        FLOORS,
        PIVOTS,
        ELASTIC_STRAINED
    ),
    mark: |words, tally| mark_elastic_main(words, tally, mark_neo_hookean_update),
};
pub const NEO_HOOKEAN_RESWEEP_STEP: Branches = Branches {
    labels: &RESWEEPS,
    mark: mark_elastic_resweep::<NeoHookean>,
};
