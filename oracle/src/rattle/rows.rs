//! The row functions of `rows_ffi`, and what a sweep does around them.
//!
//! A row is laid as the bytes of its record and read back from there. No row function sees points: what the row's places hold is gathered
//! for it, and what each place is to lose is taken from the points after it, place after place.

use super::laid::{Energy, Four, Gradients, Held, Holds, Lost};
use crate::answers::{Call, Six, Six6};
use crate::direct::{LEAST_STRAIN, RowCalls};
use crate::frames::Frame;
use crate::inputs::SKIPPED;
use crate::layout::{COROTATIONAL, NEO_HOOKEAN, Record, SCALAR};
use crate::rows::{CorotationalRow, Head, NeoHookeanRow, POINTS, Point, Points, ScalarRow};
use crate::support::na::{SMatrix, SVector};
use crate::support::real::Real;
use crate::support::vector::{Matrix, Vector};
use crate::words::{Words, value_of, words_of};
use std::hint::black_box;

// A reference is a pointer that is neither null nor shared where it is written: the functions are safe to call so.
unsafe extern "C" {
    safe fn rt_dihedral_gradients(pos: Four, rest: Real) -> Gradients;
    safe fn rt_scalar_compute_gradients(kind: u32, pos: Four, grad: Four, rest: Real) -> Gradients;

    safe fn rt_strain_rows_of(m: Matrix, out: &mut Six);
    safe fn rt_strain_rows_dual(m: Matrix, out: &mut Six);
    safe fn rt_strain_matrix(e: &Six) -> Matrix;
    safe fn rt_outer_sum(a: Four, b: Four) -> Matrix;
    safe fn rt_strain_block_from_g(g: Matrix, out: &mut Six6);
    safe fn rt_neo_hookean_gradient(mu: Real, lambda: Real, strain: &Six) -> Energy;
    safe fn rt_neo_hookean_hessian(mu: Real, lambda: Real, s: Matrix, kappa: Real, out: &mut Six6);

    // On the bytes of a record: a pointer that is good for that many. What is no row's record is refused and left alone.
    fn rt_row_update(record: *mut u8, length: usize, held: Holds, least: Real) -> bool;
    fn rt_row_warm(record: *mut u8, length: usize, coeff: Real) -> Lost;
    fn rt_row_solve(record: *mut u8, length: usize, vel: Holds) -> Lost;
}

/// The first phase of a row; false where the bytes are no row's record.
#[inline]
fn row_update(record: &mut [u8], held: Holds, least: Real) -> bool {
    // SAFETY: the pointer is good for the length, and lent for the call.
    unsafe { rt_row_update(record.as_mut_ptr(), record.len(), held, least) }
}

#[inline]
fn row_warm(record: &mut [u8], coeff: Real) -> Lost {
    // SAFETY: as above.
    unsafe { rt_row_warm(record.as_mut_ptr(), record.len(), coeff) }
}

#[inline]
fn row_solve(record: &mut [u8], vel: Holds) -> Lost {
    // SAFETY: as above.
    unsafe { rt_row_solve(record.as_mut_ptr(), record.len(), vel) }
}

/// Whether all three say that these bytes are no row's record.
pub fn all_refuse(bytes: &mut [u8]) -> bool {
    let held = Holds {
        places: [Held::new(true, Vector::X); 4],
    };
    let updated = row_update(bytes, held, 0.0);
    let (warm, solved) = (row_warm(bytes, 1.0), row_solve(bytes, held));
    !updated && !warm.done && !solved.done
}

type Velocities = [Vector; POINTS];
/// What each place is to lose.
type Loss = [Vector; 4];

/// A kind of row and its record.
pub trait Linked: Copy + Words {
    const RECORD: &'static Record;
    /// The bytes of a record.
    type Bytes: Copy + AsMut<[u8]> + AsRef<[u8]> + for<'a> TryFrom<&'a [u8]>;

    fn ids(&self) -> &[u32; 4];
    /// How many places count.
    fn count(&self) -> usize;
    fn strained(&self) -> bool;
}

macro_rules! linked {
    ($row:ty, $record:ident, $count:expr) => {
        impl Linked for $row {
            const RECORD: &'static Record = &$record;
            type Bytes = [u8; $record.size()];

            fn ids(&self) -> &[u32; 4] {
                &self.ids
            }

            fn count(&self) -> usize {
                $count(self)
            }

            fn strained(&self) -> bool {
                self.strained
            }
        }
    };
}

linked!(ScalarRow, SCALAR, |row: &ScalarRow| row.count as usize);
linked!(CorotationalRow, COROTATIONAL, |_| 4);
linked!(NeoHookeanRow, NEO_HOOKEAN, |_| 4);

/// The bytes of the row's record.
fn laid<R: Linked>(row: &R) -> R::Bytes {
    let mut frame = Frame::default();
    frame.push_words(R::RECORD, &words_of(row));
    let bytes = R::Bytes::try_from(&frame.bytes);
    bytes.unwrap_or_else(|_| unreachable!("a record has its size"))
}

/// The row that these bytes are.
fn read<R: Linked>(bytes: &R::Bytes) -> R {
    let frame = Frame {
        bytes: bytes.as_ref().to_vec(),
        records: vec![(0, R::RECORD)],
    };
    value_of(&frame.words(0))
}

// Between the row functions and the points.

/// What the row's places hold: zeros where an id is out of range.
#[inline]
fn gathered<R: Linked>(row: &R, points: &Points, of: impl Fn(&Point) -> Vector) -> Holds {
    let present = &points.points[..points.n as usize];
    let held = |place: usize| {
        let id = row.ids()[place];
        let named = place < row.count() && id != SKIPPED;
        Held::new(named, present.get(id as usize).map_or(Vector::ZERO, &of))
    };
    Holds {
        places: [held(0), held(1), held(2), held(3)],
    }
}

#[inline]
fn positions<R: Linked>(row: &R, points: &Points) -> Holds {
    gathered(row, points, |point| point.position)
}

#[inline]
fn velocities<R: Linked>(row: &R, points: &Points) -> Holds {
    gathered(row, points, |point| point.velocity)
}

/// Takes from each named point what its place is to lose: twice from one that is named twice.
#[inline]
fn lose<R: Linked>(row: &R, points: &mut Points, loss: Loss) {
    let present = &mut points.points[..points.n as usize];
    for (&id, loss) in row.ids().iter().zip(loss).take(row.count()) {
        if let Some(point) = present.get_mut(id as usize) {
            point.velocity -= loss;
        }
    }
}

/// The velocities of all points.
fn after(points: &Points) -> Velocities {
    points.points.map(|point| point.velocity)
}

// The calls that the table of answers has.

fn compute_gradients(row: ScalarRow) -> (ScalarRow, Real) {
    let [places, grad] = [row.pos, row.grad].map(|places| Four { places });
    let Gradients { grad, error } = rt_scalar_compute_gradients(row.kind, places, grad, row.rest);
    (ScalarRow { grad, ..row }, error)
}

fn update<R: Linked>(points: &Points, row: R, least: Real) -> R {
    let mut record = laid(&row);
    assert!(row_update(record.as_mut(), positions(&row, points), least));
    read(&record)
}

/// What a warm start or a solve leaves of the row and of its points.
fn lost<R: Linked>(
    mut points: Points,
    row: R,
    call: impl FnOnce(&mut [u8]) -> Lost,
) -> (R, Velocities) {
    let mut record = laid(&row);
    let Lost { done, loss } = call(record.as_mut());
    assert!(done);
    lose(&row, &mut points, loss);
    (read(&record), after(&points))
}

fn warmstart<R: Linked>(points: Points, row: R, coeff: Real) -> (R, Velocities) {
    lost(points, row, |record| row_warm(record, coeff))
}

fn solve<R: Linked>(points: Points, row: R) -> (R, Velocities) {
    let held = velocities(&row, &points);
    lost(points, row, |record| row_solve(record, held))
}

/// The points with these velocities.
fn moved(mut points: Points, velocities: Velocities) -> Points {
    for (point, velocity) in points.points.iter_mut().zip(velocities) {
        point.velocity = velocity;
    }
    points
}

fn main_step<R: Linked>(head: &Head, mut points: Points, mut row: R) -> (R, Velocities) {
    if head.mode & 1 != 0 {
        row = update(&points, row, head.least_strain);
    }
    if head.mode & 2 != 0 {
        let (warm, velocities) = warmstart(points, row, head.warm_coefficient);
        (row, points) = (warm, moved(points, velocities));
    }
    solve(points, row)
}

fn resweep_step<R: Linked>(points: Points, row: R) -> (R, Velocities) {
    if row.strained() {
        solve(points, row)
    } else {
        (row, after(&points))
    }
}

/// A row's record, with its points.
struct Ready<R: Linked> {
    row: R,
    record: R::Bytes,
    points: Points,
}

impl<R: Linked> RowCalls for Ready<R> {
    #[inline(never)]
    fn update(&self) {
        let mut record = self.record;
        let held = positions(&self.row, &self.points);
        black_box(row_update(record.as_mut(), held, LEAST_STRAIN));
        black_box(&record);
    }

    #[inline(never)]
    fn solve(&mut self) {
        let held = velocities(&self.row, &self.points);
        let lost = row_solve(self.record.as_mut(), held);
        lose(&self.row, &mut self.points, lost.loss);
    }
}

/// A row that is ready to be timed.
pub fn ready<R: Linked>(points: Points, row: R) -> impl RowCalls {
    Ready {
        row,
        record: laid(&row),
        points,
    }
}

/// What a function writes to its last place, where NaN stood before.
fn six(call: impl FnOnce(&mut Six)) -> Six {
    let mut out = SVector([Real::NAN; 6]);
    call(&mut out);
    out
}

fn six6(call: impl FnOnce(&mut Six6)) -> Six6 {
    let mut out = SMatrix([[Real::NAN; 6]; 6]);
    call(&mut out);
    out
}

/// The linked functions, as functions of words.
#[rustfmt::skip]
pub const RATTLE: &[(&str, Call)] = rattle! {
    dihedral_gradients(pos: Four, rest: Real) -> Gradients = rt_dihedral_gradients(pos, rest);
    scalar_compute_gradients(row: ScalarRow) -> (ScalarRow, Real) = compute_gradients(row);

    neo_hookean_gradient(mu: Real, lambda: Real, strain: Six) -> Energy = rt_neo_hookean_gradient(mu, lambda, &strain);
    neo_hookean_hessian(mu: Real, lambda: Real, s: Matrix, kappa: Real) -> Six6 =
        six6(|out| rt_neo_hookean_hessian(mu, lambda, s, kappa, out));
    strain_block_from_g(g: Matrix) -> Six6 = six6(|out| rt_strain_block_from_g(g, out));
    strain_rows_of(m: Matrix) -> Six = six(|out| rt_strain_rows_of(m, out));
    strain_rows_dual(m: Matrix) -> Six = six(|out| rt_strain_rows_dual(m, out));
    strain_matrix(strain: Six) -> Matrix = rt_strain_matrix(&strain);
    outer_sum(a: Four, b: Four) -> Matrix = rt_outer_sum(a, b);

    scalar_update(points: Points, row: ScalarRow, least: Real) -> ScalarRow = update(&points, row, least);
    scalar_warmstart(points: Points, row: ScalarRow, coeff: Real) -> (ScalarRow, Velocities) = warmstart(points, row, coeff);
    scalar_solve(points: Points, row: ScalarRow) -> (ScalarRow, Velocities) = solve(points, row);
    scalar_main_step(head: Head, points: Points, row: ScalarRow) -> (ScalarRow, Velocities) =
        main_step(&head, points, row);
    scalar_resweep_step(points: Points, row: ScalarRow) -> (ScalarRow, Velocities) = resweep_step(points, row);

    corotational_update(points: Points, row: CorotationalRow, least: Real) -> CorotationalRow = update(&points, row, least);
    corotational_warmstart(points: Points, row: CorotationalRow, coeff: Real) -> (CorotationalRow, Velocities) = warmstart(points, row, coeff);
    corotational_solve(points: Points, row: CorotationalRow) -> (CorotationalRow, Velocities) = solve(points, row);
    corotational_main_step(head: Head, points: Points, row: CorotationalRow) -> (CorotationalRow, Velocities) =
        main_step(&head, points, row);
    corotational_resweep_step(points: Points, row: CorotationalRow) -> (CorotationalRow, Velocities) = resweep_step(points, row);

    neo_hookean_update(points: Points, row: NeoHookeanRow, least: Real) -> NeoHookeanRow = update(&points, row, least);
    neo_hookean_warmstart(points: Points, row: NeoHookeanRow, coeff: Real) -> (NeoHookeanRow, Velocities) = warmstart(points, row, coeff);
    neo_hookean_solve(points: Points, row: NeoHookeanRow) -> (NeoHookeanRow, Velocities) = solve(points, row);
    neo_hookean_main_step(head: Head, points: Points, row: NeoHookeanRow) -> (NeoHookeanRow, Velocities) =
        main_step(&head, points, row);
    neo_hookean_resweep_step(points: Points, row: NeoHookeanRow) -> (NeoHookeanRow, Velocities) = resweep_step(points, row);
};
