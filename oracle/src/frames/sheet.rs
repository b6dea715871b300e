//! Sheets as a press has them: a square grid of points, held along one side and drawn over a hill, with rows of the kinds that are asked.

use super::accepted::Frame;
use crate::dynamics::solver::soft_element_constraint::{SoftElasticConstraint, StrainMatrix};
use crate::inputs::{SOFT, inverse, soft_corotational, soft_neo_hookean, worked_distance};
use crate::layout::{COROTATIONAL, HEAD, NEO_HOOKEAN, OVERFLOW, POINT, SCALAR};
use crate::rows::{ElasticRow, Point, ScalarRow};
use crate::support::na::SVector;
use crate::support::real::Real;
use crate::support::vector::{Matrix, Rotation, Vector};
use crate::words::words_of;

/// What a row of a sheet is.
#[derive(Clone, Copy, PartialEq, Eq, Debug)]
pub enum Element {
    /// Between neighbours, along both sides of a square and its diagonal.
    Distance,
    /// Over the diagonal of a square.
    Dihedral,
    /// Of a cell, as are the next two: each box of the sheet is six cells.
    Volume,
    Corotational,
    NeoHookean,
}

use Element::{Dihedral, Distance};

/// What a sheet is to be.
#[derive(Clone, Copy, Debug)]
pub struct Sheet<'a> {
    /// Several sorts of cell take turns.
    pub elements: &'a [Element],
    /// Points along a side.
    pub side: usize,
    /// At most so many rows: the last boxes stay without.
    pub rows: usize,
    /// Rows that find no colour below this are of the overflow.
    pub colours: u16,
    pub mode: u32,
    pub resweeps: u32,
    pub warm_coefficient: f32,
    pub least_strain: f32,
}

/// The points of a sheet, one layer, or two where there are cells.
struct Grid {
    side: usize,
    layers: usize,
}

impl Grid {
    fn number(&self, [i, j, layer]: [usize; 3]) -> u32 {
        ((layer * self.side + j) * self.side + i) as u32
    }

    fn at(&self, number: u32) -> [usize; 3] {
        let number = number as usize;
        let square = self.side * self.side;
        [
            number % self.side,
            number % square / self.side,
            number / square,
        ]
    }

    /// Where a point is while the sheet is flat.
    fn rest(&self, number: u32) -> Vector {
        let [i, j, layer] = self.at(number);
        Vector::new(i as Real, j as Real, layer as Real)
    }

    /// Where it is now: raised by a hill whose height is 0.15 of the side.
    fn place(&self, number: u32) -> Vector {
        let mut place = self.rest(number);
        let length = (self.side - 1) as Real;
        let (u, v) = (2.0 * place.x / length - 1.0, 2.0 * place.y / length - 1.0);
        place.z += 0.15 * length * (1.0 - u * u) * (1.0 - v * v);
        place
    }

    fn held(&self, number: u32) -> bool {
        self.at(number)[0] == 0
    }

    fn masses(&self, ids: [u32; 4]) -> [Real; 4] {
        ids.map(|id| if self.held(id) { 0.0 } else { 1.0 })
    }
}

/// The six cells of a box as steps along the axes, each of positive volume.
const CELLS: [[[usize; 3]; 4]; 6] = [
    [[0, 0, 0], [1, 0, 0], [1, 1, 0], [1, 1, 1]],
    [[0, 0, 0], [0, 1, 0], [0, 1, 1], [1, 1, 1]],
    [[0, 0, 0], [0, 0, 1], [1, 0, 1], [1, 1, 1]],
    [[0, 0, 0], [1, 0, 1], [1, 0, 0], [1, 1, 1]],
    [[0, 0, 0], [1, 1, 0], [0, 1, 0], [1, 1, 1]],
    [[0, 0, 0], [0, 1, 1], [0, 0, 1], [1, 1, 1]],
];

/// The elements of all boxes, each with the points that it names.
fn elements(asked: &Sheet, grid: &Grid) -> Vec<(Element, [u32; 4])> {
    let is_cell = |element: &Element| !matches!(element, Distance | Dihedral);
    let cells: Vec<_> = asked.elements.iter().copied().filter(is_cell).collect();
    let mut list = Vec::new();
    for square in 0..(grid.side - 1) * (grid.side - 1) {
        let [i, j] = [square % (grid.side - 1), square / (grid.side - 1)];
        let at = |step: [usize; 3]| grid.number([i + step[0], j + step[1], step[2]]);
        let [a, b, c, d] = [[0, 0, 0], [1, 0, 0], [0, 1, 0], [1, 1, 0]].map(at);
        if asked.elements.contains(&Distance) {
            list.extend([[a, b], [a, c], [a, d]].map(|[p, q]| (Distance, [p, q, p, q])));
        }
        if asked.elements.contains(&Dihedral) {
            list.push((Dihedral, [a, d, b, c]));
        }
        if !cells.is_empty() {
            let turns = (0..).map(|turn: usize| cells[turn % cells.len()]);
            list.extend(turns.zip(CELLS.map(|cell| cell.map(at))));
        }
    }
    list.truncate(asked.rows);
    list
}

/// The least colour that has none of these points yet, or the overflow.
fn colour(taken: &mut [Vec<u16>], ids: [u32; 4], colours: u16) -> u16 {
    let is_free = |colour: &u16| ids.iter().all(|&id| !taken[id as usize].contains(colour));
    let free = (0..colours).find(is_free);
    if let Some(free) = free {
        ids.iter().for_each(|&id| taken[id as usize].push(free));
    }
    free.unwrap_or(OVERFLOW)
}

/// A sheet's frame.
pub fn sheet(asked: &Sheet) -> Frame {
    let has_cells = asked
        .elements
        .iter()
        .any(|e| !matches!(e, Distance | Dihedral));
    let grid = Grid {
        side: asked.side,
        layers: if has_cells { 2 } else { 1 },
    };
    let points = grid.side * grid.side * grid.layers;
    let mut taken = vec![Vec::new(); points];
    let mut list: Vec<_> = elements(asked, &grid)
        .into_iter()
        .map(|(element, ids)| (colour(&mut taken, ids, asked.colours), element, ids))
        .collect();
    list.sort_by_key(|row| row.0);

    let mut frame = Frame::default();
    let head = [
        points as u32,
        list.len() as u32,
        asked.mode,
        asked.resweeps,
        asked.warm_coefficient.to_bits(),
        asked.least_strain.to_bits(),
    ];
    frame.push_words(&HEAD, &head);
    for number in 0..points as u32 {
        let point = Point {
            position: grid.place(number),
            velocity: match grid.held(number) {
                true => Vector::ZERO,
                false => Vector::new(0.0, 0.0, -1.0),
            },
        };
        frame.push_words(&POINT, &words_of(&point));
    }
    for (colour, element, ids) in list {
        push(&mut frame, &grid, colour.into(), element, ids);
    }
    frame
}

fn push(frame: &mut Frame, grid: &Grid, colour: u32, element: Element, ids: [u32; 4]) {
    match element {
        Element::Corotational => {
            let words = words_of(&cell(grid, colour, ids, 1, soft_corotational()));
            frame.push_words(&COROTATIONAL, &words);
        }
        Element::NeoHookean => {
            let words = words_of(&cell(grid, colour, ids, 0, soft_neo_hookean()));
            frame.push_words(&NEO_HOOKEAN, &words);
        }
        _ => {
            let words = words_of(&scalar(grid, colour, element, ids));
            frame.push_words(&SCALAR, &words);
        }
    }
}

fn scalar(grid: &Grid, colour: u32, element: Element, ids: [u32; 4]) -> ScalarRow {
    let x = ids.map(|id| grid.rest(id));
    let (kind, count, rest) = match element {
        Distance => (0, 2, (x[1] - x[0]).length()),
        // Flat: the two normals are opposite.
        Dihedral => (1, 4, std::f32::consts::PI),
        _ => (2, 4, edges(x).determinant() / 6.0),
    };
    ScalarRow {
        colour,
        kind,
        count,
        ids,
        pos: x,
        im: grid.masses(ids),
        rest,
        erp_inv_dt: 30.0,
        cfm_coeff: 0.05,
        impulse: 0.01,
        ..worked_distance(Vector::X).1
    }
}

fn edges(x: [Vector; 4]) -> Matrix {
    Matrix::from_cols(x[1] - x[0], x[2] - x[0], x[3] - x[0])
}

fn cell<M>(grid: &Grid, colour: u32, ids: [u32; 4], spare: u32, model: M) -> ElasticRow<M> {
    let x = ids.map(|id| grid.rest(id));
    let inv_rest_matrix = inverse(edges(x));
    let coeffs = SoftElasticConstraint::coefficients(&inv_rest_matrix);
    let im = grid.masses(ids);
    let block = SoftElasticConstraint::strain_block(&coeffs, &im)
        + StrainMatrix::from_diagonal(&SVector([SOFT; 6]));
    ElasticRow {
        colour,
        strained: false,
        inverted: false,
        spare,
        ids,
        pos: x,
        im,
        coeffs,
        inv_rest_matrix,
        rotation: Rotation::IDENTITY,
        rot_mat: Matrix::IDENTITY,
        inv_a: block.try_inverse().expect("a soft block has its inverse"),
        strain_cap: SVector([0.5; 6]),
        strain: SVector::zeros(),
        strain_impulse: SVector([0.001; 6]),
        vol_impulse: if spare == 0 { 0.0 } else { 0.001 },
        model,
    }
}
