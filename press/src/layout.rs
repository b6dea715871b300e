//! The records of a frame, field by field, to give names to places. docs/FORMAT.md has the same with every offset.

/// A record starts with its length, four bytes, and its kind, two.
pub const START: usize = 6;
/// At most so many points, and at most so many rows.
pub const MOST: usize = 4096;
/// The colour of rows that may share points.
pub const OVERFLOW: u16 = 65535;
/// No accepted frame is longer, and what follows so many bytes of a longer one makes no difference: it is refused in them, or
/// right after them.
pub const LONGEST: usize = HEAD.size() + MOST * POINT.size() + MOST * NEO_HOOKEAN.size();

/// What a field holds.
#[derive(Clone, Copy, PartialEq, Eq, Debug)]
pub enum Holds {
    /// A u32 of at most this.
    Count32(u32),
    /// A u16 of at most this.
    Count16(u16),
    /// A u16: these values, from 0 on, with these meanings.
    Code(&'static [&'static str]),
    /// A u16 that is not less than the previous row's.
    Colour,
    /// A u32.
    Id,
    /// A finite f32.
    Float,
    /// A finite f32, not below 0.
    Cap,
    /// An f32 that may be infinite; the lower one, and the upper one after it.
    Bound,
}

/// How many parts a field has, and how they are called.
#[derive(Clone, Copy, PartialEq, Eq, Debug)]
pub enum Shape {
    One,
    /// One for each of a row's four places.
    Four,
    /// x, y, z.
    Vector,
    /// x, y, z for each of a row's four places.
    Vectors,
    /// x, y, z, w.
    Rotation,
    /// Three columns of three.
    Matrix,
    /// One for each strain row: xx, yy, zz, xy, xz, yz.
    Six,
    /// Six columns of six.
    SixBySix,
}

/// A field.
#[derive(Clone, Copy, Debug)]
pub struct Field {
    pub name: &'static str,
    pub holds: Holds,
    pub shape: Shape,
}

/// A kind of record.
#[derive(Debug)]
pub struct Record {
    pub name: &'static str,
    pub kind: u16,
    /// Of what follows the length itself.
    pub length: u32,
    pub fields: &'static [&'static [Field]],
}

/// A part of a field.
#[derive(Clone, Copy, Debug)]
pub struct Part {
    pub field: &'static Field,
    pub index: usize,
}

impl Holds {
    const fn width(self) -> usize {
        match self {
            Holds::Count16(_) | Holds::Code(_) | Holds::Colour => 2,
            _ => 4,
        }
    }
}

impl Shape {
    const fn parts(self) -> usize {
        match self {
            Shape::One => 1,
            Shape::Vector => 3,
            Shape::Four | Shape::Rotation => 4,
            Shape::Six => 6,
            Shape::Matrix => 9,
            Shape::Vectors => 12,
            Shape::SixBySix => 36,
        }
    }
}

impl Part {
    /// What the part is called: `rest`, `position.y`, `pos[2].x`, `im[1]`, `inv_a[row 3, column 0]`.
    pub fn name(&self) -> String {
        let (name, index) = (self.field.name, self.index);
        let axis = |index: usize| ["x", "y", "z", "w"][index];
        match self.field.shape {
            Shape::One => name.into(),
            Shape::Four | Shape::Six => format!("{name}[{index}]"),
            Shape::Vector | Shape::Rotation => format!("{name}.{}", axis(index)),
            Shape::Vectors => format!("{name}[{}].{}", index / 3, axis(index % 3)),
            Shape::Matrix => format!("{name}[row {}, column {}]", index % 3, index / 3),
            Shape::SixBySix => format!("{name}[row {}, column {}]", index % 6, index / 6),
        }
    }
}

impl Record {
    /// The bytes of a whole record.
    pub const fn size(&self) -> usize {
        4 + self.length as usize
    }

    /// The parts of all fields, each with its offset in the record.
    pub fn parts(&self) -> impl Iterator<Item = (usize, Part)> + use<> {
        let fields = self.fields.iter().copied().flatten();
        let parts = fields
            .flat_map(|field| (0..field.shape.parts()).map(move |index| Part { field, index }));
        parts.scan(START, |offset, part| {
            let at = *offset;
            *offset += part.field.holds.width();
            Some((at, part))
        })
    }

    /// Where a field's first part lies in the record.
    pub fn offset(&self, name: &str) -> Option<usize> {
        let mut parts = self.parts();
        parts
            .find(|(_, part)| part.field.name == name)
            .map(|(at, _)| at)
    }
}

const fn field(name: &'static str, holds: Holds, shape: Shape) -> Field {
    Field { name, holds, shape }
}

use Holds::{Bound, Cap, Code, Colour, Count16, Count32, Float, Id};
use Shape::{Four, Matrix, One, Rotation, Six, SixBySix, Vector, Vectors};

pub static HEAD: Record = Record {
    name: "head",
    kind: 1,
    length: 22,
    fields: &[&[
        field("points", Count32(MOST as u32), One),
        field("rows", Count32(MOST as u32), One),
        field(
            "mode",
            Code(&["solve", "update", "warm start", "update and warm start"]),
            One,
        ),
        field("resweeps", Count16(64), One),
        field("warm coefficient", Float, One),
        field("least strain", Float, One),
    ]],
};

pub static POINT: Record = Record {
    name: "point",
    kind: 2,
    length: 26,
    fields: &[&[
        field("position", Float, Vector),
        field("velocity", Float, Vector),
    ]],
};

/// The types of a scalar row.
pub const TYPES: &[&str] = &["distance", "dihedral", "cell volume"];

pub static SCALAR: Record = Record {
    name: "scalar",
    kind: 3,
    length: 178,
    fields: &[&[
        field("colour", Colour, One),
        field("strained", Code(&["no", "yes"]), One),
        field("type", Code(TYPES), One),
        field("count", Count16(4), One),
        field("ids", Id, Four),
        field("pos", Float, Vectors),
        field("im", Float, Four),
        field("grad", Float, Vectors),
        field("rest", Float, One),
        field("erp_inv_dt", Float, One),
        field("cfm_coeff", Float, One),
        field("inv_lhs", Float, One),
        field("cfm_gain", Float, One),
        field("rhs", Float, One),
        field("impulse", Float, One),
        field("peak_impulse", Float, One),
        field("lower impulse bound", Bound, One),
        field("upper impulse bound", Bound, One),
    ]],
};

static ELASTIC_CODES: [Field; 3] = [
    field("colour", Colour, One),
    field("strained", Code(&["no", "yes"]), One),
    field("inverted", Code(&["no", "yes"]), One),
];

static ELASTIC: [Field; 12] = [
    field("ids", Id, Four),
    field("pos", Float, Vectors),
    field("im", Float, Four),
    field("coeffs", Float, Vectors),
    field("inv_rest_matrix", Float, Matrix),
    field("rotation", Float, Rotation),
    field("rot_mat", Float, Matrix),
    field("inv_a", Float, SixBySix),
    field("strain_cap", Cap, Six),
    field("strain", Float, Six),
    field("strain_impulse", Float, Six),
    field("vol_impulse", Float, One),
];

pub static COROTATIONAL: Record = Record {
    name: "corotational",
    kind: 4,
    length: 614,
    fields: &[
        &ELASTIC_CODES,
        &[field("volumetric", Code(&["no", "yes"]), One)],
        &ELASTIC,
        &[
            field("erp_strain", Float, Six),
            field("cfm_strain", Float, Six),
            field("erp_vol", Float, One),
            field("cfm_coeff_vol", Float, One),
            field("vol_cap", Cap, One),
            field("grad_vol", Float, Vectors),
            field("cfm_gain_vol", Float, One),
            field("rhs_vol", Float, One),
            field("b", Float, Six),
            field("z", Float, Six),
            field("inv_s", Float, One),
        ],
    ],
};

pub static NEO_HOOKEAN: Record = Record {
    name: "neo-Hookean",
    kind: 5,
    length: 674,
    fields: &[
        &ELASTIC_CODES,
        &[field("the u16 after inverted", Code(&["always"]), One)],
        &ELASTIC,
        &[
            field("dt", Float, One),
            field("mu", Float, One),
            field("lambda", Float, One),
            field("damping", Float, Six),
            field("stiffness_strain", Float, Six),
            field("m", Float, SixBySix),
            field("dt_grad", Float, Six),
        ],
    ],
};

/// The kinds of row.
pub static ROWS: [&Record; 3] = [&SCALAR, &COROTATIONAL, &NEO_HOOKEAN];

/// The number of two bytes at a place, if they are there.
pub fn u16_at(bytes: &[u8], at: usize) -> Option<u16> {
    Some(u16::from_le_bytes(bytes.get(at..at + 2)?.try_into().ok()?))
}

/// The number of four bytes at a place, if they are there.
pub fn u32_at(bytes: &[u8], at: usize) -> Option<u32> {
    Some(u32::from_le_bytes(bytes.get(at..at + 4)?.try_into().ok()?))
}

#[cfg(test)]
mod tests {
    use super::*;

    #[test]
    fn fields_fill_their_records() {
        for record in [&HEAD, &POINT, &SCALAR, &COROTATIONAL, &NEO_HOOKEAN] {
            let (at, part) = record.parts().last().expect("a record has parts");
            assert_eq!(at + part.field.holds.width(), record.size());
        }
    }

    #[test]
    fn parts_have_names() {
        let name = |record: &Record, at| {
            let mut parts = record.parts();
            parts.find(|part| part.0 == at).map(|(_, part)| part.name())
        };
        assert_eq!(name(&POINT, 22).as_deref(), Some("velocity.y"));
        assert_eq!(name(&SCALAR, 30 + 7 * 4).as_deref(), Some("pos[2].y"));
        assert_eq!(name(&SCALAR, 174).as_deref(), Some("lower impulse bound"));
        assert_eq!(name(&COROTATIONAL, 14), Some("ids[0]".into()));
        assert_eq!(
            name(&COROTATIONAL, 230 + 4 * 8).as_deref(),
            Some("inv_a[row 2, column 1]")
        );
        assert_eq!(name(&COROTATIONAL, 15), None);
    }
}
