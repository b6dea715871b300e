//! Document 01's section "The frame", as tables: the five kinds of record, field by field.

/// A record starts with a length of four bytes and a kind of two.
pub const START: usize = 6;
/// At most so many points, and at most so many rows.
pub const MOST: u32 = 4096;
/// The colour of rows that may share points.
pub const OVERFLOW: u16 = 65535;

/// What each part of a field holds; this decides which tests it has to pass.
#[derive(Clone, Copy, PartialEq, Eq, Debug)]
pub enum Holds {
    /// A u32 of at most this.
    Count32(u32),
    /// A u16 of at most this.
    Count16(u16),
    /// A u16 from 0 to this.
    Code(u16),
    /// A u16, not less than the previous row's.
    Colour,
    /// A u32, never tested by itself.
    Id,
    /// A finite f32.
    Float,
    /// A finite f32 that is not below 0.
    Cap,
    /// An f32 that is no NaN, nor above the upper bound, which follows it.
    LowerBound,
    /// An f32 that is no NaN.
    UpperBound,
}

use Holds::{Cap, Code, Colour, Count16, Count32, Float, Id, LowerBound, UpperBound};

impl Holds {
    /// How many bytes a part takes.
    pub const fn width(self) -> usize {
        match self {
            Count16(_) | Code(_) | Colour => 2,
            Count32(_) | Id | Float | Cap | LowerBound | UpperBound => 4,
        }
    }

    /// The numbers of document 01's table that can be given at such a part.
    pub const fn numbers(self) -> &'static [u32] {
        match self {
            Count32(_) | Count16(_) => &[3],
            Code(_) => &[4],
            Float | UpperBound => &[5],
            Cap | LowerBound => &[5, 6],
            Colour => &[7],
            Id => &[],
        }
    }
}

/// A field: so many parts alike, one after another.
#[derive(Debug)]
pub struct Field {
    pub name: &'static str,
    pub holds: Holds,
    pub parts: usize,
}

/// A kind of record.
#[derive(Debug)]
pub struct Record {
    pub name: &'static str,
    pub kind: u16,
    /// Of what follows the length's own four bytes.
    pub length: u32,
    /// In order, in lists so that kinds 4 and 5 can have one in common.
    pub fields: &'static [&'static [Field]],
}

/// One part of a field, and where it lies.
#[derive(Clone, Copy, Debug)]
pub struct Part {
    pub field: &'static Field,
    pub index: usize,
    /// Counted from the record's start.
    pub offset: usize,
}

impl Record {
    /// The bytes of a whole record.
    pub const fn size(&self) -> usize {
        4 + self.length as usize
    }

    /// The parts of all fields, in order.
    pub fn parts(&self) -> impl Iterator<Item = Part> + use<> {
        let each = |field: &'static Field| (0..field.parts).map(move |index| (field, index));
        let fields = self.fields.iter().copied().flatten();
        fields.flat_map(each).scan(START, |offset, (field, index)| {
            let part = Part {
                field,
                index,
                offset: *offset,
            };
            *offset += field.holds.width();
            Some(part)
        })
    }

    /// Where a field's first part lies, counted from the record's start.
    pub fn offset(&self, name: &str) -> usize {
        let mut parts = self.parts();
        let part = parts.find(|part| part.field.name == name);
        part.expect("a field of this record").offset
    }
}

const fn field(name: &'static str, holds: Holds, parts: usize) -> Field {
    Field { name, holds, parts }
}

pub static HEAD: Record = Record {
    name: "head",
    kind: 1,
    length: 22,
    fields: &[&[
        field("points", Count32(MOST), 1),
        field("rows", Count32(MOST), 1),
        field("mode", Code(3), 1),
        field("resweeps", Count16(64), 1),
        field("warm coefficient", Float, 1),
        field("least strain", Float, 1),
    ]],
};

pub static POINT: Record = Record {
    name: "point",
    kind: 2,
    length: 26,
    fields: &[&[field("position", Float, 3), field("velocity", Float, 3)]],
};

pub static SCALAR: Record = Record {
    name: "scalar",
    kind: 3,
    length: 178,
    fields: &[&[
        field("colour", Colour, 1),
        field("strained", Code(1), 1),
        field("type", Code(2), 1),
        field("count", Count16(4), 1),
        field("ids", Id, 4),
        field("pos", Float, 12),
        field("im", Float, 4),
        field("grad", Float, 12),
        field("rest", Float, 1),
        field("erp_inv_dt", Float, 1),
        field("cfm_coeff", Float, 1),
        field("inv_lhs", Float, 1),
        field("cfm_gain", Float, 1),
        field("rhs", Float, 1),
        field("impulse", Float, 1),
        field("peak_impulse", Float, 1),
        field("lower bound", LowerBound, 1),
        field("upper bound", UpperBound, 1),
    ]],
};

static ELASTIC_CODES: [Field; 3] = [
    field("colour", Colour, 1),
    field("strained", Code(1), 1),
    field("inverted", Code(1), 1),
];

static ELASTIC: [Field; 12] = [
    field("ids", Id, 4),
    field("pos", Float, 12),
    field("im", Float, 4),
    field("coeffs", Float, 12),
    field("inv_rest_matrix", Float, 9),
    field("rotation", Float, 4),
    field("rot_mat", Float, 9),
    field("inv_a", Float, 36),
    field("strain_cap", Cap, 6),
    field("strain", Float, 6),
    field("strain_impulse", Float, 6),
    field("vol_impulse", Float, 1),
];

pub static COROTATIONAL: Record = Record {
    name: "corotational",
    kind: 4,
    length: 614,
    fields: &[
        &ELASTIC_CODES,
        &[field("volumetric", Code(1), 1)],
        &ELASTIC,
        &[
            field("erp_strain", Float, 6),
            field("cfm_strain", Float, 6),
            field("erp_vol", Float, 1),
            field("cfm_coeff_vol", Float, 1),
            field("vol_cap", Cap, 1),
            field("grad_vol", Float, 12),
            field("cfm_gain_vol", Float, 1),
            field("rhs_vol", Float, 1),
            field("b", Float, 6),
            field("z", Float, 6),
            field("inv_s", Float, 1),
        ],
    ],
};

pub static NEO_HOOKEAN: Record = Record {
    name: "neo-Hookean",
    kind: 5,
    length: 674,
    fields: &[
        &ELASTIC_CODES,
        &[field("zero", Code(0), 1)],
        &ELASTIC,
        &[
            field("dt", Float, 1),
            field("mu", Float, 1),
            field("lambda", Float, 1),
            field("damping", Float, 6),
            field("stiffness_strain", Float, 6),
            field("m", Float, 36),
            field("dt_grad", Float, 6),
        ],
    ],
};

/// All kinds of record.
pub static RECORDS: [&Record; 5] = [&HEAD, &POINT, &SCALAR, &COROTATIONAL, &NEO_HOOKEAN];
/// The kinds of row.
pub static ROWS: [&Record; 3] = [&SCALAR, &COROTATIONAL, &NEO_HOOKEAN];

#[cfg(test)]
mod tests {
    use super::*;

    #[test]
    fn fields_fill_their_records() {
        for record in RECORDS {
            let last = record.parts().last().expect("a record has parts");
            assert_eq!(last.offset + last.field.holds.width(), record.size());
        }
    }
}
