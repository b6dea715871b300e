//! The listed files at the places where their text expects each other, over `crate::support`.
//!
//! `mod_NAME.rs` is written by build.rs and declares the module of one listed file. The modules around them say no more than the
//! crate's own `mod.rs` files do: what is declared, and what of it is in sight.

pub(crate) mod math {
    pub(crate) use crate::support::real::{Real, acos, max};
    pub(crate) use crate::support::vector::{DIM, Matrix, Rotation, Vector};
}

pub(crate) mod glamx {
    pub(crate) use crate::support::vector::MatExt;
}

pub(crate) mod utils {
    pub(crate) use crate::support::vector::{
        AngularInertiaOps, ComponentMul, DotProduct, RotationOps,
    };
    pub(crate) use inv::inv;
    include!(concat!(env!("OUT_DIR"), "/mod_inv.rs"));
}

pub(crate) mod dynamics {
    pub(crate) use soft_body::SoftBody;

    pub(crate) mod soft_body {
        pub(crate) use crate::support::bodies::SoftBody;
        include!(concat!(env!("OUT_DIR"), "/mod_soft_body_geometry.rs"));
        include!(concat!(env!("OUT_DIR"), "/mod_soft_body_shape_matching.rs"));
    }

    pub(crate) mod solver {
        pub(crate) mod solver_body {
            pub(crate) use crate::support::bodies::SolverBodies;
        }

        pub(crate) mod soft_element_constraint {
            pub(crate) use crate::support::na;
            pub(crate) use soft_elastic_constraint::*;
            pub(crate) use soft_element_linalg::*;
            pub(crate) use soft_neo_hookean::*;
            pub(crate) use soft_scalar_constraint::*;
            include!(concat!(env!("OUT_DIR"), "/mod_soft_elastic_constraint.rs"));
            include!(concat!(env!("OUT_DIR"), "/mod_soft_element_linalg.rs"));
            include!(concat!(env!("OUT_DIR"), "/mod_soft_neo_hookean.rs"));
            include!(concat!(env!("OUT_DIR"), "/mod_soft_scalar_constraint.rs"));

            /// Calls of functions that are in sight here alone (`pub(super)`).
            pub(crate) mod reach {
                use super::*;
                use crate::math::{Matrix, Real};

                pub(crate) fn compute_gradients(row: &mut SoftScalarConstraint) -> Real {
                    row.compute_gradients()
                }

                pub(crate) fn strain_block_from_g(g: &Matrix) -> StrainMatrix {
                    NeoHookeanConstraint::strain_block_from_g(g)
                }
            }
        }

        pub(crate) mod soft_constraints_set {
            pub(crate) use crate::support::bodies::SoftConstraintsSet;
            pub(crate) use layout::soft_constraints_set::{SoftColorRange, SoftGroupLayout};
            include!(concat!(env!("OUT_DIR"), "/mod_soft_constraint_solve.rs"));

            mod layout {
                include!(concat!(env!("OUT_DIR"), "/mod_soft_constraints_set.rs"));
            }
        }
    }
}
