//! Takes the listed Rust from where it lies, leaves out whole items by name, makes the named edits, and writes what is
//! left to OUT_DIR, where `src/listed.rs` finds it. Nothing else of the text is touched, and nothing of it is kept in the repository.
//!
//! `FILES` is the whole list of what is left out and edited; the build stops if an entry does not match the text as it stands.

use std::env;
use std::fmt::Write as _;
use std::fs;
use std::path::{Path, PathBuf};

/// Which items of a listed file are compiled.
enum Items {
    /// All but these. An item inside an `impl` is named `impl NAME::fn NAME`.
    AllBut(&'static [&'static str]),
    /// These alone.
    Only(&'static [&'static str]),
}

/// A text that stands exactly once in what is compiled of a file, and what takes its place.
struct Edit {
    old: &'static str,
    new: &'static str,
    why: &'static str,
}

/// One listed file.
struct Listed {
    /// The name of its module here.
    module: &'static str,
    path: &'static str,
    items: Items,
    edits: &'static [Edit],
}

const MAX: &str = "max is set by document 01; the receiver is its first argument";
const ACOS: &str = "acos is set by document 01";

/// What is taken. Code under `cfg(feature = "dim2")`, `cfg(feature = "fem")` and `cfg(not(feature = "std"))` is left out by the
/// compiler, since only `dim3` and `std` are set (see `main`).
const FILES: &[Listed] = &[
    Listed {
        module: "soft_scalar_constraint",
        path: "src/dynamics/solver/soft_constraint/soft_element_constraint/soft_scalar_constraint.rs",
        items: Items::AllBut(&[]),
        edits: &[Edit {
            old: "d.acos()",
            new: "crate::math::acos(d)",
            why: ACOS,
        }],
    },
    Listed {
        module: "soft_neo_hookean",
        path: "src/dynamics/solver/soft_constraint/soft_element_constraint/soft_neo_hookean.rs",
        items: Items::AllBut(&[]),
        edits: &[
            Edit {
                old: "nu[k].max(2.0 * mu",
                new: "crate::math::max(nu[k], 2.0 * mu",
                why: MAX,
            },
            Edit {
                old: "(mu - kappa * others(*a, *b)).max(2.0 * mu)",
                new: "crate::math::max(mu - kappa * others(*a, *b), 2.0 * mu)",
                why: MAX,
            },
        ],
    },
    Listed {
        module: "soft_elastic_constraint",
        path: "src/dynamics/solver/soft_constraint/soft_element_constraint/soft_elastic_constraint.rs",
        // The Cholesky inverse of nalgebra, which document 01 does not set: it is called where rows are made.
        items: Items::AllBut(&["impl SoftElasticConstraint::fn invert_block"]),
        edits: &[
            Edit {
                old: "|cap| cap.max(1.0)",
                new: "|cap| crate::math::max(cap, 1.0)",
                why: MAX,
            },
            Edit {
                old: "c.vol_cap.max(1.0)",
                new: "crate::math::max(c.vol_cap, 1.0)",
                why: MAX,
            },
        ],
    },
    Listed {
        module: "soft_element_linalg",
        path: "src/dynamics/solver/soft_constraint/soft_element_constraint/soft_element_linalg.rs",
        // glamx's closed form of the eigenvalues; document 01 omits it.
        items: Items::AllBut(&["fn max_symmetric_eigenvalue"]),
        edits: &[],
    },
    Listed {
        module: "soft_body_shape_matching",
        path: "src/dynamics/soft_body/soft_body_shape_matching.rs",
        items: Items::AllBut(&[]),
        edits: &[],
    },
    Listed {
        module: "soft_body_geometry",
        path: "src/dynamics/soft_body/soft_body_geometry.rs",
        // It reads fields of a whole soft body.
        items: Items::AllBut(&["impl SoftBody::fn update_orientation"]),
        edits: &[],
    },
    Listed {
        module: "soft_constraint_solve",
        path: "src/dynamics/solver/soft_constraint/soft_constraints_set/soft_constraint_solve.rs",
        // Volume pieces, overlaps, shape matching and attachments: rows that are no part of a frame.
        items: Items::AllBut(&[
            "impl SoftConstraintsSet::fn solve_volume_constraint",
            "impl SoftConstraintsSet::fn warmstart_overlap_constraint",
            "impl SoftConstraintsSet::fn solve_overlap_constraint",
            "impl SoftConstraintsSet::fn solve_shape_constraint",
            "impl SoftConstraintsSet::fn solve_attachments",
        ]),
        edits: &[Edit {
            old: "constraint.peak_impulse.max(constraint.impulse)",
            new: "crate::math::max(constraint.peak_impulse, constraint.impulse)",
            why: MAX,
        }],
    },
    Listed {
        module: "soft_constraints_set",
        path: "src/dynamics/solver/soft_constraint/soft_constraints_set/soft_constraints_set.rs",
        // How the rows of a color and of a group lie; the set itself, with five of its fields, is in src/support.
        items: Items::Only(&[
            "use core::ops::Range",
            "struct SoftColorRange",
            "impl SoftColorRange",
            "struct SoftGroupLayout",
        ]),
        edits: &[],
    },
    Listed {
        module: "inv",
        path: "src/utils/mod.rs",
        items: Items::Only(&["use crate::math", "const INV_EPSILON", "fn inv"]),
        edits: &[],
    },
];

/// Methods of f32 that document 01 sets otherwise, or that would fuse or round in a way of their own: none may be left.
const FORBIDDEN: &[&str] = &[
    ".acos(",
    ".max(",
    ".min(",
    ".mul_add(",
    ".powi(",
    ".powf(",
    ".sin(",
    ".cos(",
    ".sin_cos(",
    ".hypot(",
    ".recip(",
];

fn main() {
    println!("cargo::rerun-if-env-changed=RAPIER_SRC");
    println!("cargo::rustc-cfg=feature=\"dim3\"");
    println!("cargo::rustc-cfg=feature=\"std\"");
    println!("cargo::rustc-check-cfg=cfg(feature, values(\"dim2\", \"dim3\", \"fem\", \"std\"))");
    let package = PathBuf::from(env::var("CARGO_MANIFEST_DIR").unwrap());
    let out = PathBuf::from(env::var("OUT_DIR").unwrap());
    let source = match env::var("RAPIER_SRC") {
        Ok(place) => package.join(place),
        Err(_) => package.join("../../shared/docs/src"),
    };
    let mut taken = String::new();
    for file in FILES {
        let text = take(file, &source, &mut taken);
        let place = out.join(format!("{}.rs", file.module));
        fs::write(&place, text).unwrap();
        // `#[path]` wants a literal, so each module is declared by a file of its own.
        let declaration = format!(
            "#[path = {place:?}]\n#[allow(clippy::all, dead_code, unused_imports)]\npub(crate) mod {};\n",
            file.module
        );
        fs::write(out.join(format!("mod_{}.rs", file.module)), declaration).unwrap();
    }
    fs::write(out.join("taken.txt"), taken).unwrap();
    let has = |feature: &str| env::var(format!("CARGO_FEATURE_{feature}")).is_ok();
    let mut libraries = Vec::new();
    if has("RATTLE") {
        libraries.extend(["arith_ffi", "rows_ffi"]);
    }
    if has("RUN") {
        libraries.push("run");
    }
    link(&package, &libraries);
}

/// The static libraries of the Rattle crates that are exported, from `RATTLE_LIB`.
fn link(package: &Path, names: &[&str]) {
    println!("cargo::rerun-if-env-changed=RATTLE_LIB");
    let place = package.join(env::var("RATTLE_LIB").unwrap_or("../target/staticlib".into()));
    println!("cargo::rustc-link-search=native={}", place.display());
    for name in names {
        let library = place.join(format!("lib{name}.a"));
        assert!(
            library.exists(),
            "{}: not there; `tools/staticlib {name}`, in the repository, makes it",
            library.display()
        );
        println!("cargo::rerun-if-changed={}", library.display());
        println!("cargo::rustc-link-lib=static={name}");
    }
}

/// The text of one file with its items left out and its edits made; what was done is added to `taken`.
fn take(file: &Listed, source: &Path, taken: &mut String) -> String {
    let place = source.join(file.path);
    println!("cargo::rerun-if-changed={}", place.display());
    let mut text = fs::read_to_string(&place).unwrap_or_else(|error| {
        panic!(
            "{}: {error}. RAPIER_SRC says where the listed Rust lies.",
            place.display()
        )
    });
    writeln!(taken, "file {}", file.path).unwrap();
    match file.items {
        Items::AllBut(names) => {
            for name in names {
                text = without(&text, name, file.path);
                writeln!(taken, "  left out: {name}").unwrap();
            }
        }
        Items::Only(names) => {
            text = only(&text, names, file.path);
            for name in names {
                writeln!(taken, "  the only items taken: {name}").unwrap();
            }
        }
    }
    for edit in file.edits {
        let found = text.matches(edit.old).count();
        assert!(
            found == 1,
            "{}: `{}` stands there {found} times, not once",
            file.path,
            edit.old
        );
        text = text.replace(edit.old, edit.new);
        writeln!(
            taken,
            "  edited: `{}` to `{}` ({})",
            edit.old, edit.new, edit.why
        )
        .unwrap();
    }
    for call in FORBIDDEN {
        assert!(
            !text.contains(call),
            "{}: `{call}` is left in what is compiled",
            file.path
        );
    }
    text
}

/// The text without the one item of that name.
fn without(text: &str, name: &str, path: &str) -> String {
    let (start, end) = find(text, name, path);
    format!("{}{}", &text[..start], &text[end..])
}

/// The items of these names alone, in the text's order.
fn only(text: &str, names: &[&str], path: &str) -> String {
    let mut spans: Vec<_> = names.iter().map(|name| find(text, name, path)).collect();
    spans.sort_unstable();
    spans
        .iter()
        .map(|&(start, end)| &text[start..end])
        .collect()
}

/// Where the one item of that name lies, its comments and attributes included.
fn find(text: &str, name: &str, path: &str) -> (usize, usize) {
    let (outer, inner) = match name.split_once("::fn ") {
        Some((outer, _)) => (outer, Some(&name[outer.len() + 2..])),
        None => (name, None),
    };
    let (start, end) = named(text, 0, text.len(), outer, path);
    let Some(inner) = inner else {
        return (start, end);
    };
    let open = start + open_brace(&text[start..end]);
    named(text, open + 1, end - 1, inner, path)
}

/// The one item of that name among those of `text[from..to]`.
fn named(text: &str, from: usize, to: usize, name: &str, path: &str) -> (usize, usize) {
    let found: Vec<_> = items(text, from, to)
        .into_iter()
        .filter(|&(start, end)| head(&text[start..end]) == name)
        .collect();
    assert!(
        found.len() == 1,
        "{path}: {} items are named `{name}`, not one",
        found.len()
    );
    found[0]
}

/// An item's keyword and name: its first words after comments, attributes and visibility.
fn head(item: &str) -> String {
    let mut rest = item.trim_start();
    loop {
        if rest.starts_with("//") {
            rest = rest.split_once('\n').map_or("", |(_, rest)| rest);
        } else if rest.starts_with("#[") {
            rest = &rest[closing(rest, 1) + 1..];
        } else if rest.starts_with("pub(") {
            rest = &rest[closing(rest, 3) + 1..];
        } else if rest.starts_with("pub ") {
            rest = &rest[4..];
        } else {
            break;
        }
        rest = rest.trim_start();
    }
    let is_use = rest.starts_with("use ");
    let end = rest
        .find(|c| matches!(c, '(' | '{' | '<' | ';' | '=') || (c == ':' && !is_use))
        .unwrap_or(rest.len());
    rest[..end].trim_end_matches(':').trim().to_string()
}

/// The items of `text[from..to]`, one after another: each ends with its `;` or its last brace.
fn items(text: &str, from: usize, to: usize) -> Vec<(usize, usize)> {
    let mut found = Vec::new();
    let mut start = from;
    let mut depth = 0usize;
    let mut at = from;
    while at < to {
        let (end, token) = token(text, at);
        at = end;
        match token {
            '(' | '[' | '{' => depth += 1,
            ')' | ']' | '}' => depth -= 1,
            _ => {}
        }
        let last = (token == '}' && !text[end..].trim_start().starts_with(';')) || token == ';';
        if depth == 0 && last {
            found.push((start, end));
            start = end;
        }
    }
    found
}

/// The place of the bracket that closes the one at `open`.
fn closing(text: &str, open: usize) -> usize {
    let mut depth = 0usize;
    let mut at = open;
    loop {
        let (end, token) = token(text, at);
        match token {
            '(' | '[' | '{' => depth += 1,
            ')' | ']' | '}' => depth -= 1,
            _ => {}
        }
        if depth == 0 {
            return end - 1;
        }
        at = end;
    }
}

/// The place of the first brace that is not in a comment or a string.
fn open_brace(text: &str) -> usize {
    let mut at = 0;
    loop {
        let (end, token) = token(text, at);
        if token == '{' {
            return end - 1;
        }
        at = end;
    }
}

/// The end of the token at `at`, and the token where it is one character that counts; comments, strings and characters are skipped whole.
fn token(text: &str, at: usize) -> (usize, char) {
    let rest = &text[at..];
    let first = rest.chars().next().expect("the text ends inside an item");
    if rest.starts_with("//") {
        return (at + rest.find('\n').unwrap_or(rest.len()), ' ');
    }
    assert!(!rest.starts_with("/*"), "block comments are not looked for");
    if first == '"' {
        let mut escaped = false;
        for (place, c) in rest.char_indices().skip(1) {
            match c {
                '\\' if !escaped => escaped = true,
                '"' if !escaped => return (at + place + 1, ' '),
                _ => escaped = false,
            }
        }
        panic!("a string without its end");
    }
    // A character, as opposed to a lifetime.
    if first == '\'' && rest.chars().nth(2) == Some('\'') {
        return (
            at + rest.char_indices().nth(3).map_or(rest.len(), |p| p.0),
            ' ',
        );
    }
    (at + first.len_utf8(), first)
}
