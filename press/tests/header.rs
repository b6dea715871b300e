//! The C header, compiled and linked as a C program does it.

mod common;

use common::{SAMPLES, bytes, folder, sample};
use std::fs::File;
use std::process::{Command, Output};

#[test]
fn a_program_in_c() {
    let package = env!("CARGO_MANIFEST_DIR");
    let program = folder("header").join("header");
    let compiled = Command::new("cc")
        .args(["-std=c99", "-Wall", "-Wextra", "-Werror", "-O1", "-I"])
        .arg(format!("{package}/include"))
        .arg(format!("{package}/tests/header.c"))
        .arg(env!("PRESS_LIBRARY"))
        .args(["-lm", "-o"])
        .arg(&program)
        .output()
        .expect("a C compiler");
    assert!(
        compiled.status.success(),
        "{}",
        String::from_utf8_lossy(&compiled.stderr)
    );
    let ran = |name: &str| -> Output {
        let file = File::open(sample(name)).expect("a sample");
        Command::new(&program)
            .stdin(file)
            .output()
            .expect("the program")
    };
    for name in SAMPLES {
        let output = ran(&format!("{name}.frame"));
        assert!(output.status.success(), "{name}");
        assert!(
            output.stdout == bytes(&format!("after/{name}.frame")),
            "{name}"
        );
    }
    let refused = ran("refused.frame");
    assert_eq!(refused.status.code(), Some(1));
    assert_eq!(refused.stdout, bytes("after/refused.txt"));
}
