//! Writes the sample frames to a folder, and what a run leaves of them to its folder `after`: `samples [DIR]` (../samples).

use oracle::samples::samples;
use std::path::PathBuf;
use std::{env, fs, io};

fn main() -> io::Result<()> {
    let folder = PathBuf::from(env::args().nth(1).unwrap_or("../samples".into()));
    fs::create_dir_all(folder.join("after"))?;
    for sample in samples() {
        let name = format!("{}.frame", sample.name);
        fs::write(folder.join(&name), &sample.frame.bytes)?;
        let (after, bytes) = sample.after();
        fs::write(folder.join("after").join(&after), bytes)?;
        println!("{name}, after/{after}");
    }
    Ok(())
}
