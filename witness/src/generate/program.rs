//! What the programs `NAME SEED DIR` have in common, which write the scripts of a
//! seed, DIR/NN.txt.

use std::fs;
use std::io;
use std::path::Path;
use std::process::ExitCode;

/// The whole program of this name, from its arguments on.
pub fn write_scripts<S>(name: &str, scripts: impl FnOnce(u64) -> S) -> ExitCode
where
    S: Iterator<Item = String>,
{
    let arguments: Vec<String> = std::env::args().skip(1).collect();
    let [seed, directory] = arguments.as_slice() else {
        return usage(name);
    };
    let Ok(seed) = seed.parse() else {
        return usage(name);
    };
    match write_all(scripts(seed), Path::new(directory)) {
        Ok(()) => ExitCode::SUCCESS,
        Err(error) => {
            eprintln!("{name}: {error}");
            ExitCode::FAILURE
        }
    }
}

fn usage(name: &str) -> ExitCode {
    eprintln!("usage: {name} SEED DIR");
    ExitCode::from(2)
}

fn write_all(scripts: impl Iterator<Item = String>, directory: &Path) -> io::Result<()> {
    fs::create_dir_all(directory)?;
    for (number, script) in scripts.enumerate() {
        fs::write(directory.join(format!("{number:02}.txt")), script)?;
    }
    Ok(())
}
