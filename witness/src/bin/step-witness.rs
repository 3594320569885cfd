//! `step-witness`: runs a step script from standard input and prints the
//! answer and the unit after each of its cycles.

use std::io::{self, Read, Write};

use witness::{script, Document01};

fn main() -> io::Result<()> {
    let mut script = Vec::new();
    io::stdin().read_to_end(&mut script)?;
    // A script is text; a byte that is not makes its line a wrong one.
    let script = String::from_utf8_lossy(&script);
    io::stdout().write_all(script::run::<Document01>(&script).as_bytes())
}
