//! `recorder-witness`: runs a recorder script from standard input and prints what
//! each call of the writer gives and changes.

use std::io::{self, Read, Write};

use witness::{recorder_script, Document01};

fn main() -> io::Result<()> {
    let mut script = Vec::new();
    io::stdin().read_to_end(&mut script)?;
    io::stdout().write_all(&recorder_script::run::<Document01>(&script))
}
