//! `generate-recorders SEED DIR`: writes the recorder scripts of a seed, DIR/NN.txt.

use std::process::ExitCode;

use witness::generate::program::write_scripts;
use witness::generate::recorders::scripts;

fn main() -> ExitCode {
    write_scripts("generate-recorders", scripts)
}
