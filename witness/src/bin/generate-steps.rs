//! `generate-steps SEED DIR`: writes the step scripts of a seed, DIR/NN.txt.

use std::process::ExitCode;

use witness::generate::program::write_scripts;
use witness::generate::steps::scripts;

fn main() -> ExitCode {
    write_scripts("generate-steps", scripts)
}
