//! `generate-boards SEED DIR`: writes the board scripts of a seed, DIR/NN.txt.

use std::process::ExitCode;

use witness::generate::boards::scripts;
use witness::generate::program::write_scripts;

fn main() -> ExitCode {
    write_scripts("generate-boards", scripts)
}
