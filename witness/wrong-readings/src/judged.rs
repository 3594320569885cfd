//! What tells a wrong reading from the right one: captures and cases of step,
//! board and recorder scripts on which it prints something else.

use std::fmt;

use witness::generate::{boards, file, recorders, steps, CASES, COMPARED, SCRIPTS};
use witness::text::Text;
use witness::{board_script, recorder_script, script, Document01};

use crate::wrong::{Play, Prints, Wrong};

/// Captures of a seed, of which the first are compared.
pub const CAPTURES: usize = 900;

/// A capture or case with its right text.
struct Trial<S, T> {
    given: S,
    right: T,
}

impl<S, T> Trial<S, T> {
    fn all(given: impl Iterator<Item = S>, right: impl Fn(&S) -> T) -> Vec<Trial<S, T>> {
        let trial = |given| Trial {
            right: right(&given),
            given,
        };
        given.map(trial).collect()
    }
}

pub struct Trials {
    captures: Vec<Trial<Vec<u8>, Vec<u8>>>,
    cases: Vec<Trial<String, String>>,
    boards: Vec<Trial<String, Vec<u8>>>,
    recorders: Vec<Trial<String, Vec<u8>>>,
}

impl Trials {
    pub fn new(seed: u64) -> Trials {
        let captures = (0..CAPTURES).map(|number| file(seed, number));
        let cases = (0..SCRIPTS).flat_map(|n| steps::cases(seed.wrapping_add(n), CASES));
        let boards = (0..boards::SCRIPTS).flat_map(|n| boards::cases(seed.wrapping_add(n)));
        let recorders =
            (0..recorders::SCRIPTS).flat_map(|n| recorders::cases(seed.wrapping_add(n)));
        Trials {
            captures: Trial::all(captures, |given| Document01::run(given)),
            cases: Trial::all(cases, |given| script::run::<Document01>(given)),
            boards: Trial::all(boards, |given| {
                board_script::run::<Document01>(given.as_bytes())
            }),
            recorders: Trial::all(recorders, |given| {
                recorder_script::run::<Document01>(given.as_bytes())
            }),
        }
    }

    pub fn judge(&self, wrong: &'static Wrong) -> Judged {
        let mut judged = Judged {
            wrong,
            captures: 0,
            compared: 0,
            cases: 0,
            boards: 0,
            recorders: 0,
        };
        match wrong.prints {
            Prints::Unit { run, play } => {
                let tells = |trial: &&Trial<Vec<u8>, Vec<u8>>| run(&trial.given) != trial.right;
                let (compared, others) = self.captures.split_at(COMPARED);
                judged.compared = compared.iter().filter(tells).count();
                judged.captures = judged.compared + others.iter().filter(tells).count();
                let tells = |trial: &&Trial<String, String>| play(&trial.given) != trial.right;
                judged.cases = self.cases.iter().filter(tells).count();
            }
            Prints::Board(play) => judged.boards = told(&self.boards, play),
            Prints::Recorder(play) => judged.recorders = told(&self.recorders, play),
        }
        judged
    }
}

/// How many of the cases tell a reading that plays them so.
fn told(cases: &[Trial<String, Vec<u8>>], play: Play) -> usize {
    let tells = |trial: &&Trial<String, Vec<u8>>| play(trial.given.as_bytes()) != trial.right;
    cases.iter().filter(tells).count()
}

/// A wrong reading, and how many captures and cases tell it. The cases of all
/// kinds of scripts, and some of the captures, are compared: they go through the
/// proved programs.
pub struct Judged {
    pub wrong: &'static Wrong,
    pub captures: usize,
    pub compared: usize,
    pub cases: usize,
    pub boards: usize,
    pub recorders: usize,
}

impl Judged {
    /// Why the reading is not as it should be, if it is not.
    pub fn fault(&self) -> Option<String> {
        let told = self.captures + self.cases + self.boards + self.recorders > 0;
        let fault = match self.wrong.same {
            Some(_) if told => "is told, but said to be the same",
            None if !told => "is not told",
            None if self.wrong.by_scripts && self.captures > 0 => {
                "is told by a capture, but said to be told by scripts alone"
            }
            _ => return None,
        };
        Some(format!("\"{}\" {fault}", self.wrong.says))
    }
}

impl fmt::Display for Judged {
    fn fmt(&self, out: &mut fmt::Formatter) -> fmt::Result {
        let Judged {
            wrong,
            captures,
            cases,
            boards,
            recorders,
            ..
        } = self;
        let (rule, says) = (wrong.rule, wrong.says);
        write!(
            out,
            "{rule:28} captures {captures:3} cases {cases:3} boards {boards:3} recorders {recorders:3} {says}"
        )?;
        match wrong.same {
            Some(reason) => write!(out, ": cannot be told, since {reason}"),
            None if wrong.by_scripts => out.write_str(": by scripts alone"),
            None => Ok(()),
        }
    }
}
