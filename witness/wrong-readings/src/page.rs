//! docs/WRONG-READINGS.md: the wrong readings, counted by the rule they break.

use witness::generate::{boards, recorders, CASES, COMPARED, SCRIPTS};

use crate::judged::{Judged, CAPTURES};

/// The rules of the witness in document 01's words, in the page's order.
const RULES: &[(&str, &str)] = &[
    (
        "Step::refusal",
        "which cycles are refused, and in which order",
    ),
    ("Step::damaged", "damage: registers above their bounds"),
    ("Step::orphan", "damage: SWW or FATL without a primary flag"),
    ("Step::out_of_range", "status above 15, segment above 127"),
    ("Step::step", "what a cycle shows; what a refusal leaves"),
    ("Step::class", "which cycle is what"),
    ("Step::reset", "the reset line"),
    ("Step::acknowledge", "the acknowledge"),
    ("Commands::command_refusal", "refusals 3 and 4"),
    (
        "Commands::listing",
        "which codes are listed, and in which direction",
    ),
    (
        "Commands::write_register",
        "writes of registers, set and clear commands",
    ),
    ("Commands::read_register", "reads of registers"),
    ("Commands::software_reset", "software reset"),
    ("Commands::set_all", "set all CPUI, set all DMAI"),
    ("Commands::byte_number", "which byte of a descriptor moves"),
    ("Commands::next_dscr", "DSCR after a byte"),
    ("Commands::advance", "when SAR steps"),
    (
        "Commands::descriptor_command",
        "whose descriptor, and which byte is driven",
    ),
    ("Commands::write_byte", "writes of attributes"),
    ("Commands::command", "what a command drives and leaves"),
    ("Translation::route", "MSEN and TRNS"),
    ("Translation::responsible", "URS, MST and NMS"),
    ("Translation::logical", "the address passed with TRNS clear"),
    ("Translation::physical", "base + offset byte"),
    ("Checks::outside", "length"),
    ("Checks::distance", "how many blocks remain to the edge"),
    ("Checks::warns", "what is a warning"),
    ("Checks::check", "a violation is no warning"),
    ("Checks::violation_flags", "the flags of a violation"),
    ("Checks::read_only", "RD"),
    ("Checks::system_only", "SYS"),
    ("Checks::execute_only", "EXC"),
    ("Checks::cpu_inhibited", "CPUI"),
    ("Checks::dma_inhibited", "DMAI"),
    ("Recording::record", "which row records, and hold"),
    ("Recording::first_entry", "no primary flag: the first entry"),
    (
        "Recording::store",
        "what is stored of the faulting cycle, the low byte with VOFF",
    ),
    (
        "Recording::kept_segment",
        "which bits of the segment VSN and ISN keep",
    ),
    ("Recording::kept_low", "what is kept as the low byte"),
    ("Recording::further_entry", "a primary flag, and own set"),
    ("Recording::fatal", "a primary flag, own clear: FATL"),
    (
        "Recording::system_stack",
        "which warning is of the system stack",
    ),
    (
        "Recording::second_warning",
        "a primary flag, own clear: SWW",
    ),
    ("Recording::trap", "request and await"),
    ("Memory::held", "SUP while hold stands"),
    (
        "Memory::memory",
        "hold, ISN, IOFF, the low byte and the distance in a memory cycle",
    ),
    ("Memory::translated", "a translated cycle"),
    ("Memory::aborted_fetch", "the aborted fetch"),
    ("Memory::fetches", "what starts an instruction"),
    ("Memory::start_instruction", "what its start clears"),
    ("Memory::mark", "REF and CHG"),
    ("Memory::keeps_instruction", "when ISN and IOFF are stored"),
    ("Layout::count", "the head of a trace, refusals 5 to 8"),
    ("Layout::decode", "the bytes of a record"),
    ("Text::power_on", "power-on"),
    ("Text::run", "the text of a run"),
    (
        "Board::board_refusal",
        "a board: the order of its refusals, and whom 11 to 13 name",
    ),
    ("Board::bad_count", "a board: 11"),
    ("Board::looked_at", "a board: which units are looked at"),
    (
        "Board::unit_refusal",
        "a board: any unit's own refusal, lowest unit first",
    ),
    (
        "Board::own_refusal",
        "a board: a unit's own refusal, strange notes among them",
    ),
    ("Board::collides", "a board: 12"),
    ("Board::drives", "a board: which units would drive"),
    ("Board::reads_several", "a board: 13"),
    (
        "Board::board_step",
        "a board: it stays as it was; the unit that is named",
    ),
    ("Board::refused", "a board: what a refusal shows"),
    (
        "Board::refused_trap",
        "a board: the trap line after a refusal",
    ),
    ("Board::selected", "a board: the select bits"),
    ("Board::given", "a board: the cycle's own select"),
    (
        "Board::step_all",
        "a board: what units share, and whom a cycle goes to",
    ),
    ("Board::driver", "a board: the unit that drives"),
    ("Board::named", "a board: the unit that is named"),
    ("Board::joined_kind", "a board: the kind"),
    ("Board::join", "a board: the address"),
    ("Board::joined_sup", "a board: SUP"),
    ("Board::joined_trap", "a board: the trap line"),
    ("Board::joined_data", "a board: the acknowledge lines"),
    ("Board::joined_distance", "a board: the distance"),
    ("Recorder::record_start", "the recorder: its start"),
    (
        "Recorder::record_refusal",
        "the recorder: its refusals in their order",
    ),
    ("Recorder::out_of_numbers", "the recorder: 1"),
    ("Recorder::too_many", "the recorder: 7"),
    ("Recorder::too_short", "the recorder: 10"),
    (
        "Recorder::record_cycle",
        "the recorder: what a cycle and a refusal leave",
    ),
    (
        "Recorder::record_place",
        "the recorder: where a record begins",
    ),
    ("Recorder::encode", "the recorder: the bytes of a record"),
    ("Recorder::header", "the recorder: the bytes of the header"),
    (
        "Recorder::put_header",
        "the recorder: when the header is written",
    ),
];

/// The page, or what keeps it from being printed.
pub fn page(judged: &[Judged]) -> Result<String, String> {
    fit(judged)?;
    let all = Told::of(judged.iter());
    let mut page = head(&all);
    for (rule, words) in RULES {
        let told = Told::of(judged.iter().filter(|judged| judged.wrong.rule == *rule));
        if told.readings == 0 {
            return Err(format!(
                "page.rs has a rule that no wrong reading breaks: {rule}"
            ));
        }
        page += &told.row(words, &format!("`{rule}`"));
    }
    page += &all.row("all", "");
    page += "\n## What cannot be told\n\n";
    page += "| Wrong reading | Why it comes out the same |\n|---|---|\n";
    for wrong in judged.iter().map(|judged| judged.wrong) {
        if let Some(reason) = wrong.same {
            page += &format!("| {} | {reason} |\n", wrong.says);
        }
    }
    Ok(page)
}

/// The page has a place for each reading, and what it says of those that are
/// compared is true.
fn fit(judged: &[Judged]) -> Result<(), String> {
    for one in judged {
        let (rule, says) = (one.wrong.rule, one.wrong.says);
        if !RULES.iter().any(|(named, _)| *named == rule) {
            return Err(format!("page.rs has no words for the rule {rule}"));
        }
        if one.wrong.run_told_by_captures().is_some() && one.compared == 0 {
            return Err(format!("\"{says}\" is told by no capture that is compared"));
        }
    }
    Ok(())
}

/// How some wrong readings are told: by how many captures each, by how many
/// cases of step scripts those that no capture tells, and those of a board and of
/// the recorder by how many of their own scripts.
struct Told {
    readings: usize,
    captures: Vec<usize>,
    cases_alone: Vec<usize>,
    boards: Vec<usize>,
    recorders: Vec<usize>,
}

impl Told {
    fn of<'j>(judged: impl Iterator<Item = &'j Judged> + Clone) -> Told {
        let (by_captures, others): (Vec<&Judged>, Vec<&Judged>) =
            judged.clone().partition(|judged| judged.captures > 0);
        let cases = others.iter().map(|judged| judged.cases);
        let boards = others.iter().map(|judged| judged.boards);
        let recorders = others.iter().map(|judged| judged.recorders);
        Told {
            readings: judged.count(),
            captures: by_captures.iter().map(|judged| judged.captures).collect(),
            cases_alone: cases.filter(|cases| *cases > 0).collect(),
            boards: boards.filter(|boards| *boards > 0).collect(),
            recorders: recorders.filter(|recorders| *recorders > 0).collect(),
        }
    }

    /// What tells them, in the order of the page's columns.
    fn told(&self) -> [&Vec<usize>; 4] {
        [
            &self.captures,
            &self.cases_alone,
            &self.boards,
            &self.recorders,
        ]
    }

    fn same(&self) -> usize {
        self.readings - self.told().map(Vec::len).iter().sum::<usize>()
    }

    fn row(&self, words: &str, rule: &str) -> String {
        let counted = |count: usize| {
            if count == 0 {
                String::new()
            } else {
                count.to_string()
            }
        };
        let least = |counts: &[usize]| counts.iter().min().map_or(String::new(), usize::to_string);
        let mut cells = vec![
            words.to_string(),
            rule.to_string(),
            self.readings.to_string(),
        ];
        for told in self.told() {
            cells.extend([counted(told.len()), least(told)]);
        }
        cells.push(counted(self.same()));
        format!("| {} |\n", cells.join(" | "))
    }
}

fn head(all: &Told) -> String {
    let (readings, same) = (all.readings, all.same());
    let [captures, cases, boards, recorders] = all.told().map(Vec::len);
    let (board_scripts, board_cases) = (boards::SCRIPTS, boards::CASES);
    let (recorder_scripts, recorder_cases) = (recorders::SCRIPTS, recorders::CASES);
    format!(
        "# Wrong readings of document 01

A test is worth what it can tell. A wrong reading is a small change of the witness (`witness/wrong-readings`): a rule \
of document 01, or of a ticket that has landed, is read wrongly, and every other as it stands. The generated captures, \
or the generated scripts of hand-made units, or those of boards or of the recorder, must tell it from the right one: on \
some of them it prints something else.

There are {readings} wrong readings. {captures} are told by captures; {cases} by step scripts alone, since no capture reaches \
a damaged unit (an orphan is one), a number out of range, own without await or a low byte other than 0, or shows own or \
the kept low byte; {boards}, of a board, by board scripts, since nothing else has one; {recorders}, of the recorder, by recorder \
scripts, since nothing else writes a trace; {same} cannot be told, because they come out the same. The first {COMPARED} captures and all scripts go through the proved programs in \
`tools/compare`, and these alone tell every wrong reading that can be told: the {COMPARED} captures tell all {captures}. \
`./distantarm golden FOLDER` writes those captures with their listings. [The golden set](../samples/golden/README.md) tells the {captures} too, with \
few and short captures, and names them.

    ./distantarm wrong-readings

holds this page to the wrong readings, and fails where one is not told. `./distantarm wrong-readings renew` writes the page \
anew, and `./distantarm wrong-readings list` prints every wrong reading by name, with how many captures and cases of scripts \
tell it. `./distantarm wrong-readings golden` holds the golden set to what it must tell, and `./distantarm wrong-readings cover` \
chooses it anew. Of all these only `golden` is a part of `tools/test`.

Each row is a rule, with its name in the witness; then how many wrong readings of it there are; how many of them \
captures tell, and by how many of {CAPTURES} captures at least; how many only step scripts tell, and by how many of \
{SCRIPTS} x {CASES} cases at least; how many board scripts tell, and by how many of {board_scripts} x {board_cases} cases \
at least; how many recorder scripts tell, and by how many of {recorder_scripts} x {recorder_cases} cases at least; and how \
many nothing can tell.

| Rule | In the witness | Wrong readings | By captures | At least | By step scripts alone | At least | By board scripts | At least | By recorder scripts | At least | Not |
|---|---|---|---|---|---|---|---|---|---|---|---|
"
    )
}
