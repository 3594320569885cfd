//! The golden set as it is stored: what its captures tell, and its page.

use std::fs;
use std::io;
use std::path::Path;

use witness::trace::{HEAD, RECORD};

use crate::capture::{Capture, Place, Places, Reading};
use crate::cover::SHORT;
use crate::judged::CAPTURES;
use crate::SEED;

/// The traits of the witness that captures tell of, in the words of its rules.
const AREAS: [(&str, &str); 8] = [
    ("Step", "kinds of cycle, reset, acknowledge"),
    ("Commands", "commands"),
    ("Translation", "translation"),
    ("Checks", "rights, length, distance"),
    ("Recording", "recording"),
    ("Memory", "fetches, hold, REF and CHG, ISN"),
    ("Layout", "the trace"),
    ("Text", "the listing"),
];

/// Captures, in their order, with their names.
pub type Set = Vec<(String, Capture)>;

/// The captures of a folder, by name.
pub fn load(folder: &Path) -> io::Result<Set> {
    let mut set = Set::new();
    for entry in fs::read_dir(folder)? {
        let path = entry?.path();
        if path.extension().is_some_and(|extension| extension == "mbt") {
            let stem = path.file_stem().unwrap_or_default();
            let name = stem.to_string_lossy().into_owned();
            set.push((name, Capture::new(fs::read(&path)?)));
        }
    }
    set.sort_by(|(one, _), (other, _)| one.cmp(other));
    Ok(set)
}

/// Writes the captures, their listings and their page. The listings are the
/// witness's; mmurun is held to them with all that is stored.
pub fn store(folder: &Path, captures: Vec<Capture>, readings: &[Reading]) -> Result<(), String> {
    let numbered = captures.into_iter().enumerate();
    let set: Set = numbered
        .map(|(number, capture)| (format!("{:02}", number + 1), capture))
        .collect();
    let page = page(&set, readings)?;
    let write = |name: &str, bytes: &[u8]| {
        let written = fs::write(folder.join(name), bytes);
        written.map_err(|error| error.to_string())
    };
    for (name, capture) in &set {
        write(&format!("{name}.mbt"), &capture.trace)?;
        write(&format!("{name}.txt"), capture.right())?;
    }
    write("README.md", page.as_bytes())
}

/// How many of the readings these captures tell.
pub fn told(set: &Set, readings: &[Reading]) -> usize {
    let mut untold: Vec<&Reading> = readings.iter().collect();
    for (_, capture) in set {
        untold.retain(|reading| !capture.tells(reading));
    }
    readings.len() - untold.len()
}

/// What the page says of one capture.
struct Part<'r> {
    chosen_for: Vec<(&'r Reading, Places)>,
    in_all: usize,
}

impl Part<'_> {
    /// The words of a trait, with how many of the readings are of its rules.
    fn area(&self, (rules, words): &(&str, &str)) -> Option<String> {
        let of_it = |reading: &Reading| reading.wrong.rule.split("::").next() == Some(rules);
        let count = self
            .chosen_for
            .iter()
            .filter(|(reading, _)| of_it(reading))
            .count();
        (count > 0).then(|| format!("{count} {words}"))
    }
}

/// The page, or what keeps the set from being a golden one.
pub fn page(set: &Set, readings: &[Reading]) -> Result<String, String> {
    let parts = parts(set, readings)?;
    let chosen_for = parts.iter().flat_map(|part| &part.chosen_for);
    let on_pins = chosen_for.filter(|(_, places)| places.pins.is_some());
    let mut page = head(readings.len(), on_pins.count());
    for ((name, capture), part) in set.iter().zip(&parts) {
        if part.chosen_for.is_empty() {
            return Err(format!("the set is golden without capture {name}"));
        }
        page += &row(name, capture, part);
    }
    page += "\n## What each is chosen for\n";
    for ((name, capture), part) in set.iter().zip(&parts) {
        page += &section(name, capture, part);
    }
    Ok(page)
}

/// A reading goes to the first capture that tells it on the pins, or, where
/// none does, in a line.
fn parts<'r>(set: &Set, readings: &'r [Reading]) -> Result<Vec<Part<'r>>, String> {
    let empty = || Part {
        chosen_for: Vec::new(),
        in_all: 0,
    };
    let mut parts: Vec<Part> = set.iter().map(|_| empty()).collect();
    for reading in readings {
        let told = set.iter().map(|(_, capture)| capture.places(reading));
        let told: Vec<Places> = told.collect();
        let on_pins = told.iter().position(|places| places.pins.is_some());
        let in_line = told.iter().position(|places| places.line.is_some());
        let Some(chosen) = on_pins.or(in_line) else {
            let says = reading.wrong.says;
            return Err(format!("\"{says}\" is told by no capture of the set"));
        };
        parts[chosen].chosen_for.push((reading, told[chosen]));
        for (part, places) in parts.iter_mut().zip(&told) {
            part.in_all += usize::from(places.line.is_some());
        }
    }
    for part in &mut parts {
        part.chosen_for
            .sort_by_key(|(_, places)| (places.line, places.pins));
    }
    Ok(parts)
}

fn row(name: &str, capture: &Capture, part: &Part) -> String {
    let size = match capture.refused() {
        true => format!("refused, {} bytes", capture.trace.len()),
        false => capture.records().to_string(),
    };
    let areas: Vec<String> = AREAS.iter().filter_map(|area| part.area(area)).collect();
    let (areas, chosen_for) = (areas.join("; "), part.chosen_for.len());
    format!(
        "| `{name}` | {size} | {areas} | {chosen_for} | {} |\n",
        part.in_all
    )
}

fn section(name: &str, capture: &Capture, part: &Part) -> String {
    let rows = part.chosen_for.iter().map(|(reading, places)| {
        let [line, pins] = [places.line, places.pins].map(place);
        format!("| {line} | {pins} | {} |\n", reading.wrong.says)
    });
    let (shown, rows) = (shown(capture), rows.collect::<String>());
    format!("\n### `{name}`\n{shown}\n| Line | Pins | Read wrongly |\n|---|---|---|\n{rows}")
}

/// Each line of the listing behind the bytes of its record, or of the refused
/// trace; nothing of the longest capture.
fn shown(capture: &Capture) -> String {
    let (bytes, skipped, size) = match capture.refused() {
        true => (&capture.trace[..], 0, capture.trace.len().max(1)),
        false => (&capture.trace[HEAD..], 1, RECORD),
    };
    if bytes.is_empty() || capture.records() > SHORT {
        return String::new();
    }
    let text = String::from_utf8_lossy(capture.right());
    let records = bytes.chunks(size).zip(text.lines().skip(skipped));
    let lines = records.map(|(record, line)| {
        let bytes: Vec<String> = record.iter().map(|byte| format!("{byte:02X}")).collect();
        format!("    {}  {line}\n", bytes.join(" "))
    });
    format!("\n{}", lines.collect::<String>())
}

fn place(place: Option<Place>) -> String {
    match place {
        None => "-".to_string(),
        Some(Place::FirstLine) => "first".to_string(),
        Some(Place::Record(record)) => record.to_string(),
        Some(Place::End) => "end".to_string(),
    }
}

fn head(readings: usize, on_pins: usize) -> String {
    let others = readings - on_pins;
    format!(
        "# The golden set

Captures (`NAME.mbt`) and what `mmurun` prints for each (`NAME.txt`): few and short, and chosen so that each of the {readings} wrong \
readings of document 01 that a capture can tell is told by one of them. Logic that prints these listings has none of these \
mistakes. [docs/WRONG-READINGS.md](../../docs/WRONG-READINGS.md) says what a wrong reading is, counts them by rule, and says why no capture \
can tell the others.

Run your own logic on each capture and compare its listing with ours (`./distantarm against`). The tables below say where a wrong reading first differs: \
the number of the record by whole lines, and by the pins alone, which are address, SUP, trap line and data byte. {on_pins} of the \
wrong readings can show on the pins, and each of these is told there, so that logic without kind and distance is told as well; the \
other {others} show in kind or distance alone, or in which traces are refused, or are of how a run and its listing are made. `first` is \
the first line, `end` the end of the listing, and `-` stands where the pins do not differ; for what is of a run and its listing they are \
not asked, though three of these show there in the same record. Your mistake may be another than those named beside a record: a capture tells many more wrong readings than it is chosen for. Before each table stand the \
capture's records, four bytes each, and what `mmurun` prints for them.

All captures but the last are generated ones (the first {CAPTURES} of seed {SEED}), each cut behind what it is chosen for and without every record that \
is not needed for it. So they are no programs, and their bytes are any bytes. The last is not to be read: it has the most records \
that a trace can have, all of an idle bus. A mistake that shows only where two things meet, such as a right that is not checked at one status in \
one mode, may pass this set: `./distantarm golden FOLDER` writes whole captures, 300 of them, for a wider net.

`./distantarm wrong-readings cover` chooses this set anew and writes this folder, the same each time. `./distantarm wrong-readings golden` \
holds the captures to this page, and fails where one of the wrong readings is not told. `tools/samples` holds `mmurun` to the \
listings, and `tools/compare` the second model.

| Capture | Records | Chosen for so many wrong readings of | Together | Tells in all |
|---|---|---|---|---|
"
    )
}
