//! Chooses the golden set: few short captures that tell every wrong reading that
//! a capture can tell. They are generated ones, cut behind what they are chosen
//! for, and without the records that are not needed for it. A reading that can
//! show on the pins is told there.

use witness::generate::file;
use witness::trace::{HEAD, LONGEST, RECORD};

use crate::capture::{Capture, Place, Places, Reading};
use crate::judged::CAPTURES;

/// A generated capture with more records is none to be read.
pub const SHORT: usize = 300;
/// What a capture costs beside four bytes for each record. Of the costs tried,
/// 100 to 800, this one gave the fewest records; 100 gives half as many captures
/// again.
const COST: usize = 500;
/// So many records in a row are left out together: a descriptor has four bytes.
const RUNS: [usize; 8] = [64, 32, 16, 8, 4, 3, 2, 1];
/// So many captures are tried between two lines that say how far it is.
const STRIDE: usize = 100;

/// A capture, and for each reading where it is told.
struct Candidate {
    capture: Capture,
    places: Vec<Places>,
}

/// A reading, and whether the set has to tell it on the pins.
struct Wanted<'r> {
    reading: &'r Reading,
    on_pins: bool,
}

/// A capture, and for each wanted reading whether it tells it.
struct Chosen {
    capture: Capture,
    tells: Vec<bool>,
}

impl Candidate {
    fn new(capture: Capture, readings: &[Reading]) -> Candidate {
        let places = readings.iter().map(|reading| capture.places(reading));
        Candidate {
            places: places.collect(),
            capture,
        }
    }

    /// How many records it takes to tell the reading of this number, if it is told.
    fn records(&self, number: usize, on_pins: bool) -> Option<usize> {
        let Places { line, pins } = self.places[number];
        match if on_pins { pins } else { line }? {
            Place::Record(record) => Some(self.capture.records().min(record + 1)),
            Place::FirstLine | Place::End => Some(self.capture.records()),
        }
    }
}

impl Wanted<'_> {
    fn told_by(&self, capture: &Capture) -> bool {
        match self.on_pins {
            true => capture.tells_on_pins(self.reading),
            false => capture.tells(self.reading),
        }
    }
}

impl Chosen {
    fn new(capture: Capture, wanted: &[Wanted]) -> Chosen {
        let tells = wanted.iter().map(|wanted| wanted.told_by(&capture));
        Chosen {
            tells: tells.collect(),
            capture,
        }
    }
}

/// The set of a seed, or the name of a reading that none of its captures tells.
pub fn cover(seed: u64, readings: &[Reading]) -> Result<Vec<Capture>, String> {
    let candidates = candidates(seed, readings);
    let wanted: Vec<Wanted> = (0..readings.len())
        .map(|number| Wanted {
            reading: &readings[number],
            on_pins: candidates
                .iter()
                .any(|one| one.places[number].pins.is_some()),
        })
        .collect();
    let mut set = choose(&candidates, &wanted)?;
    eprintln!("wrong-readings: {} captures, to be shortened", set.len());
    while tighten(&mut set, &wanted) {}
    Ok(set.into_iter().map(|chosen| chosen.capture).collect())
}

fn candidates(seed: u64, readings: &[Reading]) -> Vec<Candidate> {
    let mut candidates = Vec::new();
    for number in 0..CAPTURES {
        let capture = Capture::new(file(seed, number));
        if capture.records() <= SHORT {
            candidates.push(Candidate::new(capture, readings));
        }
        if (number + 1) % STRIDE == 0 {
            eprintln!("wrong-readings: {} of {CAPTURES} captures", number + 1);
        }
    }
    candidates.push(Candidate::new(Capture::new(longest()), readings));
    candidates
}

/// The most records, each of an idle bus: a generated capture as long says no
/// more of the head.
fn longest() -> Vec<u8> {
    let count = u16::try_from((LONGEST - HEAD) / RECORD).expect("a count has 16 bits");
    let mut trace = b"MBT\x00\x01".to_vec();
    trace.extend(count.to_be_bytes());
    trace.resize(LONGEST, 0);
    trace
}

/// Again and again the capture, cut somewhere, that adds most for its cost.
fn choose(candidates: &[Candidate], wanted: &[Wanted]) -> Result<Vec<Chosen>, String> {
    let mut set = Vec::new();
    let mut told = vec![false; wanted.len()];
    while let Some(first) = told.iter().position(|told| !told) {
        let Some(cut) = best(candidates, wanted, &told) else {
            let says = wanted[first].reading.wrong.says;
            return Err(format!("\"{says}\" is told by no capture"));
        };
        let untold = wanted.iter().zip(&told).filter(|(_, told)| !**told);
        let adds: Vec<&Wanted> = untold
            .map(|(wanted, _)| wanted)
            .filter(|wanted| wanted.told_by(&cut))
            .collect();
        if adds.is_empty() {
            return Err(
                "a capture that was cut tells nothing of what it was chosen for".to_string(),
            );
        }
        let chosen = Chosen::new(shorten(&cut, adds), wanted);
        for (told, tells) in told.iter_mut().zip(&chosen.tells) {
            *told |= tells;
        }
        set.push(chosen);
    }
    Ok(set)
}

fn best(candidates: &[Candidate], wanted: &[Wanted], told: &[bool]) -> Option<Capture> {
    let mut best: Option<(usize, usize, &Capture, usize)> = None;
    for candidate in candidates {
        let untold = (0..wanted.len()).filter(|&number| !told[number]);
        let mut needed: Vec<usize> = untold
            .filter_map(|number| candidate.records(number, wanted[number].on_pins))
            .collect();
        needed.sort();
        for (before, &records) in needed.iter().enumerate() {
            let (adds, cost) = (before + 1, COST + RECORD * records);
            if best.is_none_or(|(most, at, ..)| adds * at > most * cost) {
                best = Some((adds, cost, &candidate.capture, records));
            }
        }
    }
    best.map(|(_, _, capture, records)| capture.without(records..capture.records()))
}

/// The same without all that is not needed to tell these. The longest is as
/// short as it can be.
fn shorten(capture: &Capture, mut wanted: Vec<&Wanted>) -> Capture {
    let mut short = capture.clone();
    let mut before = usize::MAX;
    while short.records() < before && short.records() <= SHORT {
        before = short.records();
        for run in RUNS {
            let mut end = before;
            while end.min(short.records()) >= run {
                end = end.min(short.records());
                let less = short.without(end - run..end);
                match wanted.iter().position(|wanted| !wanted.told_by(&less)) {
                    None => short = less,
                    // What was missed is likely to be missed again.
                    Some(missed) => wanted[..=missed].rotate_right(1),
                }
                end -= 1;
            }
        }
    }
    short
}

/// Each capture is left what it alone tells, the last chosen first; one that
/// tells nothing alone goes. Whether anything has changed.
fn tighten(set: &mut Vec<Chosen>, wanted: &[Wanted]) -> bool {
    let bytes = |set: &[Chosen]| -> usize { set.iter().map(|one| one.capture.trace.len()).sum() };
    let before = (set.len(), bytes(set));
    for place in (0..set.len()).rev() {
        let chosen = set.remove(place);
        let elsewhere = |number: usize| set.iter().any(|other| other.tells[number]);
        let alone: Vec<&Wanted> = (0..wanted.len())
            .filter(|&number| chosen.tells[number] && !elsewhere(number))
            .map(|number| &wanted[number])
            .collect();
        if !alone.is_empty() {
            let short = shorten(&chosen.capture, alone);
            set.insert(place, Chosen::new(short, wanted));
        }
    }
    before != (set.len(), bytes(set))
}
