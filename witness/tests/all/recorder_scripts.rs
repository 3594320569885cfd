//! What the generated recorder scripts meet: each case of ticket 1 that a wrong
//! reading could miss must come often enough.

use std::collections::BTreeMap;

use witness::cycle::Cycle;
use witness::generate::recorders::{scripts, SCRIPTS};
use witness::recorder::{Lent, Recorder};
use witness::recorder_script::{play, Call};
use witness::trace::{HEAD, LONGEST, MOST, RECORD};
use witness::Document01;

use crate::scripted::{ENOUGH, SEEDS};

/// One call, with what it was lent and given, and what it gave and left.
struct Turn {
    before: Lent,
    call: Call,
    number: u8,
    after: Lent,
}

impl Turn {
    fn cycle(&self) -> Option<&Cycle> {
        match &self.call {
            Call::Start => None,
            Call::Cycle(cycle) => Some(cycle),
        }
    }

    fn is(&self, meets: impl Fn(&Cycle) -> bool) -> bool {
        self.cycle().is_some_and(meets)
    }

    fn taken(&self) -> bool {
        self.number == 0 && self.cycle().is_some()
    }

    fn refused(&self, number: u8) -> bool {
        self.number == number && self.cycle().is_some()
    }

    fn starts(&self) -> bool {
        self.call == Call::Start
    }

    fn length(&self) -> usize {
        self.before.buffer.len()
    }

    fn count(&self) -> u64 {
        self.before.count
    }

    /// Bytes of the buffer less those that the count with this cycle needs.
    fn spare(&self) -> i128 {
        self.length() as i128 - (HEAD as i128 + RECORD as i128 * (i128::from(self.count()) + 1))
    }

    /// The header in the buffer has another count than the one given.
    fn other_count(&self) -> bool {
        let buffer = &self.before.buffer;
        buffer.len() >= HEAD
            && u64::from(u16::from_be_bytes([buffer[5], buffer[6]])) != self.count()
    }

    fn wrong_mark(&self) -> bool {
        self.length() >= HEAD && self.before.buffer[..3] != *b"MBT"
    }

    fn many(&self) -> bool {
        self.count() >= MOST as u64
    }

    fn changed(&self) -> usize {
        let pairs = self.before.buffer.iter().zip(&self.after.buffer);
        pairs.filter(|(old, new)| old != new).count()
    }
}

type Case = (&'static str, fn(&Turn) -> bool);

const STARTS: &[Case] = &[
    ("start", |t| t.starts() && t.number == 0),
    ("start refused 10", |t| t.starts() && t.number == 10),
    ("start in 6 bytes", |t| t.starts() && t.length() == HEAD - 1),
    ("start in 7 bytes", |t| t.starts() && t.length() == HEAD),
    ("start below 11 bytes", |t| {
        t.starts() && t.number == 0 && t.length() < HEAD + RECORD
    }),
    ("start with a count that stands", |t| {
        t.starts() && t.number == 0 && t.count() > 0
    }),
    ("start refused with a count that stands", |t| {
        t.starts() && t.number == 10 && t.count() > 0
    }),
    ("start with a count past 16,000", |t| {
        t.starts() && t.number == 0 && t.many()
    }),
    ("start over records", |t| {
        t.starts() && t.number == 0 && t.before.buffer.starts_with(b"MBT") && t.changed() > 0
    }),
];

const TAKEN: &[Case] = &[
    ("taken", Turn::taken),
    ("taken, no byte to spare", |t| t.taken() && t.spare() == 0),
    ("taken, a byte to spare", |t| t.taken() && t.spare() == 1),
    ("taken, room for one more less a byte", |t| {
        t.taken() && t.spare() == RECORD as i128 - 1
    }),
    ("taken, room for one more", |t| {
        t.taken() && t.spare() == RECORD as i128
    }),
    ("taken, another count in the header", |t| {
        t.taken() && t.other_count()
    }),
    ("taken, a wrong mark in the header", |t| {
        t.taken() && t.wrong_mark()
    }),
    ("taken, a wrong version in the header", |t| {
        t.taken() && t.before.buffer[3..5] != [0, 1] && !t.wrong_mark()
    }),
    ("taken, a count of two bytes", |t| {
        t.taken() && t.after.count > 0xFF && t.after.count % 256 != 0
    }),
    ("record 15,999 taken", |t| {
        t.taken() && t.count() == MOST as u64 - 1
    }),
    ("record 15,998 taken", |t| {
        t.taken() && t.count() == MOST as u64 - 2
    }),
    ("taken over other bytes", |t| t.taken() && t.changed() > 4),
    ("taken, a buffer longer than any trace", |t| {
        t.taken() && t.length() > LONGEST
    }),
];

const CYCLES: &[Case] = &[
    ("reset taken", |t| t.taken() && t.is(|c| c.reset)),
    ("reset with other fields taken", |t| {
        t.taken() && t.is(|c| c.reset && c.status > 0 && c.segment > 0 && c.data > 0)
    }),
    ("a low byte beside data 0", |t| {
        t.taken() && t.is(|c| c.low != 0 && c.data == 0)
    }),
    ("a low byte", |t| t.taken() && t.is(|c| c.low != 0)),
    ("DMA without select", |t| {
        t.taken() && t.is(|c| c.dma && !c.select)
    }),
    ("select without DMA", |t| {
        t.taken() && t.is(|c| c.select && !c.dma)
    }),
    ("read in system mode", |t| {
        t.taken() && t.is(|c| c.read && !c.normal)
    }),
    ("write in normal mode", |t| {
        t.taken() && t.is(|c| !c.read && c.normal)
    }),
    ("status 15", |t| t.taken() && t.is(|c| c.status == 15)),
    ("segment 127", |t| t.taken() && t.is(|c| c.segment == 127)),
    ("a command that a unit refuses", |t| {
        t.taken() && t.is(|c| c.status == 3 && c.select && !c.dma && c.offset > 0x20)
    }),
];

const REFUSED: &[Case] = &[
    ("1, room", |t| t.refused(1) && t.spare() >= 0 && !t.many()),
    ("1 before 10", |t| {
        t.refused(1) && t.spare() < 0 && !t.many()
    }),
    ("1 before 7", |t| t.refused(1) && t.spare() >= 0 && t.many()),
    ("1 before 7 and 10", |t| {
        t.refused(1) && t.spare() < 0 && t.many()
    }),
    ("1, a reset", |t| t.refused(1) && t.is(|c| c.reset)),
    ("1, status 16", |t| {
        t.refused(1) && t.is(|c| c.status == 16 && c.segment < 128)
    }),
    ("1, segment 128", |t| {
        t.refused(1) && t.is(|c| c.segment == 128 && c.status < 16)
    }),
    ("1, status and segment", |t| {
        t.refused(1) && t.is(|c| c.segment > 127 && c.status > 15)
    }),
    ("7, room", |t| t.refused(7) && t.spare() >= 0),
    ("7 before 10", |t| t.refused(7) && t.spare() < 0),
    ("7, count 16,000", |t| {
        t.refused(7) && t.count() == MOST as u64
    }),
    ("7, count 16,001", |t| {
        t.refused(7) && t.count() == MOST as u64 + 1
    }),
    ("7, count cut to 16 bits would do", |t| {
        t.refused(7) && (t.count() as u16) < MOST as u16
    }),
    ("7, count cut to 32 bits would do", |t| {
        t.refused(7) && t.count() > u64::from(u32::MAX) && (t.count() as u32) < MOST as u32
    }),
    ("7, count 2^64 - 1", |t| {
        t.refused(7) && t.count() == u64::MAX
    }),
    ("7, a negative count", |t| {
        t.refused(7) && (t.count() as i64) < 0
    }),
    ("10, by a byte", |t| t.refused(10) && t.spare() == -1),
    ("10, by a record", |t| {
        t.refused(10) && t.spare() == -(RECORD as i128)
    }),
    ("10, no header", |t| t.refused(10) && t.length() < HEAD),
    ("10, count 15,999", |t| {
        t.refused(10) && t.count() == MOST as u64 - 1
    }),
    ("10, another count in the header", |t| {
        t.refused(10) && t.other_count()
    }),
];

/// Every call of a script.
fn each_turn(script: &str, mut see: impl FnMut(&Turn)) {
    let mut make = |lent: &mut Lent, call: &Call| {
        let before = lent.clone();
        let number = call.make::<Document01>(lent);
        see(&Turn {
            before,
            call: *call,
            number,
            after: lent.clone(),
        });
        number
    };
    play(script.as_bytes(), &mut make);
}

#[test]
fn every_case_is_met_often() {
    let cases = [STARTS, TAKEN, CYCLES, REFUSED].concat();
    for seed in SEEDS {
        let mut counts = vec![0; cases.len()];
        for script in scripts(seed) {
            each_turn(&script, |turn| {
                for (count, (_, meets)) in counts.iter_mut().zip(&cases) {
                    *count += u64::from(meets(turn));
                }
            });
        }
        for (count, (name, _)) in counts.iter().zip(&cases) {
            assert!(*count >= ENOUGH, "seed {seed}: only {count}: {name}");
        }
    }
}

/// Lengths at which a header or a record more has room, and one less and more.
#[test]
fn every_length_that_matters_comes() {
    for seed in SEEDS {
        let mut met = vec![0; 0x1_0000];
        for script in scripts(seed) {
            each_turn(&script, |turn| met[turn.length()] += 1);
        }
        let edges = [LONGEST - RECORD, LONGEST - 1, LONGEST, LONGEST + 1, 0xFFFF];
        for length in (0..=2 * RECORD + HEAD + 1).chain(edges) {
            assert!(
                met[length] >= ENOUGH,
                "seed {seed}: only {} of {length}",
                met[length]
            );
        }
    }
}

/// What the bits of a cycle and of a count are, each by itself: records of one
/// bit, and of all but one; counts of one bit.
#[test]
fn every_bit_comes_by_itself() {
    for seed in SEEDS {
        let (mut records, mut counts) = (BTreeMap::new(), BTreeMap::new());
        for script in scripts(seed) {
            each_turn(&script, |turn| {
                if let (true, Some(cycle)) = (turn.taken(), turn.cycle()) {
                    let record = u32::from_be_bytes(Document01::encode(cycle));
                    *records.entry(record).or_insert(0) += 1;
                    *counts.entry(turn.after.count).or_insert(0) += 1;
                }
            });
        }
        for bit in (0..32).map(|bit| 1u32 << bit) {
            for record in [bit, !bit] {
                let met = records.get(&record);
                assert!(
                    met >= Some(&SCRIPTS),
                    "seed {seed}: {met:?} of {record:08X}"
                );
            }
        }
        for count in (0..14).map(|bit| 1 << bit) {
            let met = counts.get(&count);
            assert!(met >= Some(&SCRIPTS), "seed {seed}: {met:?} of {count}");
        }
    }
}

/// Traces are printed, good ones and each of the refused ones; the longest too.
#[test]
fn every_kind_of_text_is_printed() {
    for seed in SEEDS {
        let texts = scripts(seed).map(|script| {
            let text = play(script.as_bytes(), &mut |lent, call| {
                call.make::<Document01>(lent)
            });
            String::from_utf8(text).expect("what is printed is text")
        });
        let text: String = texts.collect();
        let count = |wanted: &str| text.lines().filter(|line| *line == wanted).count() as u64;
        for wanted in ["MBT 1 0", "MBT 1 2", "X5", "X6", "X8"] {
            assert!(count(wanted) >= ENOUGH, "seed {seed}: {wanted}");
        }
        let most = count("MBT 1 15999") + count("MBT 1 16000");
        assert!(count("X7") > 0 && most >= 9, "seed {seed}: {most}");
    }
}

#[test]
fn no_line_is_wrong_and_every_script_is_short() {
    for script in SEEDS.into_iter().flat_map(scripts) {
        let text = play(script.as_bytes(), &mut |lent, call| {
            call.make::<Document01>(lent)
        });
        assert!(!text.split(|byte| *byte == b'\n').any(|line| line == b"?"));
        assert!(script.len() < 60_000, "{} bytes", script.len());
    }
}
