//! Wrong readings of the text of `mmurun` and of its run.

use super::wrong;
use witness::cycle::Cycle;
use witness::step::Step;
use witness::text::Text;
use witness::trace::Layout;
use witness::unit::{mode, Unit};
use witness::Document01;

/// The right text with each record's line changed.
fn lines(trace: &[u8], change: impl Fn(usize, &str) -> String) -> Vec<u8> {
    let text = String::from_utf8(Document01::run(trace)).expect("the text is plain");
    let changed: String = text
        .lines()
        .enumerate()
        .map(|(number, line)| match number {
            0 => format!("{line}\n"),
            _ => change(number, line),
        })
        .collect();
    changed.into_bytes()
}

/// The right text with each record's last field, the distance, written anew.
fn distances(trace: &[u8], write: impl Fn(&str, u8) -> String) -> Vec<u8> {
    lines(trace, |_, line| {
        let (fields, distance) = line.rsplit_once(' ').expect("a record has fields");
        let distance = distance.parse().expect("a distance is a byte");
        format!("{fields} {}\n", write(fields, distance))
    })
}

/// Of a record's fields.
fn translated(fields: &str) -> bool {
    fields.contains(" T ")
}

/// A record's line up to its data byte.
fn without_distance(line: &str) -> String {
    let fields = line.rsplit_once(' ').map_or("", |(fields, _)| fields);
    format!("{fields}\n")
}

/// The right text with each record's distance moved to another place.
fn distance_at(trace: &[u8], place: usize) -> Vec<u8> {
    lines(trace, |_, line| {
        let mut fields: Vec<&str> = line.split(' ').collect();
        let distance = fields.pop().expect("a record has fields");
        fields.insert(place, distance);
        fields.join(" ") + "\n"
    })
}

/// The right text with its first line changed.
fn head(trace: &[u8], change: impl Fn(&str) -> String) -> Vec<u8> {
    let text = String::from_utf8(Document01::run(trace)).expect("the text is plain");
    let (first, rest) = text.split_once('\n').expect("a text has a line");
    format!("{}\n{rest}", change(first)).into_bytes()
}

wrong! { Text:
    PowerOnResets "power-on is a selected reset: MR is %80" {
        fn power_on() -> Unit {
            Unit { mr: mode::MSEN, ..Unit::power_on() }
        }
    }
    PowerOnTranslates "power-on has MR %C0" {
        fn power_on() -> Unit {
            Unit { mr: mode::MSEN | mode::TRNS, ..Unit::power_on() }
        }
    }
    PowerOnLow "power-on has all bits of the low byte set" by scripts {
        fn power_on() -> Unit {
            Unit { low: 0xFF, ..Unit::power_on() }
        }
    }
    NumbersFromOne "records are numbered from 1" {
        fn run(trace: &[u8]) -> Vec<u8> {
            lines(trace, |number, line| {
                let fields = line.split_once(' ').map_or("", |(_, fields)| fields);
                format!("{number} {fields}\n")
            })
        }
    }
    SmallDigits "hexadecimal digits are small letters" {
        fn run(trace: &[u8]) -> Vec<u8> {
            lines(trace, |_, line| {
                let mut fields: Vec<String> = line.split(' ').map(str::to_string).collect();
                for field in fields.iter_mut().skip(2) {
                    field.make_ascii_lowercase();
                }
                format!("{}\n", fields.join(" "))
            })
        }
    }
    CountInHex "the first line has the count in hexadecimal" {
        fn run(trace: &[u8]) -> Vec<u8> {
            head(trace, |first| match first.strip_prefix("MBT 1 ") {
                Some(count) => format!("MBT 1 {:X}", count.parse::<u32>().unwrap_or_default()),
                None => first.to_string(),
            })
        }
    }
    RefusalBare "the refusal number is left out: X alone" {
        fn run(trace: &[u8]) -> Vec<u8> {
            lines(trace, |_, line| line.replace("X3", "X").replace("X4", "X") + "\n")
        }
    }
    RefusalApart "the refusal number stands apart: X 4" {
        fn run(trace: &[u8]) -> Vec<u8> {
            lines(trace, |_, line| line.replace('X', "X ") + "\n")
        }
    }
    RefusalStops "a refused cycle ends the run" {
        fn run(trace: &[u8]) -> Vec<u8> {
            let text = Document01::run(trace);
            let first = |mark: &[u8]| text.windows(mark.len()).position(|part| part == mark);
            let refused = first(b" X3 ").into_iter().chain(first(b" X4 ")).min();
            let end = refused.map_or(text.len(), |place| {
                let rest = text[place..].iter().position(|&byte| byte == b'\n');
                place + rest.map_or(0, |rest| rest + 1)
            });
            text[..end].to_vec()
        }
    }
    RefusedTraceWithHead "a refused trace prints its first line too" {
        fn run(trace: &[u8]) -> Vec<u8> {
            let mut text = Document01::run(trace);
            if Document01::count(trace).is_err() {
                text.splice(0..0, *b"MBT\n");
            }
            text
        }
    }
    EmptyInput "empty input prints nothing" {
        fn run(trace: &[u8]) -> Vec<u8> {
            if trace.is_empty() { Vec::new() } else { Document01::run(trace) }
        }
    }
    ZeroRecords "a trace of 0 records prints nothing" {
        fn run(trace: &[u8]) -> Vec<u8> {
            let empty = Document01::count(trace) == Ok(0);
            if empty { Vec::new() } else { Document01::run(trace) }
        }
    }
    LastLineOpen "the last line has no line feed" {
        fn run(trace: &[u8]) -> Vec<u8> {
            let mut text = Document01::run(trace);
            text.pop();
            text
        }
    }
    RequestBefore "the request shown is the one before the cycle" {
        fn run(trace: &[u8]) -> Vec<u8> {
            let last = std::cell::Cell::new('0');
            lines(trace, |_, line| {
                let mut fields: Vec<&str> = line.split(' ').collect();
                let now = if fields[4] == "1" { '1' } else { '0' };
                let before = last.replace(now).to_string();
                fields[4] = &before;
                fields.join(" ") + "\n"
            })
        }
    }
    EachFromPowerOn "every record starts at power-on" {
        fn run(trace: &[u8]) -> Vec<u8> {
            let cycles: Vec<Cycle> = match Document01::count(trace) {
                Ok(_) => Document01::cycles(trace).collect(),
                Err(_) => Vec::new(),
            };
            lines(trace, |number, _| {
                let answer = Document01::step(&mut Unit::power_on(), &cycles[number - 1]);
                format!("{} {answer}\n", number - 1)
            })
        }
    }
    FirstRepeated "the run works on the first cycle and repeats it" {
        fn run(trace: &[u8]) -> Vec<u8> {
            let first = Document01::run(trace);
            let Some(line) = first.split(|&byte| byte == b'\n').nth(1) else {
                return first;
            };
            let fields = String::from_utf8_lossy(line).into_owned();
            let fields = fields.split_once(' ').map_or("", |(_, fields)| fields);
            lines(trace, |number, _| format!("{} {fields}\n", number - 1))
        }
    }
    DistanceInHex "the distance is in hexadecimal" {
        fn run(trace: &[u8]) -> Vec<u8> {
            distances(trace, |_, distance| format!("{distance:X}"))
        }
    }
    DistanceTwoDigits "the distance has two hexadecimal digits, as the data byte" {
        fn run(trace: &[u8]) -> Vec<u8> {
            distances(trace, |_, distance| format!("{distance:02X}"))
        }
    }
    DistanceThreeDigits "the distance has leading zeros" {
        fn run(trace: &[u8]) -> Vec<u8> {
            distances(trace, |_, distance| format!("{distance:03}"))
        }
    }
    DistanceAligned "the distance is filled up with spaces" {
        fn run(trace: &[u8]) -> Vec<u8> {
            distances(trace, |_, distance| format!("{distance:3}"))
        }
    }
    DistanceSigned "a distance above 127 is printed as a negative number" {
        fn run(trace: &[u8]) -> Vec<u8> {
            distances(trace, |_, distance| (distance as i8).to_string())
        }
    }
    DistanceInBytes "the distance is in bytes, 256 to a block" {
        fn run(trace: &[u8]) -> Vec<u8> {
            distances(trace, |_, distance| (256 * u32::from(distance)).to_string())
        }
    }
    DistanceZeroDashes "a distance of 0 is printed as --" {
        fn run(trace: &[u8]) -> Vec<u8> {
            distances(trace, |_, distance| match distance {
                0 => "--".to_string(),
                _ => distance.to_string(),
            })
        }
    }
    DistanceDashes "a cycle that is not translated has -- for its distance" {
        fn run(trace: &[u8]) -> Vec<u8> {
            distances(trace, |fields, distance| match translated(fields) {
                true => distance.to_string(),
                false => "--".to_string(),
            })
        }
    }
    DistanceKept "a cycle that is not translated shows the last distance" {
        fn run(trace: &[u8]) -> Vec<u8> {
            let last = std::cell::Cell::new(0);
            distances(trace, |fields, distance| {
                if translated(fields) {
                    last.set(distance);
                }
                last.get().to_string()
            })
        }
    }
    DistanceOfTranslated "only a translated cycle has a seventh field" {
        fn run(trace: &[u8]) -> Vec<u8> {
            lines(trace, |_, line| match translated(line) {
                true => format!("{line}\n"),
                false => without_distance(line),
            })
        }
    }
    DistanceNotOfRefused "a refused cycle has no seventh field" {
        fn run(trace: &[u8]) -> Vec<u8> {
            lines(trace, |_, line| match line.contains('X') {
                true => without_distance(line),
                false => format!("{line}\n"),
            })
        }
    }
    DistanceUnprinted "no line has a seventh field" {
        fn run(trace: &[u8]) -> Vec<u8> {
            lines(trace, |_, line| without_distance(line))
        }
    }
    DistanceBeforeData "the distance stands before the data byte" {
        fn run(trace: &[u8]) -> Vec<u8> {
            distance_at(trace, 5)
        }
    }
    DistanceAfterAddress "the distance stands after the address" {
        fn run(trace: &[u8]) -> Vec<u8> {
            distance_at(trace, 3)
        }
    }
}
