//! Whether two names are equal, as records have them: random pairs, each with the answer that comes of decoding both
//! names into lists of labels. `tests/names.c` asks the library for the same answers. Planted faults change how this
//! program answers, and show that the comparison would find such a mistake.

use crate::faults;
use crate::lines::hexadecimal;
use crate::make::pairs::{make, Pair};
use crate::names::{equal, read_with_pointers, Labels};
use std::io::{BufWriter, Write};

/// What this program does wrong on purpose.
#[derive(Clone, Copy, PartialEq, Eq, Debug)]
pub enum Planted {
    Nothing,
    /// Compares only up to the first pointer of either name.
    FirstPointer,
    /// Takes names whose labels have equal lengths for equal.
    Lengths,
    /// Stops at the shorter of two labels.
    ShorterLabel,
    /// Folds by setting bit 5 of every octet.
    Bit5,
    /// Takes two names that cannot be read for equal.
    Unreadable,
    /// Where both names come to a pointer at the same label, compares the targets as numbers and nothing after.
    Targets,
    /// Folds nothing.
    Case,
    /// Takes a name for equal to one that it begins.
    Prefix,
}

const FAULTS: [(&str, Planted); 8] = [
    ("first-pointer", Planted::FirstPointer),
    ("lengths", Planted::Lengths),
    ("shorter-label", Planted::ShorterLabel),
    ("bit-5", Planted::Bit5),
    ("unreadable", Planted::Unreadable),
    ("targets", Planted::Targets),
    ("case", Planted::Case),
    ("prefix", Planted::Prefix),
];

/// A message and the offset of a name in it.
type Spot<'a> = (&'a [u8], usize);

fn read((message, at): Spot) -> Option<Labels> {
    // Past the end the offset may be any number.
    if at >= message.len() {
        return None;
    }
    read_with_pointers(message, at, faults::NONE).map(|reading| reading.labels)
}

/// Whether two names are equal; one that cannot be read equals nothing.
pub fn same(one: Spot, other: Spot, planted: Planted) -> bool {
    match (read(one), read(other)) {
        (Some(labels), Some(others)) if planted == Planted::Nothing => equal(&labels, &others, faults::NONE),
        (Some(labels), Some(others)) => wrongly_same((one, labels), (other, others), planted),
        (None, None) => planted == Planted::Unreadable,
        _ => false,
    }
}

/// The answer of a planted fault on two names that can be read.
fn wrongly_same((one, mut labels): (Spot, Labels), (other, mut others): (Spot, Labels), planted: Planted) -> bool {
    // As many labels are compared, and no more.
    let mut most = usize::MAX;
    match planted {
        Planted::FirstPointer => {
            let first = [one, other].into_iter().filter_map(|spot| pointers(spot).first().copied()).min();
            most = first.map_or(most, |(label, _)| label);
        }
        Planted::Targets => match common_pointer(&pointers(one), &pointers(other)) {
            Some((_, false)) => return false,
            Some((label, true)) => most = label,
            None => {}
        },
        Planted::Prefix => most = labels.len().min(others.len()),
        Planted::ShorterLabel => {
            for (label, other) in labels.iter_mut().zip(&mut others) {
                let size = label.len().min(other.len());
                label.truncate(size);
                other.truncate(size);
            }
        }
        Planted::Lengths => return each_octet(labels, |_| 0) == each_octet(others, |_| 0),
        Planted::Bit5 => return each_octet(labels, |octet| octet | 32) == each_octet(others, |octet| octet | 32),
        Planted::Case => return labels == others,
        Planted::Nothing | Planted::Unreadable => {}
    }
    labels.truncate(most);
    others.truncate(most);
    equal(&labels, &others, faults::NONE)
}

fn each_octet(labels: Labels, change: fn(u8) -> u8) -> Labels {
    labels.into_iter().map(|label| label.into_iter().map(change).collect()).collect()
}

/// The pointers of a name that can be read: before which label each stands, and its target.
fn pointers((message, start): Spot) -> Vec<(usize, usize)> {
    let (mut found, mut label, mut at) = (Vec::new(), 0, start);
    loop {
        match usize::from(message[at]) {
            0 => return found,
            size @ 1..=63 => {
                label += 1;
                at += 1 + size;
            }
            first => {
                at = (first & 63) * 256 + usize::from(message[at + 1]);
                found.push((label, at));
            }
        }
    }
}

/// The first label at which both names come to a pointer, and whether the targets there are the same number.
fn common_pointer(ones: &[(usize, usize)], others: &[(usize, usize)]) -> Option<(usize, bool)> {
    ones.iter().find_map(|&(label, target)| {
        let (_, other) = others.iter().find(|(other, _)| *other == label)?;
        Some((label, target == *other))
    })
}

/// A line: the answer, both offsets and both messages; `=` for the same message again, `-` for one of no octets.
fn line(pair: &Pair, planted: Planted) -> String {
    let Pair { message, at, other, other_at } = pair;
    let answer = same((message, *at), (other.as_ref().unwrap_or(message), *other_at), planted);
    let mut text = format!("{} {at} {other_at}", u8::from(answer));
    for message in [Some(message), other.as_ref()] {
        match message {
            None => text.push_str(" ="),
            Some(octets) if octets.is_empty() => text.push_str(" -"),
            Some(octets) => {
                text.push(' ');
                hexadecimal(&mut text, octets);
            }
        }
    }
    text.push('\n');
    text
}

struct Options {
    pairs: u64,
    from: u64,
    planted: Planted,
}

fn read_options(arguments: &[String]) -> Result<Options, String> {
    let mut options = Options { pairs: 100_000, from: 0, planted: Planted::Nothing };
    let mut rest = arguments.iter();
    while let Some(key) = rest.next() {
        let value = rest.next().ok_or(format!("{key} needs a value"))?;
        let number = || value.parse::<u64>().map_err(|_| format!("{key} needs a number, not {value}"));
        match key.as_str() {
            "--pairs" => options.pairs = number()?,
            "--from" => options.from = number()?,
            "--fault" => {
                let fault = FAULTS.iter().find(|(word, _)| word == value);
                options.planted = fault.ok_or(format!("{value} is no planted fault"))?.1;
            }
            _ => return Err(format!("{key} is no option")),
        }
    }
    Ok(options)
}

/// The command: prints the pairs of as many seeds, one on a line.
pub fn pairs(arguments: &[String]) -> i32 {
    let options = match read_options(arguments) {
        Ok(options) => options,
        Err(why) => {
            let words = FAULTS.map(|(word, _)| word).join(", ");
            eprintln!("names: {why}\nusage: second names [--pairs N] [--from SEED] [--fault WORD]\nfaults: {words}");
            return 2;
        }
    };
    let mut out = BufWriter::new(std::io::stdout().lock());
    for number in 0..options.pairs {
        let pair = make(options.from.wrapping_add(number));
        if out.write_all(line(&pair, options.planted).as_bytes()).is_err() {
            return 1;
        }
    }
    i32::from(out.flush().is_err())
}

#[cfg(test)]
mod tests {
    use super::*;

    /// The name `ab.c` at 12, `AB` and a pointer to `c` at 18, a pointer to that at 23, `ab` alone at 25, a loop at 29.
    const MESSAGE: &[u8] = b"\0\0\0\0\0\0\0\0\0\0\0\0\x02ab\x01c\0\x02AB\xc0\x0f\xc0\x12\x02ab\0\xc0\x1d";

    fn ask(at: usize, other_at: usize, planted: Planted) -> bool {
        same((MESSAGE, at), (MESSAGE, other_at), planted)
    }

    #[test]
    fn names_are_equal_by_their_labels() {
        for (at, other_at) in [(12, 12), (12, 18), (18, 23), (23, 12), (15, 15), (17, 28)] {
            assert!(ask(at, other_at, Planted::Nothing) && ask(other_at, at, Planted::Nothing), "{at} {other_at}");
        }
        for (at, other_at) in [(12, 25), (12, 15), (12, 17), (29, 29), (29, 12), (31, 31), (usize::MAX, usize::MAX)] {
            assert!(!ask(at, other_at, Planted::Nothing) && !ask(other_at, at, Planted::Nothing), "{at} {other_at}");
        }
    }

    #[test]
    fn planted_faults_answer_otherwise() {
        assert!(ask(25, 12, Planted::Prefix) && ask(29, 31, Planted::Unreadable) && !ask(12, 18, Planted::Case));
        // `AB` and a pointer against `ab` alone; a pointer at once against any name.
        assert!(ask(18, 25, Planted::FirstPointer) && ask(23, 15, Planted::FirstPointer));
        let lone = |octets: &[u8]| [&[octets.len() as u8], octets, &[0]].concat();
        let wrong = |one: &[u8], other: &[u8], planted| {
            let (one, other) = (lone(one), lone(other));
            !same((&one, 0), (&other, 0), Planted::Nothing) && same((&one, 0), (&other, 0), planted)
        };
        assert!(wrong(b"ab", b"xy", Planted::Lengths) && wrong(b"ab", b"abc", Planted::ShorterLabel));
        assert!(wrong(b"@", b"`", Planted::Bit5) && wrong(b"\xc4", b"\xe4", Planted::Bit5));
    }

    #[test]
    fn targets_are_compared_as_numbers() {
        let message = |name: &[u8], target: u8| [&[0; 12], name, &[1, b'x', 0xc0, target]].concat();
        let (one, two, three) = (message(b"\x01a\0", 12), message(b"\x01b\0", 12), message(b"\0\x01a\0", 13));
        let ask = |one: &[u8], other: &[u8], planted| same((one, one.len() - 4), (other, other.len() - 4), planted);
        assert!(!ask(&one, &two, Planted::Nothing) && ask(&one, &two, Planted::Targets));
        assert!(ask(&one, &three, Planted::Nothing) && !ask(&one, &three, Planted::Targets));
    }

    #[test]
    fn about_two_of_five_pairs_are_equal_and_each_fault_is_found() {
        let pairs: Vec<Pair> = (0..4000).map(make).collect();
        let right: Vec<String> = pairs.iter().map(|pair| line(pair, Planted::Nothing)).collect();
        let count = right.iter().filter(|line| line.starts_with('1')).count();
        assert!((1400..1800).contains(&count), "{count}");
        let size = |pair: &Pair| pair.message.len().max(pair.other.as_ref().map_or(0, Vec::len));
        // Some names begin where a target needs all of its 14 bits.
        assert!(pairs.iter().map(size).max().is_some_and(|size| (8192..18_000).contains(&size)));
        for (word, planted) in FAULTS {
            let found = pairs.iter().zip(&right).filter(|(pair, right)| line(pair, planted) != **right).count();
            assert!(found >= 4, "{word}: {found}");
        }
    }

    #[test]
    fn lines_have_five_words() {
        let pair = Pair { message: vec![], at: 0, other: None, other_at: 7 };
        assert_eq!(line(&pair, Planted::Nothing), "0 0 7 - =\n");
        let pair = Pair { message: vec![0], at: 0, other: Some(vec![1, 0xab, 0]), other_at: 2 };
        assert_eq!(line(&pair, Planted::Nothing), "1 0 2 00 01ab00\n");
    }

    #[test]
    fn options_are_read() {
        let read = |text: &str| read_options(&text.split_whitespace().map(String::from).collect::<Vec<_>>());
        assert!(read("").is_ok_and(|options| options.pairs == 100_000 && options.planted == Planted::Nothing));
        assert!(
            read("--fault bit-5 --from 7").is_ok_and(|options| options.from == 7 && options.planted == Planted::Bit5)
        );
        assert!(read("--fault bit-6").is_err() && read("--pairs x").is_err() && read("pairs 1").is_err());
    }
}
