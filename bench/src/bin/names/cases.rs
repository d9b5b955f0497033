//! The cases that are measured: for each two messages with a name, and whether the names are equal.

/// Zero octets in the place of a header, which no pointer may lead into.
const HEADER: [u8; 12] = [0; 12];

/// A message and the offset of a name in it.
pub struct Place {
    pub message: Vec<u8>,
    pub at: usize,
}

pub struct Case {
    pub title: &'static str,
    /// How the letters of the second name are written.
    pub letters: &'static str,
    pub places: [Place; 2],
    pub same: bool,
}

/// A name: its labels without their lengths, and how many pointers it is written with.
struct Name {
    labels: Vec<Vec<u8>>,
    pointers: usize,
}

impl Name {
    /// A name with labels of these lengths, of the letters from a to z again and again.
    fn new(lengths: &[usize], pointers: usize) -> Name {
        let mut letters = (b'a'..=b'z').cycle();
        let labels = lengths.iter().map(|length| letters.by_ref().take(*length).collect()).collect();
        Name { labels, pointers }
    }

    /// The same name, but with another letter at its end.
    fn with_other_end(mut self) -> Name {
        if let Some(letter) = self.labels.last_mut().and_then(|label| label.last_mut()) {
            *letter = if *letter == b'a' { b'b' } else { b'a' };
        }
        self
    }

    fn in_capitals(&self) -> Name {
        Name { labels: self.labels.iter().map(|label| label.to_ascii_uppercase()).collect(), ..*self }
    }

    /// Writes the name into a message, from its last run of labels to its first. The pointers stand between runs that are
    /// as even as can be; where there are fewer labels than pointers, some of the runs are empty.
    fn place(&self) -> Place {
        let (mut message, mut at) = (HEADER.to_vec(), 0);
        let first_label = |run: usize| run * self.labels.len() / (self.pointers + 1);
        for run in (0..=self.pointers).rev() {
            let start = message.len();
            for label in &self.labels[first_label(run)..first_label(run + 1)] {
                message.push(label.len() as u8);
                message.extend(label);
            }
            if run == self.pointers {
                message.push(0);
            } else {
                message.extend((0xC000 | at as u16).to_be_bytes());
            }
            at = start;
        }
        Place { message, at }
    }
}

/// A case with the letters of both names alike, and one with those of the second name in the other case.
fn both(title: &'static str, first: Name, second: Name, same: bool) -> [Case; 2] {
    let case = |letters, second: &Name| Case { title, letters, places: [first.place(), second.place()], same };
    [case("alike", &second), case("other case", &second.in_capitals())]
}

/// Two names with labels of the same lengths, each with so many pointers.
fn equal(title: &'static str, lengths: &[usize], pointers: [usize; 2]) -> [Case; 2] {
    let [first, second] = pointers.map(|count| Name::new(lengths, count));
    both(title, first, second, true)
}

pub fn all() -> Vec<Case> {
    let short = &[5];
    let four = &[63, 63, 63, 61];
    let (mut seventeen, many) = ([14; 17], &[1; 127]);
    seventeen[16] = 13;
    [
        equal("7 octets, 1 label, no pointers", short, [0, 0]),
        equal("7 octets, 1 label, 16 pointers in both", short, [16, 16]),
        equal("7 octets, 1 label, no pointers against 16", short, [0, 16]),
        equal("255 octets, 4 labels, no pointers", four, [0, 0]),
        equal("255 octets, 17 labels, no pointers", &seventeen, [0, 0]),
        equal("255 octets, 17 labels, 16 pointers in both", &seventeen, [16, 16]),
        equal("255 octets, 127 labels, no pointers", many, [0, 0]),
        equal("255 octets, 127 labels, 16 pointers in both", many, [16, 16]),
        both("unequal: 7 octets against 8", Name::new(short, 0), Name::new(&[6], 0), false),
        both("unequal: last of 255 octets, 4 labels", Name::new(four, 0), Name::new(four, 0).with_other_end(), false),
        both("unequal: 7 octets, one with 17 pointers", Name::new(short, 0), Name::new(short, 17), false),
    ]
    .into_iter()
    .flatten()
    .collect()
}
