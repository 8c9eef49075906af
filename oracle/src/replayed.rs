//! A case that the program `replay` replays: its bytes, as the program reads them, and the line that it must write, as
//! crates/replay/README.md describes both.

use std::fmt::Write;

/// What stands in each lent number before a call, and in each lent whole number.
pub const FILLED: f64 = 7.25;
pub const FILLED_COUNT: u64 = 7;

/// What the program has room for: bytes of a case and numbers of a part.
const MOST_BYTES: usize = 65_600;
const MOST_NUMBERS: usize = 128;

/// How many numbers a case is lent at most, that lines stay short; and with 27, which wants space for 10,000 poses more
/// than the two that are given, and in a quotation, as many as the program has. They are one number throughout then, and a
/// line counts them.
const MOST_ROOMS: [usize; 2] = [256, 128];
const LONG_ROOMS: [usize; 2] = [60_012, 50_010];

/// The same where a path is divided in turns, whose outputs go from case to case: a turn has them among its numbers.
const TURN_ROOMS: [usize; 2] = [330, 275];

/// Every entry, by its number in a case.
pub const ENTRIES: [&str; 32] = [
    "check_chain",
    "forward",
    "check_model",
    "link_world",
    "link_in_part",
    "inverse",
    "choose",
    "solve_path",
    "subdivide_path",
    "solve_and_divide",
    "read_job",
    "job_poses",
    "cable_number",
    "sine",
    "cosine",
    "arctangent",
    "arccosine",
    "write_job",
    "build_extremes",
    "replace_joints",
    "first_above",
    "quote",
    "grant",
    "divide_for",
    "choose_tooth",
    "links_meet",
    "subdivide_strict",
    "quote_strict",
    "admit",
    "next",
    "turn",
    "count",
];

/// What a call is given: the choice or the rotary; the bytes of a chain or of a job; a name, a model and a carrier; two slices of
/// numbers, and those that stand by themselves; and how many numbers it is lent.
#[derive(Clone, Copy, Default)]
pub struct Given<'a> {
    pub which: u16,
    pub bytes: &'a [u8],
    pub texts: [&'a [u8]; 3],
    pub numbers: [&'a [f64]; 3],
    pub rooms: [usize; 2],
}

impl Given<'_> {
    fn fits(&self, entry: usize, number: u32) -> bool {
        let most = match (ENTRIES[entry], number) {
            ("admit" | "turn", _) => TURN_ROOMS,
            ("quote" | "quote_strict", _) | (_, 27) => LONG_ROOMS,
            _ => MOST_ROOMS,
        };
        let most_numbers = match ENTRIES[entry] {
            "turn" => TURN_ROOMS[0],
            _ => MOST_NUMBERS,
        };
        let fit = |numbers: &&[f64]| numbers.len() <= most_numbers;
        let [first, second] = [0, 1].map(|i| self.rooms[i] <= most[i]);
        self.numbers.iter().all(fit) && first && second
    }
}

/// A case with the number that it is answered with.
#[derive(Clone)]
pub struct Replayed {
    pub number: u32,
    pub bytes: Vec<u8>,
    pub line: String,
}

impl Replayed {
    /// None where the program has no room for it.
    pub fn new(line: Line, given: &Given) -> Option<Self> {
        let Line {
            entry,
            number,
            text,
        } = line;
        let mut case = Vec::new();
        let lengths = given.texts.map(<[u8]>::len).into_iter();
        let lengths = lengths.chain(given.numbers.map(<[f64]>::len));
        let fields = [entry, usize::from(given.which)].into_iter();
        for field in fields.chain(lengths).chain(given.rooms) {
            case.extend(u16::try_from(field).ok()?.to_le_bytes());
        }
        case.extend(given.texts.concat());
        case.extend(given.numbers.concat().iter().flat_map(|x| x.to_le_bytes()));
        case.extend(given.bytes);
        let length = u32::try_from(case.len()).ok()?.to_le_bytes();
        let bytes = [&length[..], &case].concat();
        let fits = given.fits(entry, number) && case.len() <= MOST_BYTES;
        let line = text + "\n";
        fits.then_some(Replayed {
            number,
            bytes,
            line,
        })
    }

    pub fn size(&self) -> usize {
        self.bytes.len() + self.line.len()
    }
}

/// A line as it is written.
pub struct Line {
    entry: usize,
    number: u32,
    text: String,
}

impl Line {
    /// With the number alone.
    pub fn of(entry: &str, number: u32) -> Self {
        let place = ENTRIES.iter().position(|name| *name == entry);
        Line {
            entry: place.expect("an entry"),
            number,
            text: format!("{entry} {number}"),
        }
    }

    pub fn new(entry: &str, number: u32, at: u64, letter: u8) -> Self {
        let line = Line::of(entry, number);
        line.count(at).count(u64::from(letter))
    }

    pub fn count(mut self, n: u64) -> Self {
        write!(self.text, " {n}").expect("a String takes every text");
        self
    }

    pub fn words(mut self, words: &str) -> Self {
        self.text += words;
        self
    }

    pub fn whole_numbers(mut self, numbers: &[u64]) -> Self {
        self.text += " :";
        numbers.iter().fold(self, |line, &n| line.count(n))
    }

    /// The numbers up to the last that differs from the one behind it, and that one with how often it stands there.
    pub fn numbers(mut self, numbers: &[f64]) -> Self {
        self.text += " :";
        let Some(last) = numbers.last().map(|&x| spelled(x)) else {
            return self;
        };
        let differs = numbers.iter().rposition(|&x| spelled(x) != last);
        let front = differs.map_or(0, |at| at + 1);
        for &x in &numbers[..front] {
            self.text += &format!(" {}", spelled(x));
        }
        self.text += &format!(" {last}*{}", numbers.len() - front);
        self
    }
}

/// Every nan is read as one.
fn spelled(x: f64) -> String {
    match x.is_nan() {
        true => "nan".to_owned(),
        false => format!("{:016X}", x.to_bits()),
    }
}

#[cfg(test)]
mod tests {
    use super::*;

    #[test]
    fn equal_numbers_at_the_end_are_counted() {
        let line = |numbers: &[f64]| Line::of("sine", 0).numbers(numbers).text;
        assert_eq!(line(&[]), "sine 0 :");
        assert_eq!(line(&[1.0]), "sine 0 : 3FF0000000000000*1");
        assert_eq!(
            line(&[0.0, -0.0, -0.0]),
            "sine 0 : 0000000000000000 8000000000000000*2"
        );
        assert_eq!(line(&[f64::NAN, -f64::NAN]), "sine 0 : nan*2");
    }

    #[test]
    fn a_case_stands_behind_its_length() {
        let given = Given {
            bytes: b"ab",
            texts: [b"c", b"", b""],
            numbers: [&[1.0], &[], &[]],
            ..Given::default()
        };
        let case = Replayed::new(Line::of("forward", 0), &given).expect("a short case");
        assert_eq!(case.bytes.len(), 4 + 20 + 1 + 8 + 2);
        assert_eq!(case.bytes[..10], [31, 0, 0, 0, 1, 0, 0, 0, 1, 0]);
        assert_eq!((case.bytes[24], &case.bytes[33..]), (b'c', &b"ab"[..]));
    }
}
