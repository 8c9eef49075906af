//! What the library writes for a text is what the packer makes of it, byte for byte, wherever the library writes it: of
//! the texts of examples/jobs, and of jobs that are drawn.

use job::{NotWritten, pack, text_of, write};
use maztubel::{Carrier, Chain, Job, Limits, Pose, Rotary, Tolerances};
use std::collections::BTreeMap;
use std::fs;
use std::path::Path;

/// The texts of examples/jobs that the writer refuses, with its number. A chain comes before the cone, and no pose is
/// solved.
const REFUSED: [(&str, u32); 18] = [
    ("axis-not-finite", 6),
    ("axis-overflows", 7),
    ("axis-zero", 7),
    ("cone-wide", 18),
    ("cone-zero", 9),
    ("letter-twice", 5),
    ("limits-not-finite", 8),
    ("limits-refused", 8),
    ("parallel", 17),
    ("pivot-far", 17),
    ("rest-far", 17),
    ("rest-not-finite", 6),
    ("spindle-not-finite", 6),
    ("spindle-zero", 9),
    ("tip-far", 17),
    ("tip-not-finite", 16),
    ("tolerance", 19),
    ("tolerance-later", 19),
];

/// Those that are no text of a written job, with the line that is not.
const FAULTY: [(&str, usize); 19] = [
    ("apart", 2),
    ("carrier", 6),
    ("chain-at-trailer", 16),
    ("chain-far", 16),
    ("chain-past-trailer", 2),
    ("count-zeros", 4),
    ("letter", 13),
    ("limited", 14),
    ("long", 13),
    ("no-poses-past-trailer", 14),
    ("poses-far", 18),
    ("poses-on-chain", 16),
    ("poses-past-trailer", 18),
    ("rotary-zeros", 8),
    ("short", 2),
    ("three-rotaries", 12),
    ("unused-maximum", 11),
    ("unused-minimum", 11),
    ("zero-word", 4),
];

fn texts() -> BTreeMap<String, String> {
    let folder = Path::new(env!("CARGO_MANIFEST_DIR")).join("../../examples/jobs");
    let files = fs::read_dir(folder)
        .unwrap()
        .map(|entry| entry.unwrap().path());
    let texts = files.filter(|path| path.extension().is_some_and(|extension| extension == "txt"));
    let named = |path: &Path| path.file_stem().unwrap().to_str().unwrap().to_owned();
    texts
        .map(|path| (named(&path), fs::read_to_string(path).unwrap()))
        .collect()
}

/// Of every text what `REFUSED` and `FAULTY` say; all others are written, to the packer's bytes.
#[test]
fn examples() {
    let (mut written, mut refused, mut faulty) = (0, Vec::new(), Vec::new());
    for (name, text) in texts() {
        match write(&text) {
            Ok(bytes) => {
                assert_eq!(pack(&text).as_ref(), Ok(&bytes), "{name}");
                written += 1;
            }
            Err(NotWritten::Refused(refusal)) => refused.push((name, refusal.number())),
            Err(NotWritten::Fault(fault)) => faulty.push((name, fault.line)),
        }
    }
    assert_eq!(refused, REFUSED.map(|(name, number)| (name.into(), number)));
    assert_eq!(faulty, FAULTY.map(|(name, line)| (name.into(), line)));
    assert!(written > 9, "{written}");
}

/// Numbers that look random, the same in every run.
struct Random(u64);

impl Random {
    fn next(&mut self) -> u64 {
        self.0 = self
            .0
            .wrapping_mul(6364136223846793005)
            .wrapping_add(1442695040888963407);
        self.0 >> 33
    }

    fn below(&mut self, limit: u64) -> u64 {
        self.next() % limit
    }

    /// Up to 1,000 in size, in thousandths or to the last bit; a subnormal number, or a zero of either sign.
    fn number(&mut self) -> f64 {
        let sign = if self.below(2) == 0 { 1.0 } else { -1.0 };
        sign * match self.below(8) {
            0 => 0.0,
            1 => f64::from_bits(self.next()),
            2 | 3 => self.below(1_000_000) as f64 / 1000.0,
            _ => 1000.0 * self.next() as f64 / (1u64 << 31) as f64 / 3.0,
        }
    }

    fn vector(&mut self) -> [f64; 3] {
        [self.number(), self.number(), self.number()]
    }

    /// One component is above 1e-15.
    fn direction(&mut self) -> [f64; 3] {
        let mut vector = self.vector();
        vector[self.below(3) as usize] = 1.0 + self.number().abs();
        vector
    }

    fn rotary(&mut self, letter: u8) -> Rotary {
        let limits = (self.below(2) == 0).then(|| {
            let min = self.number();
            let max = min + 1.0 + self.number().abs();
            Limits { min, max }
        });
        Rotary {
            letter,
            carrier: [Carrier::Table, Carrier::Head][self.below(2) as usize],
            axis: self.direction(),
            pivot: self.vector(),
            limits,
            rest: if self.below(2) == 0 {
                0.0
            } else {
                self.number()
            },
        }
    }

    fn job(&mut self) -> Job {
        let letters = [&b"A"[..], b"C", b"AC", b"BA"][self.below(4) as usize];
        let rotaries = letters.iter().map(|letter| self.rotary(*letter)).collect();
        let spindle = self.direction();
        let count = [0, 1, 2, 20][self.below(4) as usize];
        let pose = |random: &mut Random| Pose {
            tip: random.vector(),
            axis: random.vector(),
        };
        Job {
            chain: Chain { rotaries, spindle },
            poses: (0..count).map(|_| pose(self)).collect(),
            cone: (1 + self.below(1000)) as f64 / 100.0,
            tolerances: Tolerances {
                chord: self.number().abs() + f64::MIN_POSITIVE,
                axis: self.number().abs() + f64::MIN_POSITIVE,
            },
        }
    }
}

/// The text of a written job is packed to the bytes that were written, and written to them again.
#[test]
fn jobs_that_are_drawn() {
    let mut random = Random(3);
    let (mut rested, mut empty) = (0, 0);
    for _ in 0..2000 {
        let job = random.job();
        let bytes = job.to_bytes().unwrap();
        let text = text_of(&bytes);
        assert_eq!(pack(&text).as_ref(), Ok(&bytes), "{text}");
        assert_eq!(write(&text).as_ref(), Ok(&bytes), "{text}");
        rested += usize::from(text.contains("word 1\n"));
        empty += usize::from(job.poses.is_empty());
    }
    assert!(rested > 400 && rested < 1800, "{rested}");
    assert!(empty > 400, "{empty}");
}

const TEXT: &str = "
chain:
count 1
zeros 7
letter C
carrier head
limited no
zeros 5
axis 0 0 1
pivot 0 0 0
limits 0 0
spindle 0 0 1
poses:
pose 1 2 3 0 0 1
chain-offset 0
pose-offset 104
pose-count 1
word 0
cone 1
chord 0.5
axis-tolerance 0.5
";

#[test]
fn refusals_have_their_words() {
    assert_eq!(write(TEXT), Ok(pack(TEXT).unwrap()));
    for (line, other, words) in [
        (
            "cone 1",
            "cone 11",
            "refused 18: the cone must be finite, above 0 and at most 10 degrees",
        ),
        (
            "letter C",
            "letter D",
            "refused 4: a rotary's letter must be A, B or C: rotary 0",
        ),
        (
            "limited no",
            "limited yes",
            "refused 8: a rotary's limits must be finite, the lower below the upper: rotary 0",
        ),
    ] {
        let refused = write(&TEXT.replace(line, other)).unwrap_err();
        assert_eq!(refused.to_string(), words);
    }
    let none = "chain:\ncount 0\nzeros 7\nspindle 0 0 1\nchain-offset 0\npose-offset 32\npose-count 0\nword 0\n\
                cone 1\nchord 1\naxis-tolerance 1";
    assert_eq!(
        write(none).unwrap_err().to_string(),
        "refused 3: a chain must have 1 or 2 rotaries"
    );
}

/// The line that is at fault.
fn fault_of(text: &str) -> usize {
    match write(text) {
        Err(NotWritten::Fault(fault)) => fault.line,
        other => panic!("{text}: {other:?}"),
    }
}

/// Of a text with some words of it replaced.
#[test]
fn faults() {
    for (words, others, line) in [
        ("chain:\n", "", 2),
        ("chain:", "chain: 1", 2),
        ("count 1", "count 2", 12),
        ("zeros 7", "zeros 6", 4),
        ("zeros 5", "bytes 00 00 00 00 00", 8),
        ("carrier head", "carrier 2", 6),
        ("limited no", "limited maybe", 7),
        ("limits 0 0", "limits 0 1", 11),
        ("limits 0 0", "limits -0 0", 11),
        ("limits 0 0", "limits 0 0\nrest 1", 12),
        ("spindle 0 0 1", "spindle 0 0", 12),
        ("poses:", "bytes 01\nposes:", 13),
        ("pose 1", "pose nan", 14),
        ("chain-offset 0", "chain-offset 1", 15),
        ("pose-offset 104", "pose-offset 105", 16),
        ("pose-count 1", "pose-count 0", 17),
        ("word 0", "word 1", 12),
        ("word 0", "word 2", 18),
        ("axis-tolerance 0.5", "", 21),
        ("axis-tolerance 0.5", "axis-tolerance 0.5\nfill 1 00", 22),
    ] {
        assert_eq!(fault_of(&TEXT.replacen(words, others, 1)), line, "{others}");
    }
    let unlabelled = TEXT.replace("poses:\n", "");
    assert_eq!(write(&unlabelled), write(TEXT));
    let named = unlabelled.replace("pose-offset 104", "pose-offset poses");
    assert_eq!(fault_of(&named), 15);
}
