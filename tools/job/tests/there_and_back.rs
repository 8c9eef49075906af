//! Going from bytes to text and back gives the same bytes, whatever they are; and the jobs of examples/jobs are their
//! texts.

use job::{pack, read, text_of};
use std::fs;
use std::path::Path;

/// Numbers that look random, the same in every run.
struct Random(u64);

impl Random {
    fn next(&mut self) -> u64 {
        self.0 = self
            .0
            .wrapping_mul(6364136223846793005)
            .wrapping_add(1442695040888963407);
        self.0 >> 33
    }

    fn below(&mut self, limit: usize) -> usize {
        self.next() as usize % limit
    }

    fn byte(&mut self) -> u8 {
        match self.below(4) {
            0 => 0,
            1 => self.below(4) as u8,
            _ => self.next() as u8,
        }
    }
}

fn same_again(bytes: &[u8]) {
    let text = text_of(bytes);
    assert_eq!(pack(&text).as_deref(), Ok(bytes), "{text}");
    assert_eq!(text_of(&pack(&text).unwrap()), text);
}

const EXAMPLE: &str = "
chain:
count 1
zeros 7
letter C          # a head that turns without end
carrier head
limited no
zeros 5
axis 0 0 1
pivot 0 0 0
limits 0 0
spindle 0 0 1
poses:
pose 1 2 3 0 0 1
pose 3 2 3 0 0 3FF0000000000000
chain-offset chain
pose-offset poses
pose-count all
word 0
cone 1
chord 0.5
axis-tolerance 0.5
";

#[test]
fn the_example() {
    let bytes = pack(EXAMPLE).unwrap();
    assert_eq!(bytes.len(), 104 + 2 * 48 + 40);
    assert_eq!(
        &bytes[200..216],
        [0, 0, 0, 0, 104, 0, 0, 0, 2, 0, 0, 0, 0, 0, 0, 0]
    );
    let job = read(&bytes).unwrap();
    assert_eq!((job.chain.clone(), job.poses.clone()), (0..104, 104..200));
    assert_eq!((job.cone, job.chord, job.axis), (1.0, 0.5, 0.5));
    assert_eq!(
        job.numbers(&bytes),
        [1.0, 2.0, 3.0, 0.0, 0.0, 1.0, 3.0, 2.0, 3.0, 0.0, 0.0, 1.0]
    );
    let plain = text_of(&bytes);
    assert!(plain.contains("pose 3 2 3 0 0 1\n") && !plain.contains('#'));
    same_again(&bytes);
}

/// The example with a rest angle, and the word that says so.
fn rested() -> Vec<u8> {
    let text = EXAMPLE.replace("limits 0 0\n", "limits 0 0\nrest -90\n");
    pack(&text.replace("word 0", "word 1")).unwrap()
}

#[test]
fn a_rest_angle() {
    let bytes = rested();
    assert_eq!(bytes.len(), 112 + 2 * 48 + 40);
    assert_eq!(bytes[80..88], (-90.0f64).to_le_bytes());
    let job = read(&bytes).unwrap();
    assert_eq!((job.chain, job.poses), (0..112, 112..208));
    assert!(text_of(&bytes).contains("limits 0 0\nrest -90\nspindle 0 0 1\n"));
    same_again(&bytes);
    for (word, at) in [(0u8, None), (2, Some(220)), (255, Some(220))] {
        let mut other = bytes.clone();
        other[220] = word;
        assert_eq!(read(&other).err().map(|breach| breach.at), at);
        same_again(&other);
    }
}

#[test]
fn any_bytes() {
    let mut random = Random(1);
    let lengths = (0..300).cycle().take(3000).chain([1000, 65_536, 65_537]);
    for length in lengths {
        let bytes: Vec<u8> = (0..length).map(|_| random.byte()).collect();
        same_again(&bytes);
    }
}

/// A byte or several changed, one of the trailer's every other time, and bytes taken away or put in.
#[test]
fn damaged_jobs() {
    let sound = [pack(EXAMPLE).unwrap(), rested()];
    let mut random = Random(2);
    for _ in 0..10_000 {
        let mut bytes = sound[random.below(2)].clone();
        for _ in 0..1 + random.below(3) {
            let at = match random.below(2) {
                0 => random.below(bytes.len()),
                _ => bytes.len().saturating_sub(1 + random.below(40)),
            };
            match random.below(8) {
                0 => bytes.insert(at, random.byte()),
                1 if bytes.len() > 30 => drop(bytes.remove(at)),
                _ => bytes[at] = random.byte(),
            }
        }
        same_again(&bytes);
    }
}

#[test]
fn faults() {
    for (text, line) in [
        ("cone 1\nfoo 1", 2),
        ("cone", 1),
        ("cone 1 2", 1),
        ("count 256", 1),
        ("letter CD", 1),
        ("bytes", 1),
        ("bytes 1", 1),
        ("carrier desk", 1),
        ("pose 1 2 3 4 5", 1),
        ("cone nan", 1),
        ("word 4294967296", 1),
        ("\n# nothing\nchain-offset chain", 3),
        ("chain:\nchain:", 2),
    ] {
        assert_eq!(pack(text).unwrap_err().line, line, "{text}");
    }
    assert_eq!(
        pack("foo 1").unwrap_err().to_string(),
        "line 1: 'foo 1' is not understood"
    );
}

#[test]
fn examples() {
    let folder = Path::new(env!("CARGO_MANIFEST_DIR")).join("../../examples/jobs");
    let mut count = 0;
    for entry in fs::read_dir(folder).unwrap() {
        let text = entry.unwrap().path();
        if text.extension().is_some_and(|extension| extension == "txt") {
            let bytes = fs::read(text.with_extension("job")).unwrap();
            let spelt = pack(&fs::read_to_string(&text).unwrap());
            assert_eq!(spelt.as_deref(), Ok(&bytes[..]), "{text:?}");
            same_again(&bytes);
            count += 1;
        }
    }
    assert!(count > 0);
}
