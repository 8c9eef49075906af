//! Document 02's table of half degrees, from the oracle's own sums and not from the port: the sine of 0 to 90 degrees in half
//! degrees times 2^52, each the nearest whole number; and the sine and cosine that it gives at every half degree.

use crate::exact::Sums;
use std::sync::LazyLock;

/// How many entries the table has.
pub const TEETH: usize = 181;

/// How many half degrees a whole turn and a quarter turn have.
pub const TURN: u64 = 720;
const QUARTER: u64 = 180;

const SCALE: f64 = (1u64 << 52) as f64;

static TABLE: LazyLock<[u64; TEETH]> = LazyLock::new(|| {
    let sums = Sums::default();
    std::array::from_fn(|i| sums.at_degrees(i as f64 / 2.0).0.nearest_of_52())
});

/// The nearest half degree: a half away from zero, a zero as +0.0.
pub fn snapped(degrees: f64) -> f64 {
    let halves = (degrees.abs() * 2.0).round();
    match degrees < 0.0 && halves > 0.0 {
        true => -halves / 2.0,
        false => halves / 2.0,
    }
}

/// How many half degrees an angle on a tooth has, as a size.
pub fn halves(degrees: f64) -> u64 {
    let halves = degrees.abs() * 2.0;
    assert!(
        halves.fract() == 0.0 && halves < 1e6,
        "{degrees} is no tooth"
    );
    halves as u64
}

/// The sine and the cosine of an angle on a tooth. Both are whole numbers over 2^52, so that a zero is +0.0.
pub fn pair(degrees: f64) -> (f64, f64) {
    let left = halves(degrees) % TURN;
    let at = (left % QUARTER) as usize;
    let [rise, run] = [TABLE[at], TABLE[TEETH - 1 - at]].map(|entry| entry as i64);
    let (sine, cosine) = match left / QUARTER {
        0 => (rise, run),
        1 => (run, -rise),
        2 => (-rise, -run),
        _ => (-run, rise),
    };
    let sine = if degrees < 0.0 { -sine } else { sine };
    (sine as f64 / SCALE, cosine as f64 / SCALE)
}

#[cfg(test)]
mod tests {
    use super::*;
    use std::fs;
    use std::path::Path;

    #[test]
    fn right_angles_are_right() {
        let turns = [0.0, 90.0, 180.0, 270.0, 360.0, -90.0, -180.0, 36_900.0];
        let pairs = turns.map(pair).map(|(s, c)| [s, c].map(f64::to_bits));
        let must = [
            [0.0, 1.0],
            [1.0, 0.0],
            [0.0, -1.0],
            [-1.0, 0.0],
            [0.0, 1.0],
            [-1.0, 0.0],
            [0.0, -1.0],
            [0.0, -1.0],
        ];
        assert_eq!(pairs, must.map(|pair: [f64; 2]| pair.map(f64::to_bits)));
    }

    #[test]
    fn pairs_are_near_libm() {
        for h in -1500..1500 {
            let degrees = f64::from(h) / 2.0;
            let (sine, cosine) = degrees.to_radians().sin_cos();
            let (s, c) = pair(degrees);
            assert!(
                (s - sine).abs() < 1e-14 && (c - cosine).abs() < 1e-14,
                "{degrees}"
            );
        }
    }

    #[test]
    fn halves_go_away_from_zero() {
        let all = [0.25, -0.25, 0.25_f64.next_down(), -0.0, -0.2, 30.3, -30.3];
        let must = [0.5, -0.5, 0.0, 0.0, 0.0, 30.5, -30.5];
        assert_eq!(all.map(|x| snapped(x).to_bits()), must.map(f64::to_bits));
    }

    /// The whole numbers that stand one to a line in the table of a file, from the mark on.
    fn written(file: &str, mark: &str) -> Vec<u64> {
        let path = Path::new(env!("CARGO_MANIFEST_DIR")).join("..").join(file);
        let text = fs::read_to_string(path).expect("a file of the repository");
        let (_, table) = text.split_once(mark).expect("the table's mark");
        let number = |line: &str| {
            let digits: String = line
                .trim()
                .chars()
                .take_while(char::is_ascii_digit)
                .collect();
            digits.parse().ok()
        };
        table.lines().skip(1).map_while(number).collect()
    }

    /// The program and its definition have the table that comes of these sums.
    #[test]
    fn the_tables_are_one() {
        let program = written("crates/hirth/src/teeth.rt", "static TEETH");
        let definition = written("crates/hirth/specs/Teeth.antt", "teeth =");
        assert_eq!((&program[..], &definition[..]), (&TABLE[..], &TABLE[..]));
    }
}
