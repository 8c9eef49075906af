//! Doubles as words of a text.

/// As few digits as give the same bits, or the bits.
pub fn spelt(number: f64) -> String {
    if !number.is_finite() {
        return format!("{:016X}", number.to_bits());
    }
    let all = format!("{number:?}");
    match all.strip_suffix(".0") {
        Some(whole) if !is_bits(whole) => whole.to_owned(),
        _ => all,
    }
}

pub fn number_in(word: &str) -> Option<f64> {
    if is_bits(word) {
        return u64::from_str_radix(word, 16).ok().map(f64::from_bits);
    }
    let decimal = |c: char| c.is_ascii_digit() || "+-.eE".contains(c);
    if word.chars().all(decimal) {
        return word.parse().ok().filter(|number: &f64| number.is_finite());
    }
    None
}

fn is_bits(word: &str) -> bool {
    word.len() == 16 && word.bytes().all(|c| matches!(c, b'0'..=b'9' | b'A'..=b'F'))
}

#[cfg(test)]
mod tests {
    use super::*;

    #[test]
    fn words() {
        for (number, word) in [
            (1.0, "1"),
            (-0.0, "-0"),
            (0.1, "0.1"),
            (1e300, "1e300"),
            (1234567890123456.0, "1234567890123456.0"),
            (f64::INFINITY, "7FF0000000000000"),
        ] {
            assert_eq!(spelt(number), word);
            assert_eq!(number_in(word).unwrap().to_bits(), number.to_bits());
        }
        assert_eq!(number_in("4008000000000000"), Some(3.0));
        for word in ["", "1e999", "nan", "inf", "x", "4008000000000000F", "--1"] {
            assert_eq!(number_in(word), None, "{word}");
        }
    }

    /// Bits one after the other, spread over all doubles.
    #[test]
    fn there_and_back() {
        let mut bits: u64 = 1;
        for _ in 0..200_000 {
            bits = bits
                .wrapping_mul(6364136223846793005)
                .wrapping_add(1442695040888963407);
            let word = spelt(f64::from_bits(bits));
            assert_eq!(number_in(&word).unwrap().to_bits(), bits, "{word}");
        }
    }
}
