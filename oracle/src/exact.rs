//! Document 01's S and C, in 192 digits after the point, and sums and products of such numbers.
//!
//! How far they are from the rationals S and C, in units of 2^-192: a double is exact here down to one unit; Pi / 2 and each 1 / n!
//! are cut off by less than 2; k is at most 510, so the rest x - k Pi / 2 is off by less than 1,021; each of at most 13 steps of a
//! sum adds less than 5; and the slope of a sum is at most 1. So S and C are off by less than 2^-180. Of an angle in degrees the
//! rest is a product of at most 45 with Pi / 180, which is cut off by less than 2: it is off by less than 92.

use std::cmp::Ordering;
use std::ops::{Add, Mul, Neg, Sub};

const DIGITS: usize = 4;

/// A whole number of units of 2^-192, below 2^64 in all; the least digits first.
#[derive(Clone, Copy, Debug, PartialEq, Eq)]
struct Size([u64; DIGITS]);

impl Size {
    const ZERO: Size = Size([0; DIGITS]);
    const ONE: Size = Size([0, 0, 0, 1]);

    /// m * 2^e, cut off below 2^-192.
    fn scaled(m: u64, e: i32) -> Size {
        let up = e + 192;
        if up < 0 {
            let kept = if up > -64 { m >> -up } else { 0 };
            return Size([kept, 0, 0, 0]);
        }
        let (at, shift) = (up as usize / 64, up as u32 % 64);
        let wide = u128::from(m) << shift;
        let mut digits = [0; DIGITS];
        for (i, part) in [wide as u64, (wide >> 64) as u64].into_iter().enumerate() {
            match digits.get_mut(at + i) {
                Some(digit) => *digit = part,
                None => assert_eq!(part, 0, "a number past 2^64"),
            }
        }
        Size(digits)
    }

    fn plus(self, other: Size) -> Size {
        let mut carry = false;
        let sum = Size(std::array::from_fn(|i| {
            let (low, over) = self.0[i].overflowing_add(other.0[i]);
            let (low, more) = low.overflowing_add(carry.into());
            carry = over || more;
            low
        }));
        assert!(!carry, "a sum past 2^64");
        sum
    }

    /// For an `other` that is not above.
    fn less(self, other: Size) -> Size {
        let mut borrow = false;
        let rest = Size(std::array::from_fn(|i| {
            let (low, under) = self.0[i].overflowing_sub(other.0[i]);
            let (low, more) = low.overflowing_sub(borrow.into());
            borrow = under || more;
            low
        }));
        assert!(!borrow, "a difference below 0");
        rest
    }

    fn times(self, other: Size) -> Size {
        let mut wide = [0u64; 2 * DIGITS];
        for i in 0..DIGITS {
            let mut carry = 0;
            for j in 0..DIGITS {
                let sum = u128::from(self.0[i]) * u128::from(other.0[j])
                    + u128::from(wide[i + j])
                    + u128::from(carry);
                wide[i + j] = sum as u64;
                carry = (sum >> 64) as u64;
            }
            wide[i + DIGITS] = carry;
        }
        assert_eq!(wide[2 * DIGITS - 1], 0, "a product past 2^64");
        Size(std::array::from_fn(|i| wide[i + DIGITS - 1]))
    }

    fn over(self, divisor: u64) -> Size {
        let mut rest = 0;
        let mut digits = self.0;
        for digit in digits.iter_mut().rev() {
            let wide = u128::from(rest) << 64 | u128::from(*digit);
            *digit = (wide / u128::from(divisor)) as u64;
            rest = (wide % u128::from(divisor)) as u64;
        }
        Size(digits)
    }

    fn compare(self, other: Size) -> Ordering {
        self.0.iter().rev().cmp(other.0.iter().rev())
    }

    fn nearly(self) -> f64 {
        const UNIT: f64 = 1.0 / (1u128 << 64) as f64;
        self.0
            .iter()
            .fold(0.0, |sum, &digit| sum * UNIT + digit as f64)
    }
}

/// A number with a sign, in 192 digits after the point.
#[derive(Clone, Copy, Debug)]
pub struct Exact {
    below: bool,
    size: Size,
}

impl Exact {
    /// A double below 2^64 in size, cut off below 2^-192.
    pub fn of(x: f64) -> Exact {
        Exact::scaled(x, 0)
    }

    /// x * 2^e, for a finite x.
    pub fn scaled(x: f64, e: i32) -> Exact {
        let bits = x.to_bits();
        let exponent = (bits >> 52 & 0x7FF) as i32;
        let digits = bits & ((1 << 52) - 1);
        let (m, least) = if exponent == 0 {
            (digits, -1074)
        } else {
            (digits | 1 << 52, exponent - 1075)
        };
        Exact {
            below: x.is_sign_negative(),
            size: Size::scaled(m, least + e),
        }
    }

    pub fn size(self) -> Exact {
        Exact {
            below: false,
            ..self
        }
    }

    pub fn positive(self) -> bool {
        !self.below && self.size != Size::ZERO
    }

    /// The whole number nearest to 2^52 times the size, for a size of at most 1.
    pub fn nearest_of_52(self) -> u64 {
        let [_, _, fraction, whole] = self.size.0;
        (whole << 52 | fraction >> 12) + (fraction >> 11 & 1)
    }

    /// The double nearest, or a neighbour of it.
    pub fn nearly(self) -> f64 {
        let size = self.size.nearly();
        if self.below { -size } else { size }
    }
}

impl Neg for Exact {
    type Output = Exact;

    fn neg(self) -> Exact {
        Exact {
            below: !self.below,
            ..self
        }
    }
}

impl Add for Exact {
    type Output = Exact;

    fn add(self, other: Exact) -> Exact {
        if self.below == other.below {
            return Exact {
                size: self.size.plus(other.size),
                ..self
            };
        }
        match self.size.compare(other.size) {
            Ordering::Less => Exact {
                size: other.size.less(self.size),
                ..other
            },
            _ => Exact {
                size: self.size.less(other.size),
                ..self
            },
        }
    }
}

impl Sub for Exact {
    type Output = Exact;

    fn sub(self, other: Exact) -> Exact {
        self + -other
    }
}

impl Mul for Exact {
    type Output = Exact;

    fn mul(self, other: Exact) -> Exact {
        Exact {
            below: self.below != other.below,
            size: self.size.times(other.size),
        }
    }
}

/// Document 01's Pi: 41 digits, the point after the first.
const PI: &[u8; 41] = b"31415926535897932384626433832795028841971";

/// The last power in a sum.
const LAST: usize = 25;

/// What S and C are computed from.
pub struct Sums {
    half_pi: Size,
    quarter_pi: Size,
    /// Pi / 180
    degree: Size,
    /// 1 / n!
    reciprocals: [Size; LAST + 1],
}

impl Default for Sums {
    fn default() -> Self {
        let tenths =
            |sum: Size, digit: &u8| sum.over(10).plus(Size([0, 0, 0, u64::from(digit - b'0')]));
        let pi = PI.iter().rev().fold(Size::ZERO, tenths);
        let mut reciprocals = [Size::ONE; LAST + 1];
        for n in 1..=LAST {
            reciprocals[n] = reciprocals[n - 1].over(n as u64);
        }
        Sums {
            half_pi: pi.over(2),
            quarter_pi: pi.over(4),
            degree: pi.over(180),
            reciprocals,
        }
    }
}

impl Sums {
    /// S and C at a double of at most 800 in size.
    pub fn at(&self, x: f64) -> (Exact, Exact) {
        let (k, rest) = self.rest(x.abs());
        self.around(k, rest, x.is_sign_negative())
    }

    /// S and C at an angle of that many degrees: at what is left of it by the exact remainder by 360 times Pi over 180.
    pub fn at_degrees(&self, x: f64) -> (Exact, Exact) {
        let left = x.abs() % 360.0;
        let halves = [45.0, 135.0, 225.0, 315.0];
        let k = halves.into_iter().filter(|half| *half <= left).count() as u64;
        let degree = Exact {
            below: false,
            size: self.degree,
        };
        let rest = (Exact::of(left) - Exact::of(90.0 * k as f64)) * degree;
        self.around(k, rest, x.is_sign_negative())
    }

    /// S and C at k Pi / 2 and the rest, or at that below 0.
    fn around(&self, k: u64, rest: Exact, below: bool) -> (Exact, Exact) {
        let square = rest.size.times(rest.size);
        let sine = Exact {
            below: rest.below,
            size: rest.size.times(self.sum(square, LAST)),
        };
        let cosine = Exact {
            below: false,
            size: self.sum(square, LAST - 1),
        };
        let (s, c) = match k % 4 {
            0 => (sine, cosine),
            1 => (cosine, -sine),
            2 => (-sine, -cosine),
            _ => (-cosine, sine),
        };
        (if below { -s } else { s }, c)
    }

    /// The k nearest to x over half of Pi, and the rest. No double is halfway: Pi times an odd number over 4 is none.
    fn rest(&self, x: f64) -> (u64, Exact) {
        let guess = (x / std::f64::consts::FRAC_PI_2).round() as u64;
        let rest = |k: u64| {
            Exact::of(x)
                - Exact {
                    below: false,
                    size: self.half_pi.times(Size([0, 0, 0, k])),
                }
        };
        let within = |k: &u64| rest(*k).size.compare(self.quarter_pi) != Ordering::Greater;
        let k = [guess, guess + 1, guess.saturating_sub(1)]
            .into_iter()
            .find(within)
            .expect("the guess is at most one away");
        (k, rest(k))
    }

    /// 1 / first! - z / (first + 2)! + .. through 1 / last!, where `first` is 0 or 1 as `last` is even or odd. Each part of the
    /// sum from some term on is positive, since z is below 1.
    fn sum(&self, z: Size, last: usize) -> Size {
        let lower = (last % 2..last).step_by(2).rev();
        lower.fold(self.reciprocals[last], |sum, n| {
            self.reciprocals[n].less(z.times(sum))
        })
    }
}

#[cfg(test)]
mod tests {
    use super::*;

    /// An angle with its S and C as fractions, times 2^192 and rounded down (by Python's `fractions`, from document 01's definition).
    const BY_FRACTIONS: [(f64, Exact, Exact); 4] = [
        (
            0.5,
            Exact {
                below: false,
                size: Size([
                    0x5629_BBE4_9425_37CD,
                    0xD92F_0D93_F60D_EE82,
                    0x7ABB_A1D1_2C17_BFA1,
                    0,
                ]),
            },
            Exact {
                below: false,
                size: Size([
                    0x3A3A_FDEE_5149_D01B,
                    0xBDDD_9DA2_FAFB_0A9E,
                    0xE0A9_4032_DBEA_7CED,
                    0,
                ]),
            },
        ),
        (
            -2.0,
            Exact {
                below: true,
                size: Size([
                    0xDF6D_02BB_B56D_864A,
                    0x5C24_0C40_04E4_DEB7,
                    0xE8C7_B756_8DA2_2EFD,
                    0,
                ]),
            },
            Exact {
                below: true,
                size: Size([
                    0xD5AB_56CE_E2B4_04AC,
                    0xCCBE_2B2E_DCAC_35DD,
                    0x6A88_995D_4DC8_1290,
                    0,
                ]),
            },
        ),
        (
            182.212373908208,
            Exact {
                below: false,
                size: Size([
                    0x348D_6EFE_B0AF_8FC7,
                    0xAC36_B193_3885_E274,
                    0x0000_0000_0000_002D,
                    0,
                ]),
            },
            Exact {
                below: false,
                size: Size([
                    0x0076_03F8_73D8_DCC5,
                    0xFFFF_FFFF_FFFF_FBED,
                    0xFFFF_FFFF_FFFF_FFFF,
                    0,
                ]),
            },
        ),
        (
            -799.9,
            Exact {
                below: true,
                size: Size([
                    0xA9C5_5F4E_4582_6DF5,
                    0x79B4_AE9C_43BE_96B9,
                    0xEF2A_7587_0AE9_5EBF,
                    0,
                ]),
            },
            Exact {
                below: true,
                size: Size([
                    0x1EB8_7401_AAC8_689A,
                    0x3D19_813B_24FF_1979,
                    0x5B4C_CE05_C51B_9FB8,
                    0,
                ]),
            },
        ),
    ];

    /// The same for degrees.
    const DEGREES_BY_FRACTIONS: [(f64, Exact, Exact); 4] = [
        (
            30.0,
            Exact {
                below: false,
                size: Size([
                    0x7BB4_98C8_190D_CF40,
                    0x0000_0000_0000_0328,
                    0x8000_0000_0000_0000,
                    0,
                ]),
            },
            Exact {
                below: false,
                size: Size([
                    0x1E3F_9737_A5B2_0959,
                    0x92BA_16B8_3C5C_C09E,
                    0xDDB3_D742_C265_539D,
                    0,
                ]),
            },
        ),
        (
            -45.0,
            Exact {
                below: true,
                size: Size([
                    0xF8D7_1DC8_BB9B_4E07,
                    0x597D_89B3_D35E_7102,
                    0xB504_F333_F9DE_6484,
                    0,
                ]),
            },
            Exact {
                below: false,
                size: Size([
                    0x3715_83A0_10E1_1D31,
                    0x597D_89B3_7807_59B1,
                    0xB504_F333_F9DE_6484,
                    0,
                ]),
            },
        ),
        (
            44999.9,
            Exact {
                below: true,
                size: Size([
                    0xAD23_5C18_C832_1183,
                    0xDC0A_B44C_EB5D_62F7,
                    0x0072_61C0_4090_8660,
                    0,
                ]),
            },
            Exact {
                below: false,
                size: Size([
                    0x11F3_7B98_2BE8_0486,
                    0xD40D_BA7B_EA74_B16C,
                    0xFFFF_E672_6473_23A1,
                    0,
                ]),
            },
        ),
        (
            -1234.5,
            Exact {
                below: true,
                size: Size([
                    0x6D5E_603E_254E_FDF2,
                    0x339F_7B2F_7876_5C7E,
                    0x6E35_F9A9_5B51_D8AC,
                    0,
                ]),
            },
            Exact {
                below: true,
                size: Size([
                    0x464B_B614_A672_FCF2,
                    0x4365_BE34_7105_1F27,
                    0xE70F_D446_222D_D675,
                    0,
                ]),
            },
        ),
    ];

    type Sum = fn(&Sums, f64) -> (Exact, Exact);

    #[test]
    fn sums_are_the_fractions() {
        let sums = Sums::default();
        let bound = Size([1 << 12, 0, 0, 0]);
        let tables: [(Sum, _); 2] = [
            (Sums::at, BY_FRACTIONS),
            (Sums::at_degrees, DEGREES_BY_FRACTIONS),
        ];
        for (sum, table) in tables {
            for (x, by_fractions_s, by_fractions_c) in table {
                let (s, c) = sum(&sums, x);
                for gap in [s - by_fractions_s, c - by_fractions_c] {
                    assert_eq!(gap.size.compare(bound), Ordering::Less, "at {x}");
                }
            }
        }
    }

    #[test]
    fn a_double_is_exact() {
        for x in [0.0, 1.0, -800.0, 0.1, -1e-30, 1.0 / 3.0] {
            assert_eq!(Exact::of(x).nearly(), x);
            assert_eq!(Exact::scaled(x, 7).nearly(), x * 128.0);
        }
    }
}
