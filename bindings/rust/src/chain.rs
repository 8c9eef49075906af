//! Chains of rotaries, their bytes, and the forward map.

use crate::flat;
use crate::pose::{Joints, Pose};
use crate::refusal::Refusal;

/// What a rotary turns.
#[derive(Clone, Copy, Debug, PartialEq, Eq, Hash)]
pub enum Carrier {
    /// The part, on a table.
    Table,
    /// The tool, in a head.
    Head,
}

/// The angles in degrees that a rotary may have, both ends included.
#[derive(Clone, Copy, Debug, PartialEq)]
pub struct Limits {
    /// The lower limit.
    pub min: f64,
    /// The upper limit, above the lower.
    pub max: f64,
}

/// A rotary.
#[derive(Clone, Copy, Debug, PartialEq)]
pub struct Rotary {
    /// A, B or C.
    pub letter: u8,
    /// What it turns.
    pub carrier: Carrier,
    /// The direction that it turns about, not zero.
    pub axis: [f64; 3],
    /// A point on that axis, each number at most 100,000 in size.
    pub pivot: [f64; 3],
    /// None where it turns without end.
    pub limits: Option<Limits>,
    /// The angle in degrees at which the cable hangs free, at most 36,000 in size, 0.0 on most machines. Cable turns
    /// are counted from it ([`cable_number`](crate::cable_number)); nothing else depends on it.
    pub rest: f64,
}

/// A chain: one or two rotaries and the spindle.
///
/// ```
/// use maztubel::{Carrier, Chain, Limits, Rotary, check_chain};
///
/// let table = |letter, axis, limits| Rotary { letter, carrier: Carrier::Table, axis, pivot: [0.0; 3], limits, rest: 0.0 };
/// let mut chain = Chain {
///     rotaries: vec![
///         table(b'A', [1.0, 0.0, 0.0], Some(Limits { min: -120.0, max: 30.0 })),
///         table(b'C', [0.0, 0.0, 1.0], None),
///     ],
///     spindle: [0.0, 0.0, 1.0],
/// };
/// check_chain(&chain)?;
/// assert_eq!(chain.bytes().len(), 176);
///
/// chain.rotaries[1].letter = b'A';
/// let refusal = check_chain(&chain).unwrap_err();
/// assert_eq!(refusal.to_string(), "refused 5: two rotaries must have different letters: rotary 1");
/// # Ok::<(), maztubel::Refusal>(())
/// ```
#[derive(Clone, Debug, PartialEq)]
pub struct Chain {
    /// Of a table pair the one that stands on the machine first, of a head pair the one next to the machine first.
    pub rotaries: Vec<Rotary>,
    /// The spindle's direction, from the tool's tip on.
    pub spindle: [f64; 3],
}

impl Chain {
    /// The chain as the library and a job have it (docs/FORMAT.md): with the rest angles only where one is not +0.0, by its bits.
    /// More than 255 rotaries count as 255, which is refused alike.
    ///
    /// ```
    /// let empty = maztubel::Chain { rotaries: vec![], spindle: [0.0; 3] };
    /// assert_eq!(empty.bytes()[0], 0);
    /// ```
    pub fn bytes(&self) -> Vec<u8> {
        let mut bytes = vec![u8::try_from(self.rotaries.len()).unwrap_or(u8::MAX)];
        bytes.extend([0; 7]);
        let rested = self
            .rotaries
            .iter()
            .any(|rotary| rotary.rest.to_bits() != 0);
        for rotary in &self.rotaries {
            rotary.append(&mut bytes);
            if rested {
                append_numbers(&mut bytes, &[rotary.rest]);
            }
        }
        append_numbers(&mut bytes, &self.spindle);
        bytes
    }

    /// The chain that has these bytes, if they are a chain's, with rest angles or without: the sibling of [`Chain::bytes`]. No number
    /// is judged, nor a letter.
    ///
    /// ```
    /// use maztubel::{Carrier, Chain, Place, Rotary};
    ///
    /// let rotary = Rotary { letter: b'C', carrier: Carrier::Head, axis: [0.0, 0.0, 1.0], pivot: [0.0; 3], limits: None, rest: 0.0 };
    /// let mut chain = Chain { rotaries: vec![rotary], spindle: [0.0, 0.0, 1.0] };
    /// assert_eq!(Chain::from_bytes(&chain.bytes()), Ok(chain.clone()));
    /// chain.rotaries[0].rest = -90.0;
    /// assert_eq!(chain.bytes().len(), 112);
    /// assert_eq!(Chain::from_bytes(&chain.bytes()), Ok(chain));
    /// assert_eq!(Chain::from_bytes(&[1; 104]).unwrap_err().place, Place::Offset(1));
    /// ```
    pub fn from_bytes(bytes: &[u8]) -> Result<Chain, Refusal> {
        let told = flat::check_chain(bytes);
        match told.number {
            3 | 29 => Err(Refusal::told(told, false)),
            _ => {
                let (rotaries, spindle) = bytes[8..].split_at(bytes.len() - 32);
                let record = rotaries.len() / usize::from(bytes[0]);
                Ok(Chain {
                    rotaries: rotaries.chunks(record).map(Rotary::within).collect(),
                    spindle: vector(spindle, 0),
                })
            }
        }
    }
}

impl Rotary {
    /// Of 72 bytes that are a rotary's, or 80 with a rest angle.
    fn within(bytes: &[u8]) -> Rotary {
        let (min, max) = (number(bytes, 56), number(bytes, 64));
        Rotary {
            letter: bytes[0],
            carrier: if bytes[1] == 0 {
                Carrier::Table
            } else {
                Carrier::Head
            },
            axis: vector(bytes, 8),
            pivot: vector(bytes, 32),
            limits: (bytes[2] == 1).then_some(Limits { min, max }),
            rest: if bytes.len() == 80 {
                number(bytes, 72)
            } else {
                0.0
            },
        }
    }

    fn append(&self, bytes: &mut Vec<u8>) {
        bytes.push(self.letter);
        bytes.push(match self.carrier {
            Carrier::Table => 0,
            Carrier::Head => 1,
        });
        bytes.push(u8::from(self.limits.is_some()));
        bytes.extend([0; 5]);
        append_numbers(bytes, &self.axis);
        append_numbers(bytes, &self.pivot);
        let Limits { min, max } = self.limits.unwrap_or(Limits { min: 0.0, max: 0.0 });
        append_numbers(bytes, &[min, max]);
    }
}

fn number(bytes: &[u8], at: usize) -> f64 {
    f64::from_le_bytes(bytes[at..at + 8].try_into().expect("eight bytes"))
}

fn vector(bytes: &[u8], at: usize) -> [f64; 3] {
    [0, 8, 16].map(|i| number(bytes, at + i))
}

pub(crate) fn append_numbers(bytes: &mut Vec<u8>, numbers: &[f64]) {
    for number in numbers {
        bytes.extend(number.to_le_bytes());
    }
}

/// Whether the chain can be served.
///
/// ```
/// let chain = maztubel::Chain { rotaries: vec![], spindle: [0.0; 3] };
/// assert_eq!(maztubel::check_chain(&chain).unwrap_err().number(), 3);
/// ```
pub fn check_chain(chain: &Chain) -> Result<(), Refusal> {
    flat::check_chain(&chain.bytes()).served()
}

/// The tool's pose in the part frame at given joints, its axis a unit vector.
///
/// ```
/// use maztubel::{Carrier, Chain, Joints, Rotary, forward};
///
/// let chain = Chain {
///     rotaries: vec![Rotary {
///         letter: b'C',
///         carrier: Carrier::Head,
///         axis: [0.0, 0.0, 1.0],
///         pivot: [0.0; 3],
///         limits: None,
///         rest: 0.0,
///     }],
///     spindle: [0.0, 0.0, 1.0],
/// };
/// let joints = Joints { position: [1.0, 2.0, 3.0], angles: [0.0; 2] };
/// assert_eq!(forward(&chain, &joints, 0.5)?.tip, [1.0, 2.0, 2.5]);
/// # Ok::<(), maztubel::Refusal>(())
/// ```
pub fn forward(chain: &Chain, joints: &Joints, tool_length: f64) -> Result<Pose, Refusal> {
    let mut pose = Pose::default();
    flat::forward(
        &chain.bytes(),
        flat::numbers(std::slice::from_ref(joints)),
        tool_length,
        flat::numbers_mut(std::slice::from_mut(&mut pose)),
    )
    .served()?;
    Ok(pose)
}
