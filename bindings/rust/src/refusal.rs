//! What a call refuses with: why, and where.

use crate::flat::Told;
use std::error::Error;
use std::fmt;

/// The table below as the enum `Reason`, with each reason's number and text.
macro_rules! reasons {
    ($($name:ident = $number:literal, $text:literal;)*) => {
        /// Why a call was refused. Its text says what must hold.
        ///
        /// ```
        /// use maztubel::Reason;
        ///
        /// assert_eq!(Reason::from(18), Reason::Cone);
        /// assert_eq!(Reason::Cone.number(), 18);
        /// assert_eq!(Reason::Cone.to_string(), "the cone must be finite, above 0 and at most 10 degrees");
        /// ```
        #[derive(Clone, Copy, Debug, PartialEq, Eq, Hash)]
        #[non_exhaustive]
        pub enum Reason {
            $(
                #[doc = concat!("Number ", $number, ": ", $text, ".")]
                $name,
            )*
            /// A number that this version of the crate does not know: the library is newer.
            Unknown(u32),
        }

        impl Reason {
            /// The number in document 01's refusal table.
            ///
            /// ```
            /// assert_eq!(maztubel::Reason::PoseUnreachable.number(), 25);
            /// ```
            pub fn number(self) -> u32 {
                match self {
                    $(Reason::$name => $number,)*
                    Reason::Unknown(number) => number,
                }
            }

            fn text(self) -> &'static str {
                match self {
                    $(Reason::$name => $text,)*
                    Reason::Unknown(_) => "this version of the crate does not know the number",
                }
            }
        }

        /// The reason with a number of document 01's refusal table; [`Reason::Unknown`] for every other number.
        impl From<u32> for Reason {
            fn from(number: u32) -> Reason {
                match number {
                    $($number => Reason::$name,)*
                    _ => Reason::Unknown(number),
                }
            }
        }
    };
}

// Document 01's refusal table. A new number is a line here; `place` below says where its fault is, if anywhere.
reasons! {
    NameEmpty = 1, "a name must have at least 1 byte";
    NameTooLong = 2, "a name must have at most 256 bytes";
    RotaryCount = 3, "a chain must have 1 or 2 rotaries";
    RotaryLetter = 4, "a rotary's letter must be A, B or C";
    LetterTwice = 5, "two rotaries must have different letters";
    ChainNotFinite = 6, "a rotary's axis, pivot and rest angle and the spindle axis must be finite";
    RotaryAxisZero = 7,
        "a rotary's axis must have a direction (a component above 1e-15 in size, a length that does not overflow)";
    LimitsRefused = 8, "a rotary's limits must be finite, the lower below the upper";
    SpindleZero = 9,
        "the spindle axis must have a direction (a component above 1e-15 in size, a length that does not overflow)";
    TooManyLinks = 10, "a model must have at most 64 links";
    LinkNameTwice = 11, "the links of a model must have different names";
    CarrierUnknown = 12, "a carrier must be base, table, head or the letter of a rotary of the chain";
    SolidBad = 13,
        "a solid must be finite, a box with max above min in x, y and z, a cylinder with a radius and a length above \
         0 and an axis that has a direction";
    ToolLength = 14, "the tool length must be finite and not below 0 mm";
    ToolAxisZero = 15,
        "the tool axis must have a direction (finite, a component above 1e-15 in size, a length that does not \
         overflow)";
    NotFinite = 16,
        "joints, start, hint, tips and an angle that is asked for must be finite, in a division and in a job that is \
         written tool axes too";
    TooLarge = 17,
        "sizes must be at most 100,000 mm (tip, pivot, tool length, and a solid where links meet), 10,000,000 mm (joint \
         position), 36,000 degrees (angle, rest angle, hint), 100,000 poses, 65,536 bytes (a job that is written), \
         1,000,000,000 inserted poses (a balance), 800 radians (sine, cosine), 1 (arccosine), and finite (arctangent)";
    Cone = 18, "the cone must be finite, above 0 and at most 10 degrees";
    Tolerance = 19,
        "the chord tolerance (mm), the axis tolerance (degrees) and the tolerance of a tooth (degrees) must be finite \
         and above 0";
    LengthsDiffer = 20,
        "buffers must hold whole records, lengths that belong together must be equal, a choice must be 0, 1 or 2, an \
         index must be that of a joint set, the rotary that is asked for must be 0 or 1, there must be 32 balances, a \
         dispatcher must have 145 words and 368 numbers, and a turn must be lent outputs as long as those of the admission";
    NotReachable = 21, "the rotaries must reach the tool axis";
    OutsideLimits = 22,
        "the rotaries must reach the tool axis within their limits, without limits above -180 and at most 180 \
         degrees, with at most 2 turns added or taken away";
    BranchFlips = 23,
        "a pose must keep the rotary branch, its angles at most 90 degrees from the solution closest to the pose \
         before";
    LeavesAxis = 24, "a pose must keep every rotary within its limits";
    PoseUnreachable = 25, "a pose's tool axis must have a direction that the rotaries reach";
    AngleTooLarge = 26, "a pose's angles must be at most 36,000 degrees in size";
    TooManyInsertions = 27, "a division must insert at most 10,000 poses";
    NoSpace = 28,
        "the outputs must have space for every pose, and for the job that is written, and the scratch of a quotation for \
         10,000 joint sets and tips";
    Malformed = 29, "the bytes of a chain, a job or a model must have the form of docs/FORMAT.md";
    ParallelRotaries = 30,
        "on a path two rotaries must not be parallel: the cross product of their unit axes must have a length of at \
         least 1e-9";
    QueueFull = 32, "a dispatcher must have at most 16 paths at a time";
    NotAdmitted = 33, "a path number must be that of an admitted path";
    UnknownShop = 34, "a shop must be 0 to 31";
    BalanceShort = 35, "a shop's balance must not be below the count of a division that is charged to it";
    ToothMisses = 31,
        "on the nearest teeth every rotary must be within its limits, and the tool axis within the tolerance";
}

impl fmt::Display for Reason {
    fn fmt(&self, f: &mut fmt::Formatter) -> fmt::Result {
        f.write_str(self.text())
    }
}

/// Where the fault is.
#[derive(Clone, Copy, Debug, PartialEq, Eq, Hash)]
#[non_exhaustive]
pub enum Place {
    /// No single part is at fault, or the library names none.
    Whole,
    /// The rotary with this index. For [`Reason::ChainNotFinite`] 0 is also the spindle.
    Rotary(u64),
    /// The link with this index.
    Link(u64),
    /// The pose with this index.
    Pose(u64),
    /// The pose with this index, which leaves the limits of the rotary with this letter.
    Axis(u64, u8),
    /// The offset of the first bad field.
    Offset(u64),
    /// How many poses had been inserted.
    Inserted(u64),
}

/// What a call that cannot be served answers.
///
/// ```
/// use maztubel::{Place, Reason, Refusal};
///
/// let refusal = Refusal { reason: Reason::LeavesAxis, place: Place::Axis(3, b'B') };
/// assert_eq!(refusal.number(), 24);
/// assert_eq!(refusal.to_string(), "refused 24: a pose must keep every rotary within its limits: pose 3, axis B");
/// ```
#[derive(Clone, Copy, Debug, PartialEq, Eq, Hash)]
pub struct Refusal {
    /// Why.
    pub reason: Reason,
    /// Where.
    pub place: Place,
}

impl Refusal {
    /// The number in document 01's refusal table.
    ///
    /// ```
    /// assert_eq!(maztubel::sine(1e9).unwrap_err().number(), 17);
    /// ```
    pub fn number(&self) -> u32 {
        self.reason.number()
    }

    /// The pose that is at fault, where there is one.
    ///
    /// ```
    /// use maztubel::{Place, Reason, Refusal};
    /// assert_eq!(Refusal { reason: Reason::NotFinite, place: Place::Pose(7) }.pose(), Some(7));
    /// assert_eq!(Refusal { reason: Reason::NotFinite, place: Place::Whole }.pose(), None);
    /// ```
    pub fn pose(&self) -> Option<u64> {
        match self.place {
            Place::Pose(pose) | Place::Axis(pose, _) => Some(pose),
            _ => None,
        }
    }

    /// `at_pose` says that the call had come to its poses, which 16 and 17 alone do not tell.
    pub(crate) fn told(told: Told, at_pose: bool) -> Refusal {
        let reason = Reason::from(told.number);
        Refusal {
            reason,
            place: place(reason, told, at_pose),
        }
    }
}

fn place(reason: Reason, told: Told, at_pose: bool) -> Place {
    match reason.number() {
        4..=8 => Place::Rotary(told.at),
        11..=13 => Place::Link(told.at),
        16 | 17 if at_pose => Place::Pose(told.at),
        24 => Place::Axis(told.at, told.letter),
        23..=26 => Place::Pose(told.at),
        27 | 28 => Place::Inserted(told.count),
        29 => Place::Offset(told.at),
        _ => Place::Whole,
    }
}

impl fmt::Display for Refusal {
    fn fmt(&self, f: &mut fmt::Formatter) -> fmt::Result {
        write!(f, "refused {}: {}", self.number(), self.reason)?;
        match self.place {
            Place::Whole => Ok(()),
            Place::Rotary(0) if self.reason == Reason::ChainNotFinite => {
                f.write_str(": rotary 0 or the spindle")
            }
            Place::Rotary(index) => write!(f, ": rotary {index}"),
            Place::Link(index) => write!(f, ": link {index}"),
            Place::Pose(index) => write!(f, ": pose {index}"),
            Place::Axis(index, letter) => write!(f, ": pose {index}, axis {}", letter as char),
            Place::Offset(offset) => write!(f, ": offset {offset}"),
            Place::Inserted(count) => write!(f, ": {count} inserted so far"),
        }
    }
}

impl Error for Refusal {}
