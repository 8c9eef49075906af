//! The machine model: links of solids, and where they stand at given joints.

use crate::chain::{Chain, append_numbers};
use crate::flat;
use crate::pose::Joints;
use crate::refusal::Refusal;
use std::slice;

/// What a link moves with.
#[derive(Clone, Copy, Debug, PartialEq, Eq, Hash)]
pub enum Mount {
    /// The machine's base, which stands.
    Base,
    /// The part.
    Table,
    /// The tool.
    Head,
    /// The rotary with this letter.
    Rotary(u8),
}

impl Mount {
    /// Its bytes: `base`, `table`, `head` or the letter.
    ///
    /// ```
    /// assert_eq!(maztubel::Mount::Rotary(b'C').bytes(), b"C");
    /// ```
    pub fn bytes(&self) -> &[u8] {
        match self {
            Mount::Base => b"base",
            Mount::Table => b"table",
            Mount::Head => b"head",
            Mount::Rotary(letter) => slice::from_ref(letter),
        }
    }
}

/// The form of a link.
#[derive(Clone, Copy, Debug, PartialEq)]
pub enum Solid {
    /// Between two corners, the second beyond the first along each axis.
    Box {
        /// The lower corner.
        min: [f64; 3],
        /// The upper corner.
        max: [f64; 3],
    },
    /// Along an axis from the middle of its base.
    Cylinder {
        /// The middle of its base.
        base: [f64; 3],
        /// Its direction, not zero.
        axis: [f64; 3],
        /// Above 0.
        radius: f64,
        /// Above 0.
        length: f64,
    },
}

/// A link of a model.
#[derive(Clone, Debug, PartialEq)]
pub struct Link {
    /// 1 to 256 bytes, no other link's.
    pub name: Vec<u8>,
    /// What it moves with.
    pub mount: Mount,
    /// Its form.
    pub solid: Solid,
}

/// A chain with its name and its model.
#[derive(Clone, Debug, PartialEq)]
pub struct Machine {
    /// 1 to 256 bytes.
    pub name: Vec<u8>,
    /// The rotaries and the spindle.
    pub chain: Chain,
    /// At most 64.
    pub links: Vec<Link>,
}

impl Machine {
    /// The links as the library has them (docs/FORMAT.md). Of a name past 65,535 bytes those are taken: it is refused alike.
    ///
    /// ```
    /// use maztubel::{Chain, Link, Machine, Mount, Solid};
    ///
    /// let column = Solid::Box { min: [0.0; 3], max: [1.0; 3] };
    /// let machine = Machine {
    ///     name: b"mill".to_vec(),
    ///     chain: Chain { rotaries: vec![], spindle: [0.0, 0.0, 1.0] },
    ///     links: vec![Link { name: b"column".to_vec(), mount: Mount::Base, solid: column }],
    /// };
    /// assert_eq!(machine.model_bytes().len(), 2 + 6 + 2 + 4 + 1 + 64);
    /// ```
    pub fn model_bytes(&self) -> Vec<u8> {
        let mut bytes = Vec::new();
        for link in &self.links {
            append_text(&mut bytes, &link.name);
            append_text(&mut bytes, link.mount.bytes());
            match link.solid {
                Solid::Box { min, max } => {
                    bytes.push(0);
                    append_numbers(&mut bytes, &min);
                    append_numbers(&mut bytes, &max);
                    append_numbers(&mut bytes, &[0.0; 2]);
                }
                Solid::Cylinder {
                    base,
                    axis,
                    radius,
                    length,
                } => {
                    bytes.push(1);
                    append_numbers(&mut bytes, &base);
                    append_numbers(&mut bytes, &axis);
                    append_numbers(&mut bytes, &[radius, length]);
                }
            }
        }
        bytes
    }
}

fn append_text(bytes: &mut Vec<u8>, text: &[u8]) {
    let length = u16::try_from(text.len()).unwrap_or(u16::MAX);
    bytes.extend(length.to_le_bytes());
    bytes.extend(&text[..usize::from(length)]);
}

/// A rigid placement: where its origin lies, and its three axes.
#[repr(C)]
#[derive(Clone, Copy, Debug, Default, PartialEq)]
pub struct Frame {
    /// The origin.
    pub origin: [f64; 3],
    /// The first axis.
    pub x: [f64; 3],
    /// The second axis.
    pub y: [f64; 3],
    /// The third axis.
    pub z: [f64; 3],
}

/// Whether a chain with its model can be served.
///
/// ```
/// use maztubel::{Chain, Machine, check_model};
///
/// let chain = Chain { rotaries: vec![], spindle: [0.0, 0.0, 1.0] };
/// let machine = Machine { name: vec![], chain, links: vec![] };
/// assert_eq!(check_model(&machine).unwrap_err().to_string(), "refused 1: a name must have at least 1 byte");
/// ```
pub fn check_model(machine: &Machine) -> Result<(), Refusal> {
    flat::check_model(
        &machine.name,
        &machine.chain.bytes(),
        &machine.model_bytes(),
    )
    .served()
}

/// The frame of what moves with a mount, in the machine.
///
/// ```
/// use maztubel::{Carrier, Chain, Joints, Machine, Mount, Rotary, link_world};
///
/// let head = Rotary { letter: b'B', carrier: Carrier::Head, axis: [0.0, 1.0, 0.0], pivot: [0.0; 3], limits: None, rest: 0.0 };
/// let chain = Chain { rotaries: vec![head], spindle: [0.0, 0.0, 1.0] };
/// let machine = Machine { name: b"mill".to_vec(), chain, links: vec![] };
/// let joints = Joints { position: [1.0, 2.0, 3.0], angles: [0.0; 2] };
/// assert_eq!(link_world(&machine, &joints, Mount::Head)?.origin, [1.0, 2.0, 3.0]);
/// assert_eq!(link_world(&machine, &joints, Mount::Rotary(b'C')).unwrap_err().number(), 12);
/// # Ok::<(), maztubel::Refusal>(())
/// ```
pub fn link_world(machine: &Machine, joints: &Joints, mount: Mount) -> Result<Frame, Refusal> {
    frame(machine, joints, mount, flat::link_world)
}

/// The same frame, seen from the part.
///
/// ```
/// use maztubel::{Carrier, Chain, Joints, Machine, Mount, Rotary, link_in_part};
///
/// let table = Rotary { letter: b'C', carrier: Carrier::Table, axis: [0.0, 0.0, 1.0], pivot: [0.0; 3], limits: None, rest: 0.0 };
/// let chain = Chain { rotaries: vec![table], spindle: [0.0, 0.0, 1.0] };
/// let machine = Machine { name: b"mill".to_vec(), chain, links: vec![] };
/// let joints = Joints { position: [0.0; 3], angles: [0.0; 2] };
/// assert_eq!(link_in_part(&machine, &joints, Mount::Table)?.x, [1.0, 0.0, 0.0]);
/// # Ok::<(), maztubel::Refusal>(())
/// ```
pub fn link_in_part(machine: &Machine, joints: &Joints, mount: Mount) -> Result<Frame, Refusal> {
    frame(machine, joints, mount, flat::link_in_part)
}

fn frame(
    machine: &Machine,
    joints: &Joints,
    mount: Mount,
    ask: flat::FrameOf,
) -> Result<Frame, Refusal> {
    let mut frame = Frame::default();
    ask(
        &machine.name,
        &machine.chain.bytes(),
        &machine.model_bytes(),
        flat::numbers(slice::from_ref(joints)),
        mount.bytes(),
        flat::numbers_mut(slice::from_mut(&mut frame)),
    )
    .served()?;
    Ok(frame)
}
