//! What a call is given, drawn at random: a case for the chain check and forward, and one for the model check and link frames.

use crate::chains::{chain_bytes, sound};
use crate::joints::{joints, sound_joints, sound_tool_length, tool_length};
use crate::models::{self, carrier, model_bytes, name, sound_model};
use crate::random::Random;
use std::fmt;

/// How many numbers forward and the link frames write.
pub const POSE: usize = 6;
pub const FRAME: usize = 12;

/// The five exports.
#[derive(Clone, Copy, Debug, PartialEq)]
pub enum Entry {
    CheckChain,
    Forward,
    CheckModel,
    LinkWorld,
    LinkInPart,
}

impl Entry {
    pub const ALL: [Entry; 5] = [
        Entry::CheckChain,
        Entry::Forward,
        Entry::CheckModel,
        Entry::LinkWorld,
        Entry::LinkInPart,
    ];

    /// Those that take a case of chain and joints alone.
    pub const OF_CHAINS: [Entry; 2] = [Entry::CheckChain, Entry::Forward];

    /// Those that take a case with a model.
    pub const OF_MODELS: [Entry; 3] = [Entry::CheckModel, Entry::LinkWorld, Entry::LinkInPart];

    pub fn name(self) -> &'static str {
        match self {
            Entry::CheckChain => "check_chain",
            Entry::Forward => "forward",
            Entry::CheckModel => "check_model",
            Entry::LinkWorld => "link_world",
            Entry::LinkInPart => "link_in_part",
        }
    }
}

/// All inputs of a call; an entry takes those that it has. `room` is how many numbers it is lent to write to.
#[derive(Clone, Default)]
pub struct Case {
    pub name: Vec<u8>,
    pub chain: Vec<u8>,
    pub model: Vec<u8>,
    pub joints: Vec<f64>,
    pub tool_length: f64,
    pub carrier: Vec<u8>,
    pub room: usize,
}

impl Case {
    /// Half of the time nothing is damaged, so that enough is served.
    pub fn of_chain(random: &mut Random) -> Self {
        if random.below(2) == 0 {
            return Case {
                chain: sound(random).bytes(),
                joints: sound_joints(random),
                tool_length: sound_tool_length(random),
                room: POSE,
                ..Case::default()
            };
        }
        Case {
            chain: chain_bytes(random),
            joints: joints(random),
            tool_length: tool_length(random),
            room: room(POSE, random),
            ..Case::default()
        }
    }

    /// The same.
    pub fn of_model(random: &mut Random) -> Self {
        if random.below(2) == 0 {
            return Case {
                name: b"n".to_vec(),
                chain: sound(random).bytes(),
                model: models::bytes(&sound_model(random)),
                joints: sound_joints(random),
                carrier: carrier(random),
                room: FRAME,
                ..Case::default()
            };
        }
        Case {
            name: name(random),
            chain: chain_bytes(random),
            model: model_bytes(random),
            joints: joints(random),
            carrier: carrier(random),
            room: room(FRAME, random),
            ..Case::default()
        }
    }
}

/// Mostly as much as is asked for.
fn room(asked: usize, random: &mut Random) -> usize {
    match random.below(32) {
        0 => random.one_of(&[0, 1, asked - 1, asked + 1, 2 * asked]),
        _ => asked,
    }
}

/// Every input as bits; bytes that are empty are left out.
impl fmt::Display for Case {
    fn fmt(&self, f: &mut fmt::Formatter<'_>) -> fmt::Result {
        let texts = [
            ("name", &self.name),
            ("chain", &self.chain),
            ("model", &self.model),
            ("carrier", &self.carrier),
        ];
        for (words, bytes) in texts {
            let digits: String = bytes.iter().map(|byte| format!("{byte:02X}")).collect();
            if !digits.is_empty() {
                write!(f, "{words} [{digits}] ")?;
            }
        }
        let joints: Vec<String> = self.joints.iter().map(spelled).collect();
        write!(f, "joints [{}] ", joints.join(" "))?;
        write!(f, "tool length {} ", spelled(&self.tool_length))?;
        write!(f, "room {}", self.room)
    }
}

fn spelled(x: &f64) -> String {
    format!("{:016X}", x.to_bits())
}
