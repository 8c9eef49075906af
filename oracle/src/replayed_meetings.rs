//! Cases of the links that meet. Document 02 has all of their answers, over the Rust's frames; `meetings` reads it.

use crate::meeting_cases::drawn;
use crate::meetings::expected;
use crate::random::Random;
use crate::replayed::{FILLED_COUNT, Given, Line, Replayed};

pub fn of_meeting(random: &mut Random) -> Option<Replayed> {
    let case = drawn(random);
    let (number, at, lent) = match expected(&case) {
        Ok(Some(meeting)) => (
            0,
            0,
            [1].into_iter().chain(meeting.map(|n| n as u64)).collect(),
        ),
        Ok(None) => (0, 0, vec![0; 4]),
        Err(refusal) => (refusal.number, refusal.at, vec![FILLED_COUNT; 4]),
    };
    let line = Line::new("links_meet", number, at, 0);
    let line = lent.into_iter().fold(line, Line::count);
    let given = Given {
        bytes: &case.chain,
        texts: [&case.name, &case.model, &[]],
        numbers: [&case.joints, &[], &[]],
        ..Given::default()
    };
    Replayed::new(line, &given)
}
