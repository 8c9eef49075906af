//! Every export as one call that is served, but for those on a finishing path: for what it takes of the heap and the stack.

use super::finishing::CONE;
use super::forwards::{TOOL_LENGTH, TWO_TABLES, chain};
use oracle::cell_calls::{NUMBERS, WORDS};
use oracle::maztubel::{self, Asked, Course, Dispatcher, Lent, Machine, Parts, Scratch, Solved};
use oracle::models::{self, BOX, Link};
use oracle::quotes::{ENOUGH, Quote};

const JOINTS: [f64; 5] = [100.0, -50.0, 20.0, 30.0, -70.0];
const POSE: [f64; 6] = [100.0, -50.0, 20.0, 0.3, 0.4, 0.8];
const THROUGH_THE_CONE: [[f64; 6]; 6] = [
    [0.0, 0.0, 0.0, 0.2, 0.0, 1.0],
    [1.0, 0.0, 0.0, 0.02, 0.0, 1.0],
    [2.0, 0.0, 0.0, 0.01, 0.0, 1.0],
    [3.0, 0.0, 0.0, 0.0, 0.0, 1.0],
    [4.0, 0.0, 0.0, 0.0, 0.01, 1.0],
    [5.0, 0.0, 0.0, 0.02, 0.1, 1.0],
];
/// Two poses whose joints turn both rotaries, and tolerances under which some are inserted between them.
const TURNING_POSES: [[f64; 6]; 2] = [POSE, POSE];
const TURNING_JOINTS: [[f64; 5]; 2] = [JOINTS, [120.0, -50.0, 20.0, 45.0, -40.0]];
const TURNING_TOLERANCES: [f64; 2] = [1e6, 0.01];
const TWO_POSES: [[f64; 6]; 2] = [POSE, [120.0, -40.0, 10.0, 0.2, 0.4, 0.8]];
const TWO_SETS: [[f64; 5]; 2] = [JOINTS, [120.0, -40.0, 10.0, 35.0, -60.0]];
const HINT: [f64; 2] = [10.0, 20.0];
const ANGLES: [f64; 100] = [0.5; 100];
/// All five turns of each angle lie within them.
const WIDE: [f64; 2] = [-1000.0, 1000.0];

/// What the calls are lent.
pub struct Given {
    chain: Vec<u8>,
    model: Vec<u8>,
    job: Vec<u8>,
    written: [u8; 512],
    numbers: [f64; 250],
    places: [u64; 4],
    tolerances: [f64; 3],
    balances: [u64; 32],
    /// As much as a quotation is lent.
    scratch: Vec<f64>,
    words: [u64; WORDS],
    state: [f64; NUMBERS],
    count: u64,
    at: u64,
    letter: u8,
}

/// With its name.
type Export = (&'static str, fn(&mut Given) -> u32);

pub const EXPORTS: [Export; 35] = [
    ("sine", |g| maztubel::maztubel_sine(0.5, &mut g.numbers[0])),
    ("cosine", |g| {
        maztubel::maztubel_cosine(0.5, &mut g.numbers[0])
    }),
    ("arctangent", |g| {
        maztubel::maztubel_arctangent(0.5, -2.0, &mut g.numbers[0])
    }),
    ("arccosine", |g| {
        maztubel::maztubel_arccosine(0.5, &mut g.numbers[0])
    }),
    ("sines", |g| maztubel::sines(&ANGLES, &mut g.numbers[..100])),
    ("cosines", |g| {
        maztubel::cosines(&ANGLES, &mut g.numbers[..100])
    }),
    ("arctangents", |g| {
        maztubel::arctangents(&ANGLES, &ANGLES, &mut g.numbers[..100])
    }),
    ("arccosines", |g| {
        maztubel::arccosines(&ANGLES, &mut g.numbers[..100])
    }),
    ("check_chain", |g| {
        maztubel::check_chain(&g.chain, &mut g.at, &mut g.letter)
    }),
    ("forward", |g| {
        let pose = &mut g.numbers[..6];
        maztubel::forward(
            &g.chain,
            &JOINTS,
            TOOL_LENGTH,
            pose,
            &mut g.at,
            &mut g.letter,
        )
    }),
    ("inverse", |g| {
        let list = &mut g.numbers;
        maztubel::inverse(
            asked(&g.chain),
            list,
            &mut g.count,
            &mut g.at,
            &mut g.letter,
        )
    }),
    ("choose", |g| {
        let joints = &mut g.numbers[..5];
        maztubel::choose(asked(&g.chain), 0, joints, &mut g.at, &mut g.letter)
    }),
    ("choose_tooth", |g| {
        let joints = &mut g.numbers[..5];
        maztubel::choose_tooth(asked(&g.chain), 0, 1.0, joints, &mut g.at, &mut g.letter)
    }),
    ("solve_path, through the cone", |g| {
        let (course, joints) = (through_the_cone(&g.chain), &mut g.numbers[..30]);
        maztubel::solve_path(course, joints, &mut g.at, &mut g.letter)
    }),
    ("solve_and_divide, through the cone", |g| {
        let (poses, joints) = g.numbers.split_at_mut(130);
        let lent = Lent {
            poses: &mut poses[..60],
            joints: &mut joints[..50],
            inserted: &mut g.count,
            at: &mut g.at,
            letter: &mut g.letter,
        };
        maztubel::solve_and_divide(through_the_cone(&g.chain), [1e6, 180.0], lent)
    }),
    ("subdivide_strict", |g| {
        let (poses, joints) = g.scratch.split_at_mut(600);
        let lent = Lent {
            poses,
            joints: &mut joints[..500],
            inserted: &mut g.count,
            at: &mut g.at,
            letter: &mut g.letter,
        };
        maztubel::subdivide_strict(turning(&g.chain), TURNING_TOLERANCES, lent)
    }),
    ("quote", |g| quoted(maztubel::quote, g)),
    ("quote_strict", |g| quoted(maztubel::quote_strict, g)),
    ("check_model", |g| {
        let machine = machine(&g.chain, &g.model);
        maztubel::check_model(machine, &mut g.at, &mut g.letter)
    }),
    ("link_world", |g| {
        let (machine, frame) = (machine(&g.chain, &g.model), &mut g.numbers[..12]);
        maztubel::link_world(machine, &JOINTS, b"C", frame, &mut g.at, &mut g.letter)
    }),
    ("link_in_part", |g| {
        let (machine, frame) = (machine(&g.chain, &g.model), &mut g.numbers[..12]);
        maztubel::link_in_part(machine, &JOINTS, b"head", frame, &mut g.at, &mut g.letter)
    }),
    ("read_job", |g| {
        let (places, tolerances) = (g.places.each_mut(), g.tolerances.each_mut());
        maztubel::read_job(&g.job, places, tolerances, &mut g.at)
    }),
    ("job_poses", |g| {
        maztubel::job_poses(&g.job, &mut g.numbers[..12], &mut g.at)
    }),
    ("write_job", |g| {
        let parts = Parts {
            chain: &g.chain,
            poses: THROUGH_THE_CONE.as_flattened(),
            numbers: [1.0; 3],
        };
        let (length, at, letter) = (&mut g.count, &mut g.at, &mut g.letter);
        maztubel::write_job(parts, &mut g.written, length, at, letter)
    }),
    ("cable_number", |g| {
        maztubel::cable_number(&g.chain, &JOINTS, 0, &mut g.count, &mut g.at, &mut g.letter)
    }),
    ("build_extremes", |g| {
        maztubel::build_extremes(&JOINTS, &mut g.numbers[..10])
    }),
    ("replace_joints", |g| {
        let (joints, summary) = g.numbers.split_at_mut(5);
        maztubel::replace_joints(joints, &mut summary[..10], 0, &JOINTS)
    }),
    ("first_above", |g| {
        let summary = &g.numbers[..10];
        maztubel::first_above(&JOINTS, summary, 1, 1.0, &mut g.count, &mut g.at)
    }),
    ("grant", |g| maztubel::grant(&mut g.balances, 31, 1)),
    ("divide_for", |g| {
        let (poses, joints) = g.numbers.split_at_mut(130);
        let lent = Lent {
            poses: &mut poses[..60],
            joints: &mut joints[..50],
            inserted: &mut g.count,
            at: &mut g.at,
            letter: &mut g.letter,
        };
        let solved = Solved {
            chain: &g.chain,
            poses: &POSE,
            joints: &JOINTS,
        };
        maztubel::divide_for(&mut g.balances, 31, solved, [1.0; 2], lent)
    }),
    ("admit", |g| {
        let (poses, joints) = g.numbers.split_at_mut(130);
        let solved = Solved {
            chain: &g.chain,
            poses: TWO_POSES.as_flattened(),
            joints: TWO_SETS.as_flattened(),
        };
        let state = Dispatcher {
            words: &mut g.words,
            numbers: &mut g.state,
        };
        let outputs = [&mut poses[..60], &mut joints[..50]];
        let place = (&mut g.at, &mut g.letter);
        maztubel::admit(state, solved, [1e6, 180.0], outputs, &mut g.count, place)
    }),
    ("next", |g| maztubel::next(&g.words, &mut g.count)),
    ("count", |g| maztubel::count(&g.words, 0, &mut g.count)),
    ("turn", |g| {
        let (poses, joints) = g.numbers.split_at_mut(130);
        let state = Dispatcher {
            words: &mut g.words,
            numbers: &mut g.state,
        };
        let outputs = [&mut poses[..60], &mut joints[..50]];
        let lent = (&mut g.at, &mut g.letter, &mut g.count);
        maztubel::turn(state, outputs, lent)
    }),
    ("links_meet", |g| {
        let lent = g.places.each_mut();
        let machine = machine(&g.chain, &g.model);
        maztubel::links_meet(machine, &JOINTS, lent, &mut g.at, &mut g.letter)
    }),
];

impl Given {
    pub fn new() -> Self {
        let mut chain = chain(TWO_TABLES.1);
        for rotary in &mut chain.rotaries {
            (rotary.limited, rotary.limits) = (1, WIDE);
        }
        let link = |name| Link {
            name: vec![name],
            carrier: b"table".to_vec(),
            kind: BOX,
            numbers: [0.0, 0.0, 0.0, 1.0, 1.0, 1.0, 0.0, 0.0],
        };
        let links: Vec<Link> = (b'a'..b'a' + 20).map(link).collect();
        let bytes = chain.bytes();
        Given {
            job: job(&bytes, &[POSE, POSE].concat(), [1.0; 3]),
            chain: bytes,
            model: models::bytes(&links),
            written: [0; 512],
            numbers: [0.0; 250],
            places: [0; 4],
            tolerances: [0.0; 3],
            balances: [0; 32],
            scratch: vec![0.0; ENOUGH[0] + ENOUGH[1]],
            words: [0; WORDS],
            state: [0.0; NUMBERS],
            count: 0,
            at: 0,
            letter: 0,
        }
    }
}

/// Poses that are solved in other ways than those of a finishing path.
fn through_the_cone(chain: &[u8]) -> Course<'_> {
    Course {
        chain,
        poses: THROUGH_THE_CONE.as_flattened(),
        start: &[],
        cone: CONE,
    }
}

fn turning(chain: &[u8]) -> Solved<'_> {
    Solved {
        chain,
        poses: TURNING_POSES.as_flattened(),
        joints: TURNING_JOINTS.as_flattened(),
    }
}

fn quoted(quote: Quote, given: &mut Given) -> u32 {
    let (joints, tips) = given.scratch.split_at_mut(ENOUGH[0]);
    let [inserted, poses, evaluations, _] = given.places.each_mut();
    let scratch = Scratch {
        joints,
        tips,
        inserted,
        poses,
        evaluations,
        at: &mut given.at,
        letter: &mut given.letter,
    };
    quote(turning(&given.chain), TURNING_TOLERANCES, scratch)
}

fn asked(chain: &[u8]) -> Asked<'_> {
    Asked {
        chain,
        pose: &POSE,
        tool_length: TOOL_LENGTH,
        hint: &HINT,
    }
}

fn machine<'a>(chain: &'a [u8], model: &'a [u8]) -> Machine<'a> {
    Machine {
        name: b"mill",
        chain,
        model,
    }
}

/// The bytes of a job, with cone and tolerances.
pub fn job(chain: &[u8], poses: &[f64], numbers: [f64; 3]) -> Vec<u8> {
    let words = [0, chain.len(), poses.len() / 6, 0].map(|word| (word as u32).to_le_bytes());
    let poses = poses.iter().flat_map(|x| x.to_le_bytes()).collect();
    [
        chain.to_vec(),
        poses,
        words.concat(),
        numbers.map(f64::to_le_bytes).concat(),
    ]
    .concat()
}
