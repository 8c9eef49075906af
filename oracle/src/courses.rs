//! Poses along which solving is delicate, drawn on a machine: through the cone, along its border and over both poles, at the
//! border of the reach and a tolerance beside it, by quarters and half turns, and around again and again.

use crate::angles::{moved, signed, within};
use crate::chains::{Chain, direction, usable_axis};
use crate::floats::power_of_two;
use crate::joints::{MOST_ANGLE, sound_joints};
use crate::lean::{Lean, Vector, cross, dot, scaled, sum, unit};
use crate::machines::{border, equation, machine, off_spindle, square_to, turned, usual};
use crate::numbers::served;
use crate::paths::{JOINTS, MOST_TIP, POSE, Path};
use crate::random::Random;
use crate::rust::ported;

fn sound_cone(random: &mut Random) -> f64 {
    match random.below(8) {
        0 => 10.0,
        1 => random.one_of(&[1e-3, 0.05, 0.08, 0.1]),
        2 => random.one_of(&[f64::from_bits(1), f64::MIN_POSITIVE, 1e-9, 1e-6]),
        3 | 4 => 1.0,
        _ => within(10.0, random).abs().max(1e-12),
    }
}

/// No start, one of any angles, or one at an end of what is served.
fn start(random: &mut Random) -> Vec<f64> {
    let mut start = sound_joints(random);
    match random.below(8) {
        0..=2 => start.clear(),
        3 => start[3..].fill_with(|| signed(MOST_ANGLE, random)),
        4 => start[3..].fill_with(|| signed(MOST_ANGLE - within(400.0, random).abs(), random)),
        5 => start[3..].fill_with(|| signed(90.0 * random.below(9) as f64, random)),
        6 => start[3..].fill_with(|| within(180.0, random)),
        _ => {}
    }
    start
}

/// What the axis of the next pose is drawn from.
#[derive(Clone, Copy)]
enum Style {
    /// Both angles a step on.
    Walk(f64),
    /// One angle or both on by the same.
    Wind([f64; 2]),
    /// Any angles.
    Jump,
    /// Angles that are multiples of 90 degrees.
    Quarters,
    /// The tilt from the spindle, and the way round it, on by the same.
    Sweep([f64; 2]),
    /// A tilt of the cone's, around it.
    Border(f64),
    /// Less than twice the cone.
    Inside,
    /// The spindle or a rotary's axis, either way, or next to it.
    Pole,
    /// The angles' axis, pushed off along a rotary.
    Pushed,
    /// At the border of the reach, pushed.
    Tangent,
    /// Any direction.
    Any,
}

/// A path in the making.
pub struct Drawing {
    chain: Chain,
    lean: Lean,
    start: Vec<f64>,
    cone: f64,
    angles: [f64; 2],
    tilt: f64,
    round: f64,
    pole: Vector,
    side: Vector,
}

impl Drawing {
    pub fn new(chain: Chain, random: &mut Random) -> Self {
        let start = start(random);
        let pole = unit(chain.spindle);
        Drawing {
            lean: Lean::new(&chain),
            angles: match start[..] {
                [_, _, _, first, second] => [first, second],
                _ => [0.0; 2],
            },
            chain,
            start,
            cone: sound_cone(random),
            tilt: within(180.0, random),
            round: within(180.0, random),
            pole,
            side: square_to(pole),
        }
    }

    /// Without the chain, which may still get other limits.
    pub fn path(&mut self, count: usize, random: &mut Random) -> Path {
        let mut style = self.style(random);
        if let Style::Sweep(_) = style {
            self.tilt = within(3.0 * self.cone, random);
        }
        let mut poses = Vec::with_capacity(POSE * count);
        let still = random.below(8) == 0;
        for _ in 0..count {
            if random.below(32) == 0 {
                style = self.style(random);
            }
            poses.extend([(); 3].map(|()| match still {
                true => 0.0,
                false => served(MOST_TIP, 1000.0, random),
            }));
            poses.extend(self.axis(style, random));
        }
        Path {
            chain: Vec::new(),
            poses,
            start: self.start.clone(),
            cone: self.cone,
            room: JOINTS * count + random.one_of(&[0, 0, 0, 0, 0, JOINTS, 3 * JOINTS]),
        }
    }

    fn style(&self, random: &mut Random) -> Style {
        match random.below(16) {
            0..=2 => Style::Walk(random.one_of(&[0.001, 0.1, 1.0, 10.0, 45.0, 100.0])),
            3 => {
                let by = random.one_of(&[1.0, 30.0, 90.0, 120.0, 179.0]);
                let by = signed(by, random);
                Style::Wind(random.one_of(&[[by, 0.0], [0.0, by], [by, by], [by, 0.25]]))
            }
            4 => Style::Jump,
            5 => Style::Quarters,
            6..=8 => {
                let by = self.cone * random.one_of(&[0.01, 0.25, 0.5, 1.0]);
                let tilt = random.one_of(&[by, by, by, 1.0, 45.0, 90.0]);
                Style::Sweep([tilt, random.one_of(&[0.0, 0.0, 1.0, 17.0, 90.0])])
            }
            9 => Style::Border(random.one_of(&[0.5, 10.0, 90.0, 170.0])),
            10 => Style::Inside,
            11 => Style::Pole,
            12 | 13 => Style::Pushed,
            14 => Style::Tangent,
            _ => Style::Any,
        }
    }

    fn axis(&mut self, style: Style, random: &mut Random) -> Vector {
        let axis = match style {
            Style::Walk(step) => self.at(self.angles.map(|x| x + within(step, random))),
            Style::Wind(by) => self.at([self.angles[0] + by[0], self.angles[1] + by[1]]),
            Style::Jump => self.at(self.angles.map(|x| x + within(180.0, random))),
            Style::Quarters => {
                let quarters = [(); 2].map(|()| 90.0 * random.below(5) as f64);
                snapped(self.at(quarters))
            }
            Style::Sweep([tilt, round]) => {
                (self.tilt, self.round) = (self.tilt + tilt, self.round + round);
                self.tilted(self.tilt, self.round)
            }
            Style::Border(round) => {
                self.round += round;
                let tilt = moved(self.cone, 16, random) + random.one_of(&[0.0, 0.0, 1e-7, -1e-7]);
                let other = random.one_of(&[0.0, 0.0, 180.0]);
                self.tilted(other + tilt, self.round)
            }
            Style::Inside => {
                let tilt = within(2.0 * self.cone, random);
                self.tilted(tilt, within(180.0, random))
            }
            Style::Pole => self.near_pole(random),
            Style::Pushed => {
                let axis = self.at(self.angles.map(|x| x + within(10.0, random)));
                let along = unit(self.chain.rotaries[random.below(2) as usize].axis);
                sum(axis, scaled(along, push(random)))
            }
            Style::Tangent => self.tangent(random),
            Style::Any => match random.below(2) {
                0 => usable_axis(random),
                _ => direction(random),
            },
        };
        match random.below(32) {
            0 => scaled(axis, power_of_two(random.below(560) as i64 - 50)),
            1 => scaled(axis, 1.0 + within(0.5, random)),
            2 => axis.map(|x| moved(x, 1, random)),
            _ => axis,
        }
    }

    /// The axis at angles, which are then those of the path.
    fn at(&mut self, angles: [f64; 2]) -> Vector {
        self.angles = angles;
        self.lean.forward([0.0; 3], angles, 0.0).1
    }

    /// Tilted from the spindle, and turned round it.
    pub fn tilted(&self, tilt: f64, round: f64) -> Vector {
        let third = cross(self.pole, self.side);
        let (sine, cosine) = tilt.to_radians().sin_cos();
        let (round_sine, round_cosine) = round.to_radians().sin_cos();
        let off = sum(scaled(self.side, round_cosine), scaled(third, round_sine));
        sum(scaled(self.pole, cosine), scaled(off, sine))
    }

    fn near_pole(&self, random: &mut Random) -> Vector {
        let [first, second] = self.chain.rotaries.map(|rotary| rotary.axis);
        let axis = random.one_of(&[self.chain.spindle, first, second]);
        let axis = scaled(axis, signed(1.0, random));
        let tiny = random.one_of(&[1e-200, 1e-160, 1e-150, 1e-100]);
        match random.below(4) {
            0 => axis.map(|x| moved(x, 1, random)),
            1 => sum(unit(axis), scaled(direction(random), push(random).abs())),
            2 => sum(unit(axis), scaled(direction(random), tiny)),
            _ => axis,
        }
    }

    /// Mostly inside the cone about either pole, else at its border, at a pole or off it.
    fn axis_in_cone(&mut self, random: &mut Random) -> Vector {
        let cone = self.cone;
        let pole = random.one_of(&[0.0, 0.0, 180.0]);
        match random.below(12) {
            0..=7 => self.tilted(pole + within(cone, random), within(180.0, random)),
            8 => self.axis(Style::Border(90.0), random),
            9 => self.axis(Style::Sweep([cone / 4.0, 17.0]), random),
            10 => self.axis(Style::Pole, random),
            _ => self.axis(Style::Walk(45.0), random),
        }
    }

    fn tangent(&mut self, random: &mut Random) -> Vector {
        let (round, far) = (within(180.0, random), random.below(2) == 0);
        let [first, _] = equation(&self.chain).map(|slot| unit(self.chain.rotaries[slot].axis));
        match border(&self.chain, round, far) {
            Some(axis) if self.chain.count == 2 => sum(axis, scaled(first, push(random))),
            _ => self.at(self.angles),
        }
    }
}

/// About a tolerance of the Rust: 1e-9 or 1e-7 of either sign, a place more or less, or of any size below 1e-4.
fn push(random: &mut Random) -> f64 {
    let size = match random.below(6) {
        0 => 0.0,
        1 => 1e-9 * (1.0 + within(1e-3, random)),
        2 => 1e-7 * (1.0 + within(1e-3, random)),
        3 => random.one_of(&[1e-9, 1e-7]),
        _ => 10f64.powf(-4.0 - within(13.0, random).abs()),
    };
    signed(size, random)
}

/// Whole components where they nearly are.
fn snapped(axis: Vector) -> Vector {
    axis.map(|x| {
        if (x - x.round()).abs() < 1e-12 {
            x.round()
        } else {
            x
        }
    })
}

/// Poses whose two solutions lie 90 degrees apart in the second factor, or a place more or less, and of which the limits let the
/// farther one alone.
pub fn square_apart(random: &mut Random) -> Path {
    let mut chain = usual(random);
    let [first, second] = equation(&chain);
    chain.rotaries[first].axis = [0.0, 0.0, 1.0];
    chain.rotaries[second].axis = [0.0, 1.0, 1.0];
    chain.spindle = [0.0, 0.0, 1.0];
    let mut drawing = Drawing::new(chain, random);
    let sign = signed(1.0, random);
    let mut angles = [0.0; 2];
    angles[first] = 15.0 * random.below(24) as f64;
    angles[second] = sign * 135.0;
    let axis = drawing.at(angles).map(|x| moved(x, 2, random));
    let mut start = vec![0.0; JOINTS];
    start[3 + first] = angles[first];
    start[3 + second] = sign * 170.0;
    let limits = if sign > 0.0 {
        [140.0, 400.0]
    } else {
        [-400.0, -140.0]
    };
    (
        chain.rotaries[second].limited,
        chain.rotaries[second].limits,
    ) = (1, limits);
    let tip = [(); 3].map(|()| served(MOST_TIP, 1000.0, random));
    Path {
        chain: chain.bytes(),
        poses: tip.into_iter().chain(axis).collect(),
        start,
        cone: 1.0,
        room: JOINTS,
    }
}

/// A pose just inside the border of the reach, with two solutions beside each other and a limit between them.
pub fn close_together(random: &mut Random) -> Path {
    let mut drawing = Drawing::new(machine(random), random);
    drawing.chain.count = 2;
    let [first, second] = equation(&drawing.chain);
    if random.below(4) > 0 {
        drawing.chain.rotaries[first].axis = [0.0, 0.0, 1.0];
        drawing.chain.rotaries[second].axis = [0.0, 1.0, random.one_of(&[1.0, 0.5, -0.25])];
        drawing.chain.spindle = unit(direction(random));
    }
    let along = unit(drawing.chain.rotaries[first].axis);
    let inward = 10f64.powf(-2.0 - within(12.0, random).abs());
    let (round, far) = (within(180.0, random), random.below(2) == 0);
    let axis = border(&drawing.chain, round, far).unwrap_or(along);
    let aside = cross(axis, along);
    let axis = turned(unit(aside), axis, signed(inward, random).to_degrees());
    let mut path = Path {
        chain: Vec::new(),
        poses: vec![0.0; 3].into_iter().chain(axis).collect(),
        start: drawing.start.clone(),
        cone: drawing.cone,
        room: JOINTS,
    };
    path.limits_to_angles(&mut drawing.chain, random);
    path.chain = drawing.chain.bytes();
    path
}

/// Poses in the cone of a rotary that is a little off the spindle, of which the other rotary alone comes nowhere near enough.
pub fn straying(random: &mut Random) -> Path {
    let chain = off_spindle(random);
    let mut drawing = Drawing::new(chain, random);
    drawing.cone = random.one_of(&[1e-4, 1e-3, 0.01, 0.03, 0.05, 0.079]);
    let mut path = drawing.path(0, random);
    let count = 1 + random.below(6) as usize;
    for _ in 0..count {
        let style = random.one_of(&[Style::Pole, Style::Inside, Style::Sweep([0.05, 30.0])]);
        path.poses
            .extend([(); 3].map(|()| served(MOST_TIP, 1000.0, random)));
        path.poses.extend(drawing.axis(style, random));
    }
    path.room = JOINTS * count;
    path.chain = chain.bytes();
    path
}

/// Poses in the cone, with limits that the lock of one leaves, or just keeps; or without limits, and wound so far that the lock of
/// one may go past what is served.
pub fn at_stops(random: &mut Random) -> Path {
    let leans = random.below(5) == 0;
    let mut chain = match leans {
        true => off_spindle(random),
        false => with_pole(random),
    };
    let mut drawing = Drawing::new(chain, random);
    drawing.cone = match leans {
        true => random.one_of(&[1e-4, 1e-3, 0.01, 0.03, 0.05, 0.079]),
        false => random.one_of(&[10.0, 5.0, 1.0, 0.05, drawing.cone]),
    };
    let primary = primary(&chain);
    drawing.pole = unit(chain.rotaries[primary].axis);
    drawing.side = square_to(drawing.pole);
    let mut path = drawing.path(0, random);
    let count = random.one_of(&[1, 1, 2, 3, 4]);
    for _ in 0..count {
        path.poses
            .extend([(); 3].map(|()| served(MOST_TIP, 1000.0, random)));
        path.poses.extend(drawing.axis_in_cone(random));
    }
    path.room = JOINTS * count;
    if random.below(8) == 0 {
        path.start = vec![0.0; JOINTS];
        path.start[3 + primary] = within(180.0, random);
        let wound = MOST_ANGLE - within(90.0, random).abs();
        path.start[3 + (1 - primary)] = signed(wound, random);
    } else {
        path.limits_to_lock(&mut chain, random);
    }
    path.chain = chain.bytes();
    path
}

/// The slot of the rotary that is nearer to the spindle, of a chain of two.
fn primary(chain: &Chain) -> usize {
    let spindle = unit(chain.spindle);
    let along = chain
        .rotaries
        .map(|rotary| dot(unit(rotary.axis), spindle).abs());
    usize::from(along[0] < along[1])
}

/// A machine with a singular direction, and no limits.
fn with_pole(random: &mut Random) -> Chain {
    loop {
        let mut chain = match random.below(3) {
            0 => usual(random),
            _ => machine(random),
        };
        for rotary in &mut chain.rotaries {
            (rotary.limited, rotary.limits) = (0, [0.0; 2]);
        }
        let rust = ported::setup(&chain).kinematics;
        let spindle = ported::tool_pose(&[&[0.0; 3], &chain.spindle[..]].concat()).axis;
        if ported::check(&rust).is_ok() && rust.clearance(spindle).is_some() {
            return chain;
        }
    }
}
