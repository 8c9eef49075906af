//! Writes what crates/filled must write, from the Rust with this library's turns:
//!
//!     cargo run --release --bin filled > ../crates/filled/stdout
//!
//! `Subdiv::fill` is not public: `subdivide_path` of one pair is one call of it on a new record, so the counts are added here.

#[cfg(original)]
fn main() {
    use oracle::original::ported::geom::Vec3;
    use oracle::original::ported::kinematics::*;

    let table = RotaryJoint {
        letter: 'B',
        carrier: Carrier::Table,
        axis: Vec3::Y,
        pivot: Vec3::ZERO,
        limits: None,
    };
    let setup = FiveAxisSetup {
        kinematics: Kinematics {
            name: "k".to_owned(),
            rotaries: vec![table],
            spindle_axis: Vec3::Z,
            model: None,
        },
        policy: SolutionPolicy::Nearest,
    };
    let xyz = Vec3::new(20.0, 5.0, 10.0).expect("finite");
    let joints = [0.0, 40.0, 100.0].map(|angle| Joints {
        xyz,
        angles: [angle, 0.0],
    });
    let poses = joints.map(|j| {
        setup
            .kinematics
            .forward(&j, 0.0)
            .expect("a pose that is reached")
    });
    let vector = |v: Vec3| [v.x(), v.y(), v.z()];
    let of_pose = |pose: &ToolPose| [vector(pose.tip), vector(pose.axis)].concat();
    let of_joints = |j: &Joints| [&vector(j.xyz)[..], &j.angles].concat();
    let mut inserted = 0;
    for i in 0..2 {
        let (poses, joints) =
            subdivide_path(&setup, "p", &poses[i..i + 2], &joints[i..i + 2], 0.05, 4.0)
                .expect("a pair that is divided");
        inserted += joints.len() - 2;
        println!("inserted {inserted:016X}");
        print_rows(poses.iter().map(of_pose), 6);
        print_rows(joints.iter().map(of_joints), 5);
    }
}

/// Each row on a line, and +0.0 in the lines behind them, up to the space that crates/filled has.
#[cfg(original)]
fn print_rows(rows: impl ExactSizeIterator<Item = Vec<f64>>, width: usize) {
    const SPACE: usize = 24;
    let unused = std::iter::repeat_n(vec![0.0; width], SPACE - rows.len());
    for row in rows.chain(unused) {
        let words: Vec<String> = row
            .iter()
            .map(|x| format!(" {:016X}", x.to_bits()))
            .collect();
        println!("{}", words.concat());
    }
}

#[cfg(not(original))]
fn main() -> std::process::ExitCode {
    oracle::parts::without_the_rust()
}
