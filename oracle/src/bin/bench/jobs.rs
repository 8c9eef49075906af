//! Writing a job beside reading it, and beside a copy of its bytes.

use crate::rows::{Table, number, whole};
use crate::timing::of_each;
use oracle::chains::{Chain, Rotary};
use oracle::maztubel::{self, Parts};
use std::hint::black_box;

/// How many poses the jobs have. The last is the longest with two rotaries.
const POSES: [usize; 4] = [0, 10, 100, 1360];

/// So many bytes are written for each time that is taken.
const BYTES: usize = 20_000_000;

const NUMBERS: [f64; 3] = [1.0, 0.01, 0.5];

pub fn table() -> Table {
    let unit = "ns a byte; reading is read_job and job_poses, and a copy is memcpy's:";
    let head = ["", "bytes", "write_job", "reading", "copy", "over reading"];
    let mut table = Table::new("Jobs", unit, &head);
    for poses in POSES {
        let job = Job::new(poses);
        let [written, read, copied] = job.timed();
        table.row(vec![
            format!("{} poses", whole(poses as u64)),
            whole(job.bytes.len() as u64),
            number(written),
            number(read),
            number(copied),
            number(written / read),
        ]);
    }
    table
}

struct Job {
    chain: Vec<u8>,
    poses: Vec<f64>,
    bytes: Vec<u8>,
}

impl Job {
    fn new(count: usize) -> Self {
        let pose = |i: usize| [i as f64, -0.5 * i as f64, 20.0, 0.3, 0.4, 0.8];
        let mut job = Job {
            chain: tables().bytes(),
            poses: (0..count).flat_map(pose).collect(),
            bytes: Vec::new(),
        };
        job.bytes = vec![0; job.chain.len() + 8 * job.poses.len() + 40];
        let mut bytes = job.bytes.clone();
        job.write(&mut bytes);
        job.bytes = bytes;
        job
    }

    fn write(&self, bytes: &mut [u8]) {
        let (mut length, mut at, mut letter) = (0, 0, 0);
        let parts = Parts {
            chain: &self.chain,
            poses: black_box(&self.poses),
            numbers: NUMBERS,
        };
        let number = maztubel::write_job(parts, bytes, &mut length, &mut at, &mut letter);
        assert_eq!((number, length), (0, self.bytes.len() as u64));
    }

    fn read(&self, poses: &mut [f64]) {
        let (mut places, mut numbers, mut at) = ([0; 4], [0.0; 3], 0);
        let job = black_box(&self.bytes);
        let number = maztubel::read_job(job, places.each_mut(), numbers.each_mut(), &mut at);
        assert_eq!(number, 0);
        assert_eq!(maztubel::job_poses(job, poses, &mut at), 0);
    }

    /// In ns a byte: written, read, copied.
    fn timed(&self) -> [f64; 3] {
        let (mut bytes, mut poses) = (self.bytes.clone(), self.poses.clone());
        let length = self.bytes.len();
        [
            of_each(BYTES, length, || self.write(black_box(&mut bytes))),
            of_each(BYTES, length, || self.read(black_box(&mut poses))),
            of_each(BYTES, length, || {
                black_box(&mut bytes).copy_from_slice(black_box(&self.bytes))
            }),
        ]
    }
}

/// A below C, A within limits.
fn tables() -> Chain {
    let rotary = |letter, axis| Rotary {
        letter,
        axis,
        pivot: [0.0, 0.0, -100.0],
        ..Rotary::default()
    };
    let mut chain = Chain {
        count: 2,
        rotaries: [rotary(b'A', [1.0, 0.0, 0.0]), rotary(b'C', [0.0, 0.0, 1.0])],
        spindle: [0.0, 0.0, 1.0],
        ..Chain::default()
    };
    (chain.rotaries[0].limited, chain.rotaries[0].limits) = (1, [-120.0, 30.0]);
    chain
}
