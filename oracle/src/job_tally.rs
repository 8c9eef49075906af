//! What comes of reading jobs, of counting cable numbers and of running the program: how often each answer was met, and the differences
//! from what is expected.

use crate::cables::{self, Case, turns, winds};
use crate::calls::{Guarded, Told};
use crate::job_calls::{Read, ask_poses, ask_read, expected_poses, telling_poses, telling_read};
use crate::jobs::{RESTED_ONE, RESTED_TWO, for_program, for_reader, short};
use crate::joints::MOST_ANGLE;
use crate::met::{Account, Differences, Met};
use crate::parts::Outcome;
use crate::paths::{JOINTS, POSE};
use crate::random::Random;
use crate::reading;
use crate::{posted, program};
use job::{MOST_BYTES, TRAILER};
use std::process::ExitCode;

/// Each job is asked for its poses so many times.
const ROOMS: usize = 2;

/// The entries, and the program.
pub const ENTRIES: [&str; 4] = ["read_job", "job_poses", "cable_number", "post"];
const READ_JOB: usize = 0;
const JOB_POSES: usize = 1;
const CABLE_NUMBER: usize = 2;
const POST: usize = 3;

/// What each can answer. The reader's 29 is counted by the field, in the chain by the rotary's.
const READ: [&str; 18] = [
    "served",
    "served, no poses at the trailer",
    "served, 65536 bytes",
    "served, a nan",
    "3",
    "29, under 40 bytes",
    "29, over 65536 bytes",
    "29, the count behind the trailer's start",
    "29, the chain past the trailer",
    "29, poses past the trailer",
    "29, no poses, past the trailer",
    "29, poses on the chain",
    "29, one byte of the poses on the chain",
    "29, the word",
    "29, zeros behind the count",
    "served, rest angles",
    "29, the chain past the trailer by its rest angles",
    "29, poses on the chain by its rest angles",
];
const ROTARY: [&str; 6] = [
    "4",
    "29, carrier",
    "29, limited",
    "29, zeros",
    "29, the lower limit",
    "29, the upper limit",
];
const POSES: [&str; 9] = [
    "served",
    "served, no poses",
    "served, +0.0 behind them",
    "served, a nan",
    "3",
    "4",
    "20",
    "28",
    "29",
];
const CABLE: [&str; 28] = [
    "served, no joints",
    "served, no such rotary",
    "served, no turn",
    "served, turns",
    "served, just whole turns",
    "served, a place below whole turns",
    "served, 36000 degrees",
    "served, from a rest angle",
    "served, just whole turns from a rest angle",
    "served, a place below whole turns from a rest angle",
    "served, whole turns by the rounding of the difference",
    "served, 72000 degrees",
    "served, a rest angle of -0.0",
    "3",
    "4",
    "5",
    "6",
    "7",
    "8",
    "9",
    "16, a position",
    "16, an angle",
    "17, a pivot or a position",
    "17, an angle",
    "20",
    "29",
    "6, a rest angle",
    "17, a rest angle",
];
const POSTED: [&str; 21] = [
    "poses, none inserted",
    "poses, some inserted",
    "3",
    "4",
    "5",
    "6",
    "7",
    "8",
    "9",
    "16 pose",
    "17",
    "17 pose",
    "18",
    "19",
    "23 pose",
    "24 pose",
    "25 pose",
    "26 pose",
    "28",
    "29",
    "30",
];

#[derive(Default)]
pub struct JobTally {
    met: Met,
    calls: [u64; ENTRIES.len()],
    differences: [Differences; ENTRIES.len()],
}

impl Outcome for JobTally {
    fn add(&mut self, more: JobTally) {
        self.met.add(more.met);
        for (count, more) in self.calls.iter_mut().zip(more.calls) {
            *count += more;
        }
        for (differences, more) in self.differences.iter_mut().zip(more.differences) {
            differences.add(more);
        }
    }
}

impl JobTally {
    /// As many jobs, each read and asked for its poses, and as many cable numbers.
    pub fn compare_drawn(&mut self, jobs: u64, random: &mut Random) {
        for _ in 0..jobs {
            self.compare_job(&for_reader(random), random);
            let case = Case::drawn(random);
            self.hold_cable(&case, &cables::ask(&case));
        }
    }

    /// The same through the program.
    pub fn compare_posted(&mut self, jobs: u64, random: &mut Random) {
        for _ in 0..jobs {
            let bytes = for_program(random);
            self.hold_posted(&bytes, &program::post(&bytes));
        }
    }

    /// A short job with each byte changed to each other one, and cut at each place, at its end and at its beginning.
    pub fn compare_each_change(&mut self, random: &mut Random) {
        let job = short(random);
        for place in 0..job.len() {
            for byte in 0..=u8::MAX {
                let mut bytes = job.clone();
                bytes[place] = byte;
                self.compare_job(&bytes, random);
            }
            self.compare_job(&job[..place], random);
            self.compare_job(&job[place..], random);
        }
    }

    fn compare_job(&mut self, bytes: &[u8], random: &mut Random) {
        let read = job::read(bytes);
        let lent = Guarded::bytes(bytes);
        self.hold_read(bytes, &read, &ask_read(lent.inner()));
        for _ in 0..ROOMS {
            let room = room(&read, random);
            self.hold_poses(bytes, &read, room, &ask_poses(lent.inner(), room));
        }
        assert!(lent.kept(), "a job was written to: {}", spelled(bytes));
    }

    fn hold_read(&mut self, bytes: &[u8], read: &Read, told: &Told) {
        for what in answered_read(bytes, read) {
            self.met.count(format!("read_job, {what}"));
        }
        self.hold(READ_JOB, told, &telling_read(read), || spelled(bytes));
    }

    fn hold_poses(&mut self, bytes: &[u8], read: &Read, room: usize, told: &Told) {
        let answer = expected_poses(bytes, read, room);
        for what in answered_poses(&answer, room) {
            self.met.count(format!("job_poses, {what}"));
        }
        let must = telling_poses(&answer, room);
        let words = || format!("{} room {room}", spelled(bytes));
        self.hold(JOB_POSES, told, &must, words);
    }

    fn hold_cable(&mut self, case: &Case, told: &Told) {
        let answer = cables::expected(case);
        let what = match answer {
            Ok(number) => served_cable(case, number),
            Err(refusal) => refused_cable(case, refusal.number),
        };
        self.met.count(format!("cable_number, {what}"));
        let must = cables::telling(&answer);
        self.hold(CABLE_NUMBER, told, &must, || case.to_string());
    }

    fn hold(&mut self, entry: usize, told: &Told, must: &Told, inputs: impl FnOnce() -> String) {
        self.calls[entry] += 1;
        if told != must {
            let words = || format!("{}: {}", ENTRIES[entry], inputs());
            self.differences[entry]
                .note(|| format!("{}\n    told {told}\n    must {must}", words()));
        }
    }

    fn hold_posted(&mut self, bytes: &[u8], told: &Result<String, String>) {
        let must = posted::answer(bytes);
        self.met.count(format!("post, {}", answered_post(&must)));
        self.calls[POST] += 1;
        if told.as_ref() != Ok(&must) {
            self.differences[POST].note(|| {
                let (Ok(told) | Err(told)) = told;
                let words = spelled(bytes);
                format!("post: {words}\n    told {told}\n    must {must}")
            });
        }
    }

    pub fn count(&self) -> u64 {
        self.differences.iter().map(Differences::count).sum()
    }

    /// Status 1 where there is a difference, or where something was met less often than `fewest` times.
    pub fn print(&self, fewest: u64) -> ExitCode {
        let rare = self.met.print(all().into_iter().map(|what| (what, fewest)));
        for (entry, calls) in self.calls() {
            println!("{entry}: {calls} calls");
        }
        let each = self.differences.iter().zip(ENTRIES);
        let different = each.filter(|(differences, entry)| differences.print(entry));
        ExitCode::from(u8::from(different.count() > 0 || rare))
    }
}

impl Account for JobTally {
    fn calls(&self) -> Vec<(&'static str, u64)> {
        ENTRIES.into_iter().zip(self.calls).collect()
    }

    fn noted(&self) -> Vec<&Differences> {
        self.differences.iter().collect()
    }

    fn unmet(&self) -> Vec<String> {
        self.met.unmet(all())
    }
}

/// All that must be met.
fn all() -> Vec<String> {
    let each = [&READ[..], &POSES, &CABLE, &POSTED];
    let answers = ENTRIES.iter().zip(each);
    let mut all: Vec<String> = answers
        .flat_map(|(entry, answers)| answers.iter().map(move |what| format!("{entry}, {what}")))
        .collect();
    for rotary in 0..2 {
        all.extend(ROTARY.map(|what| format!("read_job, {what}, rotary {rotary}")));
    }
    all
}

/// How many numbers to lend for poses: what they need, more, less, or a number that makes no whole records.
fn room(read: &Read, random: &mut Random) -> usize {
    let needed = match read {
        Ok(job) => job.poses.len() / 8,
        Err(_) => POSE * random.below(4) as usize,
    };
    match random.below(8) {
        0 => needed + 1 + random.below(5) as usize,
        1 => random.below(needed as u64 + 1) as usize,
        2 => needed.saturating_sub(POSE),
        3 => needed + POSE * (1 + random.below(4) as usize),
        _ => needed,
    }
}

fn spelled(bytes: &[u8]) -> String {
    let digits: String = bytes.iter().map(|byte| format!("{byte:02X}")).collect();
    format!("{} bytes [{digits}]", bytes.len())
}

/// Which of `READ`, or of `ROTARY` with the rotary.
fn answered_read(bytes: &[u8], read: &Read) -> Vec<String> {
    let job = match read {
        Ok(job) => job,
        Err(breach) if breach.number == 29 => return vec![field(bytes, breach.at)],
        Err(breach) if breach.number == 4 => return vec![format!("4, rotary {}", breach.at)],
        Err(breach) => return vec![breach.number.to_string()],
    };
    let at_trailer = job.poses.is_empty() && job.poses.start == bytes.len() - TRAILER;
    let nan = [job.cone, job.chord, job.axis].iter().any(|x| x.is_nan());
    let each = [true, at_trailer, bytes.len() == MOST_BYTES, nan];
    let met = READ.iter().zip(each).filter(|(_, met)| *met);
    let mut met: Vec<String> = met.map(|(what, _)| (*what).to_owned()).collect();
    if [RESTED_ONE, RESTED_TWO].contains(&job.chain.len()) {
        met.push(READ[15].to_owned());
    }
    met
}

/// The field at the offset of a 29.
fn field(bytes: &[u8], at: usize) -> String {
    let Some(trailer) = bytes.len().checked_sub(TRAILER) else {
        return READ[5].to_owned();
    };
    if bytes.len() > MOST_BYTES {
        return READ[6].to_owned();
    }
    let word = |i: usize| {
        let four = &bytes[trailer + 4 * i..][..4];
        u32::from_le_bytes(four.try_into().expect("4 bytes")) as usize
    };
    let (chain, poses, end) = (word(0), word(1), word(1) + 48 * word(2));
    let record = if word(3) == 1 { 80 } else { 72 };
    let chain_end = |record: usize| chain + 32 + record * usize::from(bytes[chain]);
    match at.checked_sub(trailer) {
        Some(0) if chain >= trailer => READ[7].to_owned(),
        Some(0) if chain_end(72) <= trailer => READ[16].to_owned(),
        Some(0) => READ[8].to_owned(),
        Some(4) if end > trailer && end == poses => READ[10].to_owned(),
        Some(4) if end > trailer => READ[9].to_owned(),
        Some(4) if end > chain && poses >= chain_end(72) => READ[17].to_owned(),
        Some(4) => {
            let one = poses + 1 == chain_end(record) || end == chain + 1;
            READ[if one { 12 } else { 11 }].to_owned()
        }
        Some(_) => READ[13].to_owned(),
        None => field_of_chain(at - chain, record),
    }
}

fn field_of_chain(at: usize, record: usize) -> String {
    let Some(at) = at.checked_sub(8) else {
        return READ[14].to_owned();
    };
    let field = match at % record {
        1 => 1,
        2 => 2,
        3..8 => 3,
        56 => 4,
        _ => 5,
    };
    format!("{}, rotary {}", ROTARY[field], at / record)
}

/// Which of `POSES`.
fn answered_poses(answer: &Result<Vec<f64>, (u32, usize)>, room: usize) -> Vec<String> {
    let poses = match answer {
        Ok(poses) => poses,
        Err((number, _)) => return vec![number.to_string()],
    };
    let nan = poses.iter().any(|x| x.is_nan());
    let each = [true, poses.is_empty(), room > poses.len(), nan];
    let met = POSES.iter().zip(each).filter(|(_, met)| *met);
    met.map(|(what, _)| (*what).to_owned()).collect()
}

/// Which of `CABLE`.
fn served_cable(case: &Case, number: u64) -> String {
    let chain = reading::chain(&case.chain).expect("a chain that is served");
    if case.joints.is_empty() {
        return CABLE[0].to_owned();
    }
    if case.rotary >= u64::from(chain.count) {
        return CABLE[1].to_owned();
    }
    let rotary = case.rotary as usize;
    let rest = chain.rotaries[rotary].rest;
    let most = |most: f64, wind: f64| most.max(wind.abs());
    let largest = winds(&chain, &case.joints, rotary).fold(0f64, most);
    let below = turns(largest.next_up()) > number;
    let just = number > 0 && turns(largest.next_down()) < number;
    let what = match number {
        _ if largest == 2.0 * MOST_ANGLE => 11,
        _ if just && rounded_up(case, rotary, rest, number) => 10,
        _ if rest != 0.0 && below => 9,
        _ if rest != 0.0 && just => 8,
        _ if rest != 0.0 => 7,
        _ if rest.is_sign_negative() => 12,
        _ if largest == MOST_ANGLE => 6,
        _ if below => 5,
        0 => 2,
        _ if just => 4,
        _ => 3,
    };
    CABLE[what].to_owned()
}

/// Whether no angle is exactly so many turns from the rest angle: those are counted that are whole multiples of 2^-60.
fn rounded_up(case: &Case, rotary: usize, rest: f64, number: u64) -> bool {
    let scaled = |x: f64| x * 2f64.powi(60);
    let whole = |x: f64| (scaled(x).fract() == 0.0).then_some(scaled(x) as i128);
    let turns = (i128::from(number) * 360) << 60;
    case.joints.chunks(JOINTS).all(|set| {
        let exact = whole(set[3 + rotary]).zip(whole(rest));
        exact.is_some_and(|(angle, rest)| (angle - rest).abs() < turns)
    })
}

/// The same of a refusal: of 6, 16 and 17 where it is.
fn refused_cable(case: &Case, number: u32) -> String {
    let angles = case.joints.chunks(JOINTS).flat_map(|set| &set[3..]);
    let rests = |test: fn(f64) -> bool| {
        let chain = reading::chain(&case.chain).expect("a chain that is read");
        chain.present().any(|rotary| test(rotary.rest))
    };
    let angle = match number {
        6 if rests(|rest| !rest.is_finite()) => return CABLE[26].to_owned(),
        17 if rests(|rest| rest.abs() > MOST_ANGLE) => return CABLE[27].to_owned(),
        16 => angles.into_iter().any(|x| !x.is_finite()),
        17 => angles.into_iter().any(|x| x.abs() > MOST_ANGLE),
        _ => return number.to_string(),
    };
    let what = 20 + 2 * (number as usize - 16) + usize::from(angle);
    CABLE[what].to_owned()
}

/// Which of `POSTED`.
fn answered_post(text: &str) -> String {
    let words: Vec<&str> = text.split_whitespace().take(4).collect();
    match words[..] {
        ["refused", number, "pose", _] => format!("{number} pose"),
        ["refused", number, ..] => number.to_owned(),
        [_, _, _, "0"] => POSTED[0].to_owned(),
        _ => POSTED[1].to_owned(),
    }
}

#[cfg(test)]
mod tests {
    use super::*;
    use crate::calls::{GUARD, LENT_AT, LENT_LETTER};

    /// Changes what an export tells, where the fault shows.
    type Fault = fn(usize, &mut Told);

    /// Compares what exports with a fault would tell, and gives how often that was noticed.
    fn noticed(fault: Fault) -> u64 {
        let mut random = Random::new(7);
        let mut tally = JobTally::default();
        for _ in 0..2000 {
            let bytes = for_reader(&mut random);
            let read = job::read(&bytes);
            let mut told = telling_read(&read);
            fault(READ_JOB, &mut told);
            tally.hold_read(&bytes, &read, &told);
            let room = room(&read, &mut random);
            let mut told = telling_poses(&expected_poses(&bytes, &read, room), room);
            fault(JOB_POSES, &mut told);
            tally.hold_poses(&bytes, &read, room, &told);
            let case = Case::drawn(&mut random);
            let mut told = cables::telling(&cables::expected(&case));
            fault(CABLE_NUMBER, &mut told);
            tally.hold_cable(&case, &told);
        }
        tally.count()
    }

    const FAULTS: [(&str, Fault); 11] = [
        ("records of 72 bytes with the word 1", |entry, told| {
            if entry == READ_JOB && told.number == 0 && told.numbers[3] % 80 == 32 {
                told.numbers[3] -= told.numbers[3] / 80 * 8;
            }
        }),
        ("the offset behind the bad field", |_, told| {
            if told.number == 29 {
                told.at[1] += 1;
            }
        }),
        ("the other rotary", |_, told| {
            if told.number == 4 {
                told.at[1] ^= 1;
            }
        }),
        ("a place left unwritten", |entry, told| {
            if entry == READ_JOB && told.number == 0 {
                told.numbers[3] = LENT_AT;
            }
        }),
        ("a count written on a refusal", |entry, told| {
            if entry == READ_JOB && told.number == 3 {
                told.numbers[7] = 0;
            }
        }),
        ("another nan", |entry, told| {
            if entry == READ_JOB && f64::from_bits(told.numbers[10]).is_nan() && told.number == 0 {
                told.numbers[10] ^= 1;
            }
        }),
        ("the space before the lengths", |entry, told| {
            if entry == JOB_POSES && told.number == 20 {
                told.number = 28;
            }
        }),
        ("poses cleared where there is no space", |entry, told| {
            if entry == JOB_POSES && told.number == 28 {
                told.numbers
                    .iter_mut()
                    .skip(GUARD)
                    .take(1)
                    .for_each(|x| *x = 0);
            }
        }),
        ("a number written past the end", |entry, told| {
            if entry == JOB_POSES && told.number == 0 {
                *told.numbers.last_mut().expect("a guard") = 0;
            }
        }),
        ("a turn too many", |entry, told| {
            if entry == CABLE_NUMBER && told.number == 0 && told.numbers[1] > 0 {
                told.numbers[1] += 1;
            }
        }),
        ("a letter left unwritten", |entry, told| {
            if entry == CABLE_NUMBER && told.number == 17 {
                told.letter[1] = LENT_LETTER;
            }
        }),
    ];

    #[test]
    fn every_fault_is_noticed() {
        assert_eq!(noticed(|_, _| ()), 0);
        for (words, fault) in FAULTS {
            assert!(noticed(fault) > 0, "{words}");
        }
    }

    #[test]
    fn the_program_is_held_to_its_text() {
        let mut tally = JobTally::default();
        let short = [0; 39];
        tally.hold_posted(&short, &Ok("refused 29\n".to_owned()));
        assert_eq!(tally.count(), 0);
        tally.hold_posted(&short, &Ok("refused 29".to_owned()));
        tally.hold_posted(&short, &Err("refused 29\n".to_owned()));
        assert_eq!(tally.count(), 2);
    }
}
