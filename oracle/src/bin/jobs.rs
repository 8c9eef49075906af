//! Compares what reads jobs with a second reader, and answers to them with the Rust, whose sine, cosine, arctangent and arccosine are
//! the exported ones, and with document 01 where it adds to the Rust:
//!
//!     jobs [SEED] [THOUSANDS]
//!
//! Each job of examples/jobs is answered by the Rust, which must be what stands beside it as `.expected`. Then THOUSANDS (1000)
//! thousand random jobs, sound and damaged, are read and asked for their poses, as many cable numbers are counted, and one job for
//! each hundred of these goes through the program as a process. A few short jobs are read with each byte changed to each other one,
//! and cut at each place. Every answer is compared: the number, the place, the letter, each
//! lent number bit for bit, and what the program writes. Prints how often each answer was met, and the first differences. Ends with
//! status 1 where there is a difference, or where something was not met.

use std::process::ExitCode;

fn main() -> ExitCode {
    #[cfg(original)]
    return comparison::run();
    #[cfg(not(original))]
    oracle::parts::without_the_rust()
}

#[cfg(original)]
mod comparison {
    use oracle::job_tally::JobTally;
    use oracle::parts::{Outcome, argument, compared};
    use oracle::posted;
    use oracle::random::Random;
    use std::fs;
    use std::path::{Path, PathBuf};
    use std::process::ExitCode;

    /// How many jobs there are in a part, and of them through the program.
    const JOBS: u64 = 1000;
    const POSTED: u64 = 10;

    /// How many short jobs are changed in each byte.
    const SHORT: u64 = 6;

    /// How often each answer must be met in a hundred parts, on the average.
    const FEWEST: u64 = 1;

    pub fn run() -> ExitCode {
        let seed = argument(1, 1);
        let thousands = argument(2, 1000);
        let examples = compare_examples();
        println!("seed {seed}, {thousands} thousand jobs");
        let parts = (1000 * thousands).div_ceil(JOBS);
        let mut total = compared(seed, parts, compare_part);
        total.add(compared(seed, SHORT, JobTally::compare_each_change));
        let drawn = total.print((parts * FEWEST).div_ceil(100));
        if examples { drawn } else { ExitCode::FAILURE }
    }

    fn compare_part(tally: &mut JobTally, random: &mut Random) {
        tally.compare_drawn(JOBS, random);
        tally.compare_posted(POSTED, random);
    }

    /// Whether the Rust answers each as expected.
    fn compare_examples() -> bool {
        let folder = Path::new(env!("CARGO_MANIFEST_DIR")).join("../examples/jobs");
        let files = fs::read_dir(folder).expect("examples/jobs");
        let paths = files.map(|file| file.expect("a file of examples/jobs").path());
        let jobs: Vec<PathBuf> = paths
            .filter(|path| path.extension().is_some_and(|extension| extension == "job"))
            .collect();
        let different = jobs.iter().filter(|job| !compare_example(job)).count();
        println!(
            "{} jobs of examples/jobs, {different} answered otherwise by the Rust",
            jobs.len()
        );
        different == 0 && !jobs.is_empty()
    }

    fn compare_example(job: &Path) -> bool {
        let bytes = fs::read(job).expect("a job");
        let expected = fs::read_to_string(job.with_extension("expected"));
        let answer = posted::answer(&bytes);
        let same = answer == expected.expect("the answer beside a job");
        if !same {
            println!("{}: the Rust answers\n{answer}", job.display());
        }
        same
    }
}
