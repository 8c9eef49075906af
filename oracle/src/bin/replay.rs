//! Writes a fixed sample of the Rust's answers, over every entry but the slice forms, for the program `replay`, which replays it
//! without the Rust:
//!
//!     replay FOLDER
//!
//! writes FOLDER/stdin, the cases, and FOLDER/stdout, a line for each, and prints how many cases each entry has with each number. The
//! Rust's sine, cosine, arctangent and arccosine are the exported ones; document 01 decides what the Rust has not, as in the
//! comparisons; no line is what an export of the entry answered.

use std::process::ExitCode;

#[cfg(original)]
fn main() -> ExitCode {
    let Some(folder) = std::env::args_os().nth(1) else {
        println!("replay FOLDER");
        return ExitCode::from(2);
    };
    sample::write(folder.as_ref());
    ExitCode::SUCCESS
}

#[cfg(not(original))]
fn main() -> ExitCode {
    oracle::parts::without_the_rust()
}

#[cfg(original)]
mod sample {
    use oracle::exact::Sums;
    use oracle::random::Random;
    use oracle::replayed::Replayed;
    use oracle::{replayed_cells, replayed_quotas};
    use oracle::{cases, inverse_cases};
    use oracle::{quotes, replayed_jobs, replayed_meetings, replayed_quotes, replayed_stricts};
    use oracle::{replayed_calls, replayed_extremes, replayed_functions};
    use std::collections::BTreeMap;
    use std::fs;
    use std::path::Path;

    /// The numbers that an entry can refuse with. Those of a chain are nearly everyone's.
    const CHAIN: [u32; 8] = [29, 3, 4, 5, 6, 7, 8, 9];
    const MODEL: [u32; 6] = [1, 2, TOO_MANY_LINKS, 11, 12, 13];

    /// 65 links are long.
    const TOO_MANY_LINKS: u32 = 10;

    /// What is drawn seldom comes to 27, and is never short then.
    const DIVIDES: [&str; 2] = ["subdivide_path", "solve_and_divide"];
    const STRICT: [&str; 2] = ["subdivide_strict", "quote_strict"];

    /// So many cases have each refusal's number, and the one of too many links.
    const OF_EACH: usize = 5;
    const OF_LONG: usize = 2;

    /// So many divisions are followed by a looser one and by a second one of their result.
    const OF_LATER: usize = 12;

    /// So many rows of grants and charged divisions there are, from a seed of their own.
    const ROWS: usize = 5;
    const QUOTAS: u64 = 11;

    /// And of a dispatcher's calls.
    const CELL_ROWS: usize = 3;
    const CELLS: u64 = 10;

    /// How many bytes a case has with its line, mostly; and at most.
    const USUAL: usize = 1000;
    const MOST: usize = 8000;

    /// So many cases are drawn before a number that was not met often enough is an error.
    const MOST_DRAWN: usize = 1_000_000;

    /// None is a case that is left out.
    type Draw<'a> = Box<dyn Fn(&mut Random) -> Option<Replayed> + 'a>;

    struct Entry<'a> {
        name: &'static str,
        served: usize,
        refusals: Vec<u32>,
        /// One of so many may be long.
        longer: u64,
        draw: Draw<'a>,
    }

    impl<'a> Entry<'a> {
        fn new(
            name: &'static str,
            served: usize,
            refusals: &[&[u32]],
            draw: impl Fn(&mut Random) -> Option<Replayed> + 'a,
        ) -> Self {
            Entry {
                name,
                served,
                refusals: refusals.concat(),
                longer: 16,
                draw: Box::new(draw),
            }
        }

        fn longer(self, longer: u64) -> Self {
            Entry { longer, ..self }
        }

        /// How many cases of each number are wanted.
        fn wanted(&self) -> BTreeMap<u32, usize> {
            let refused = self.refusals.iter().map(|&number| match number {
                TOO_MANY_LINKS => (number, OF_LONG),
                _ => (number, OF_EACH),
            });
            refused.chain([(0, self.served)]).collect()
        }

        /// As many, in the order in which they were drawn.
        fn sample(&self, seed: u64) -> Vec<Replayed> {
            let mut random = Random::new(seed);
            let mut wanted = self.wanted();
            let mut cases = Vec::new();
            for _ in 0..MOST_DRAWN {
                let Some(case) = (self.draw)(&mut random) else {
                    continue;
                };
                let number = case.number;
                let most = match random.below(self.longer) {
                    _ if number == TOO_MANY_LINKS => MOST,
                    0 => MOST,
                    _ => USUAL,
                };
                if case.size() > most {
                    continue;
                }
                let left = wanted.get_mut(&number);
                let left = left.unwrap_or_else(|| panic!("{} refuses with {number}", self.name));
                if *left > 0 {
                    *left -= 1;
                    cases.push(case);
                }
                if wanted.values().all(|&left| left == 0) {
                    return cases;
                }
            }
            panic!("{} is not met with {wanted:?}", self.name);
        }
    }

    fn entries(sums: &Sums) -> Vec<Entry<'_>> {
        let mut all = of_machines();
        all.extend(of_paths());
        all.extend(of_functions(sums));
        all.push(of_writer());
        all.extend(of_extremes());
        all.push(of_quotes());
        all.push(of_teeth());
        all.push(of_meetings());
        all.extend(of_stricts());
        all
    }

    fn of_machines<'a>() -> Vec<Entry<'a>> {
        use cases::Entry as Of;
        use inverse_cases::Entry as Inverse;
        let frame: [&[u32]; 4] = [&CHAIN, &MODEL, &[16, 17], &[20]];
        let inverse: [&[u32]; 2] = [&CHAIN, &[14, 15, 16, 17, 20, 21, 22]];
        vec![
            Entry::new("check_chain", 80, &[&CHAIN, &[17]], |random| {
                replayed_calls::of_chain(Of::CheckChain, random)
            }),
            Entry::new("forward", 140, &[&CHAIN, &[14, 16, 17, 20]], |random| {
                replayed_calls::of_chain(Of::Forward, random)
            }),
            Entry::new("check_model", 80, &[&CHAIN, &MODEL, &[17]], |random| {
                replayed_calls::of_model(Of::CheckModel, random)
            }),
            Entry::new("link_world", 100, &frame, |random| {
                replayed_calls::of_model(Of::LinkWorld, random)
            }),
            Entry::new("link_in_part", 100, &frame, |random| {
                replayed_calls::of_model(Of::LinkInPart, random)
            }),
            Entry::new("inverse", 140, &inverse, |random| {
                replayed_calls::of_inverse(Inverse::Inverse, random)
            }),
            Entry::new("choose", 140, &inverse, |random| {
                replayed_calls::of_inverse(Inverse::Choose, random)
            }),
        ]
    }

    fn of_paths<'a>() -> Vec<Entry<'a>> {
        let path = [16, 17, 18, 20, 23, 24, 25, 26, 28, 30];
        let divided = [16, 17, 19, 20, 28, 30];
        vec![
            Entry::new("solve_path", 140, &[&CHAIN, &path], replayed_calls::of_path),
            Entry::new(
                "subdivide_path",
                110,
                &[&CHAIN, &divided],
                replayed_calls::of_joints,
            )
            .longer(6),
            Entry::new(
                "solve_and_divide",
                120,
                &[&CHAIN, &path, &[19]],
                replayed_calls::of_both,
            )
            .longer(6),
            Entry::new("read_job", 50, &[&[3, 4, 29]], |random| {
                replayed_jobs::of_reader(&replayed_jobs::job(random))
            }),
            Entry::new("job_poses", 50, &[&[3, 4, 20, 28, 29]], |random| {
                replayed_jobs::of_poses(&replayed_jobs::job(random), random)
            }),
            Entry::new(
                "cable_number",
                110,
                &[&CHAIN, &[16, 17, 20]],
                replayed_jobs::of_cable,
            ),
        ]
    }

    fn of_writer<'a>() -> Entry<'a> {
        let refused = [16, 17, 18, 19, 20, 28];
        Entry::new(
            "write_job",
            110,
            &[&CHAIN, &refused],
            replayed_jobs::of_write,
        )
    }

    fn of_functions(sums: &Sums) -> Vec<Entry<'_>> {
        vec![
            Entry::new("sine", 100, &[&[17]], |random| {
                replayed_functions::of_sine(sums, random)
            }),
            Entry::new("cosine", 100, &[&[17]], |random| {
                replayed_functions::of_cosine(sums, random)
            }),
            Entry::new("arctangent", 100, &[&[17]], |random| {
                replayed_functions::of_arctangent(sums, random)
            }),
            Entry::new("arccosine", 100, &[&[17]], |random| {
                replayed_functions::of_arccosine(sums, random)
            }),
        ]
    }

    fn of_extremes<'a>() -> Vec<Entry<'a>> {
        let refusals: [&[u32]; 1] = [&[16, 17, 20]];
        vec![
            Entry::new("build_extremes", 60, &refusals, replayed_extremes::of_build).longer(6),
            Entry::new(
                "replace_joints",
                60,
                &refusals,
                replayed_extremes::of_replace,
            )
            .longer(6),
            Entry::new("first_above", 60, &refusals, replayed_extremes::of_ask).longer(6),
        ]
    }

    fn of_quotes<'a>() -> Entry<'a> {
        let refused = [16, 17, 19, 20, 28, 30];
        Entry::new("quote", 110, &[&CHAIN, &refused], replayed_quotes::of_quote).longer(6)
    }

    fn of_teeth<'a>() -> Entry<'a> {
        let refused = [14, 15, 16, 17, 19, 20, 21, 22, 31];
        Entry::new(
            "choose_tooth",
            110,
            &[&CHAIN, &refused],
            replayed_calls::of_teeth,
        )
    }

    fn of_meetings<'a>() -> Entry<'a> {
        let refusals: [&[u32]; 3] = [&CHAIN, &MODEL, &[16, 17, 20]];
        Entry::new("links_meet", 100, &refusals, replayed_meetings::of_meeting).longer(6)
    }

    fn of_stricts<'a>() -> [Entry<'a>; 2] {
        let refused: [&[u32]; 2] = [&CHAIN, &[16, 17, 19, 20, 28, 30]];
        let [divide, quote] = STRICT;
        [
            Entry::new(divide, 110, &refused, replayed_stricts::of_division).longer(6),
            Entry::new(quote, 110, &refused, replayed_stricts::of_quote).longer(6),
        ]
    }

    /// One of 27, of an entry that divides or quotes.
    fn of_too_many(entry: &str) -> Option<Replayed> {
        let case = match entry {
            "quote" => replayed_quotes::of_too_many(entry, quotes::expected),
            _ if DIVIDES.contains(&entry) => replayed_calls::of_too_many(entry),
            _ if STRICT.contains(&entry) => replayed_stricts::of_too_many(entry),
            _ => return None,
        };
        let case = case.expect("a short case");
        assert_eq!(case.number, 27);
        Some(case)
    }

    /// Every job of examples/jobs stands before what is drawn, and behind it, once for each call that divides or quotes, 27.
    pub fn write(folder: &Path) {
        let sums = Sums::default();
        let jobs = replayed_jobs::examples();
        let mut all: Vec<Replayed> = Vec::new();
        for (seed, entry) in entries(&sums).iter().enumerate() {
            let mut cases = entry.sample(seed as u64);
            if entry.name == "read_job" {
                let examples = jobs.iter().filter_map(|job| replayed_jobs::of_reader(job));
                cases.splice(0..0, examples);
            }
            cases.extend(of_too_many(entry.name));
            if entry.name == "subdivide_path" {
                cases.extend(replayed_calls::of_later(
                    OF_LATER,
                    &mut Random::new(seed as u64),
                ));
            }
            tell(entry.name, &cases);
            all.append(&mut cases);
        }
        let mut cases = replayed_quotas::rows(ROWS, &mut Random::new(QUOTAS));
        tell("quotas", &cases);
        all.append(&mut cases);
        let mut cases = replayed_cells::rows(CELL_ROWS, &mut Random::new(CELLS));
        tell("cells", &cases);
        all.append(&mut cases);
        tell("all", &all);
        let stdin: Vec<u8> = all.iter().flat_map(|case| case.bytes.clone()).collect();
        let stdout: String = all.iter().map(|case| case.line.as_str()).collect();
        fs::create_dir_all(folder).expect("a folder that can be made");
        fs::write(folder.join("stdin"), stdin).expect("a folder that can be written to");
        fs::write(folder.join("stdout"), stdout).expect("a folder that can be written to");
    }

    fn tell(name: &str, cases: &[Replayed]) {
        let served = cases.iter().filter(|case| case.number == 0).count();
        let refused = cases.len() - served;
        println!("{name:16} {served:4} served, {refused:4} refused");
    }
}
