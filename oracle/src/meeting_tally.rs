//! What comes of asking which links meet: how often each answer and each way to it was met, and the differences.

use crate::meeting_cases::{drawn, long};
use crate::meetings::{Answer, Case, Checked, SET, Search, Told, ask, checked, telling};
use crate::met::{Account, Differences, Met};
use crate::parts::Outcome;
use crate::random::Random;
use std::process::ExitCode;

const ENTRY: &str = "links_meet";

/// The numbers that the entry can answer, 0 for a call that is served.
const ANSWERED: [u32; 18] = [0, 1, 2, 3, 4, 5, 6, 7, 8, 9, 10, 11, 12, 13, 16, 17, 20, 29];

/// What must be met beside them.
const WAYS: [&str; 19] = [
    "none, without a pose",
    "none, without a link",
    "none, with one link",
    "none, with two links and more",
    "two links meet",
    "64 links, two of which meet",
    "64 links, none meet",
    "they meet at the first of several poses",
    "they meet at the last of several poses alone",
    "two pairs at that pose, with one earlier link",
    "two pairs at that pose, with other earlier links",
    "not the first two links",
    "balls that touch",
    "balls that meet by one place",
    "balls that miss by one place",
    "balls of one carrier in each other",
    "two carriers of one body meet",
    "a cylinder's axis beyond 100,000",
    "110,001 joint sets",
];

#[derive(Default)]
pub struct Meetings {
    calls: u64,
    met: Met,
    differences: Differences,
}

impl Outcome for Meetings {
    fn add(&mut self, more: Meetings) {
        self.calls += more.calls;
        self.met.add(more.met);
        self.differences.add(more.differences);
    }
}

impl Meetings {
    pub fn compare_drawn(&mut self, paths: u64, random: &mut Random) {
        for _ in 0..paths {
            let case = drawn(random);
            self.compare(&case, &ask(&case));
        }
    }

    pub fn compare_long(&mut self, random: &mut Random) {
        let case = long(random);
        self.compare(&case, &ask(&case));
        self.met.count("110,001 joint sets");
    }

    /// Holds what a call told to what it must tell.
    pub fn compare(&mut self, case: &Case, told: &Told) {
        let checked = checked(case);
        let answer: Answer = match &checked {
            Ok(checked) => {
                let search = checked.search(|gap, sum| gap < sum);
                self.count_ways(case, checked, &search);
                Ok(search.meeting)
            }
            Err(refusal) => Err(*refusal),
        };
        let must = telling(&answer);
        self.calls += 1;
        self.met.count(number(must.number));
        if *told != must {
            self.differences
                .note(|| format!("{ENTRY}: {case}\n    told {told}\n    must {must}"));
        }
    }

    fn count_ways(&mut self, case: &Case, checked: &Checked, search: &Search) {
        let (poses, links) = (checked.poses.len(), checked.links.len());
        let met = &mut self.met;
        match search.meeting {
            None if poses == 0 => met.count("none, without a pose"),
            None if links == 0 => met.count("none, without a link"),
            None if links == 1 => met.count("none, with one link"),
            None => met.count("none, with two links and more"),
            Some([pose, first, second]) => {
                met.count("two links meet");
                met.count_if("64 links, two of which meet", links == 64);
                met.count_if(
                    "they meet at the first of several poses",
                    pose == 0 && poses > 1,
                );
                let last = pose > 0 && pose + 1 == poses;
                met.count_if("they meet at the last of several poses alone", last);
                met.count_if("not the first two links", [first, second] != [0, 1]);
                let set = &case.joints[SET * pose..][..SET];
                let one_body = checked.one_body(set, [first, second]);
                met.count_if("two carriers of one body meet", one_body);
                let with_first = |pair: &&[usize; 2]| pair[0] == first;
                let pairs = search.there.len();
                let of_first = search.there.iter().filter(with_first).count();
                met.count_if(
                    "two pairs at that pose, with one earlier link",
                    of_first > 1,
                );
                let others = pairs > of_first;
                met.count_if("two pairs at that pose, with other earlier links", others);
            }
        }
        let none = search.meeting.is_none();
        met.count_if("64 links, none meet", none && links == 64 && poses > 0);
        met.count_if("balls that touch", search.touching);
        met.count_if("balls that meet by one place", search.just_nearer);
        met.count_if("balls that miss by one place", search.just_apart);
        met.count_if("balls of one carrier in each other", search.of_one_carrier);
        met.count_if("a cylinder's axis beyond 100,000", checked.long_axis());
    }

    pub fn differences(&self) -> u64 {
        self.differences.count()
    }

    /// Status 1 where there is a difference, or where something was met less often than `fewest` times.
    pub fn print(&self, fewest: u64) -> ExitCode {
        let all = all().into_iter().map(|what| {
            let long = what.starts_with("110,001");
            (what, if long { 1 } else { fewest })
        });
        let rare = self.met.print(all);
        println!("{ENTRY}: {} calls", self.calls);
        let different = self.differences.print("meetings");
        ExitCode::from(u8::from(different || rare))
    }
}

impl Account for Meetings {
    fn calls(&self) -> Vec<(&'static str, u64)> {
        vec![(ENTRY, self.calls)]
    }

    fn noted(&self) -> Vec<&Differences> {
        vec![&self.differences]
    }

    fn unmet(&self) -> Vec<String> {
        self.met.unmet(all())
    }
}

fn all() -> Vec<String> {
    let numbers = ANSWERED.iter().map(|&n| number(n));
    numbers.chain(WAYS.map(String::from)).collect()
}

fn number(number: u32) -> String {
    match number {
        0 => format!("{ENTRY}, served"),
        _ => format!("{ENTRY}, {number}"),
    }
}

#[cfg(test)]
mod tests {
    use super::*;
    use crate::calls::LENT_AT;
    use crate::meetings::{Meeting, expected, gap};

    /// How often what a faulty export would tell is noticed.
    fn noticed(fault: impl Fn(&Case, &mut Told)) -> u64 {
        let mut random = Random::new(7);
        let mut tally = Meetings::default();
        for _ in 0..4000 {
            let case = drawn(&mut random);
            let mut told = telling(&expected(&case));
            fault(&case, &mut told);
            tally.compare(&case, &told);
        }
        tally.differences()
    }

    /// What it tells where it searches in another way.
    fn with_search(search: impl Fn(&mut Checked) -> Option<Meeting>) -> u64 {
        noticed(|case, told| {
            if let Ok(mut checked) = checked(case) {
                *told = telling(&Ok(search(&mut checked)));
            }
        })
    }

    /// The same, of those that meet at the first pose.
    fn with_pick(pick: impl Fn(&[[usize; 2]]) -> Option<[usize; 2]>) -> u64 {
        with_search(|checked| {
            let search = checked.search(|gap, sum| gap < sum);
            let [pose, ..] = search.meeting?;
            let [first, second] = pick(&search.there)?;
            Some([pose, first, second])
        })
    }

    #[test]
    fn a_right_answer_is_no_difference() {
        assert_eq!(noticed(|_, _| {}), 0);
    }

    #[test]
    fn every_wrong_search_is_noticed() {
        let touching = with_search(|checked| checked.search(|gap, sum| gap <= sum).meeting);
        let from_the_end = with_search(|checked| {
            checked.poses.reverse();
            checked.search(|gap, sum| gap < sum).meeting
        });
        let unplaced = with_search(|checked| {
            let middles: Vec<_> = checked.balls.iter().map(|ball| ball.middle).collect();
            checked
                .poses
                .iter_mut()
                .for_each(|spots| spots.clone_from(&middles));
            checked.search(|gap, sum| gap < sum).meeting
        });
        let neighbours_left_out = with_pick(|there| {
            let mut there = there.iter();
            there.find(|pair| pair[0] + 1 < pair[1]).copied()
        });
        let by_the_later = with_pick(|there| there.iter().min_by_key(|pair| pair[1]).copied());
        let any_carrier = with_search(|checked| {
            for (index, link) in checked.links.iter_mut().enumerate() {
                link.carrier = vec![index as u8];
            }
            checked.search(|gap, sum| gap < sum).meeting
        });
        let all = [
            touching,
            from_the_end,
            unplaced,
            neighbours_left_out,
            by_the_later,
            any_carrier,
        ];
        assert!(all.iter().all(|&count| count > 0), "{all:?}");
    }

    #[test]
    fn every_wrong_answer_is_noticed() {
        let faults: [(&str, fn(&Case, &mut Told)); 6] = [
            ("an answer on a refusal", |_, told| {
                if told.number == 17 {
                    told.lent[0][1] = 0;
                }
            }),
            ("numbers kept where none meet", |_, told| {
                if told.number == 0 && told.lent[0][1] == 0 {
                    told.lent[1][1] = LENT_AT;
                }
            }),
            ("a place left unwritten", |_, told| {
                if told.number == 0 {
                    told.at[1] = LENT_AT;
                }
            }),
            ("sizes before finite numbers", |_, told| {
                if told.number == 16 {
                    told.number = 17;
                }
            }),
            ("no limit for solids", |_, told| {
                if told.number == 17 {
                    *told = telling(&Ok(None));
                }
            }),
            ("a write past the end", |_, told| told.lent[3][2] = 0),
        ];
        for (words, fault) in faults {
            assert!(noticed(fault) > 0, "{words}");
        }
    }

    /// The comparison's own gap has no sign: the later link may be searched from either end.
    #[test]
    fn gaps_are_symmetric() {
        let (p, q) = ([0.1, -2.0, 3e5], [7.0, 1e-9, -0.3]);
        assert_eq!(gap(p, q).to_bits(), gap(q, p).to_bits());
    }
}
