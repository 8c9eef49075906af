//! All comparisons in one, as long as there is time: a round of parts that take about as long, each of one family of entries and with
//! a generator of its own; and now and then the few cases that take longer.

use crate::cell_tally::Cells;
use crate::exact::Sums;
use crate::extremes_tally::Extremes;
use crate::insertions::Insertions;
use crate::inverse_tally::Tally as Inverses;
use crate::job_tally::JobTally;
use crate::meeting_tally::Meetings;
use crate::met::Account;
use crate::parts::Outcome;
use crate::quote_tally::Quotes;
use crate::quota_tally::Quotas;
use crate::random::Random;
use crate::strict_tally::Stricts;
use crate::tally::Tally as Chains;
use crate::tooth_tally::Teeth;
use crate::wave_tally::Waves;
use crate::ways::Ways;
use crate::write_tally::WriteTally;
use std::process::ExitCode;
use std::sync::LazyLock;
use std::time::Duration;

/// What has been compared, by family.
#[derive(Default)]
pub struct Soak {
    waves: Waves,
    chains: Chains,
    inverses: Inverses,
    paths: Ways,
    divisions: Insertions,
    quotes: Quotes,
    stricts: Stricts,
    jobs: JobTally,
    writes: WriteTally,
    extremes: Extremes,
    quotas: Quotas,
    cells: Cells,
    teeth: Teeth,
    meetings: Meetings,
}

type Part = fn(&mut Soak, &mut Random);

/// Of the parts six divide, half of the time each of the two entries, and three solve paths: their calls take longest.
const ROUND: [Part; 28] = [
    Soak::waves,
    Soak::chains,
    Soak::inverses,
    Soak::paths,
    Soak::divisions,
    Soak::jobs,
    Soak::divisions,
    Soak::chains,
    Soak::paths,
    Soak::divisions,
    Soak::waves,
    Soak::jobs,
    Soak::divisions,
    Soak::inverses,
    Soak::chains,
    Soak::divisions,
    Soak::paths,
    Soak::waves,
    Soak::divisions,
    Soak::jobs,
    Soak::writes,
    Soak::extremes,
    Soak::quotes,
    Soak::stricts,
    Soak::quotas,
    Soak::cells,
    Soak::teeth,
    Soak::meetings,
];

/// One round in so many, the second of them first, has the cases that take longer.
const ROUNDS: u64 = 32;
const LONG: [Part; 10] = [
    Soak::long_paths,
    Soak::exact_divisions,
    Soak::long_divisions,
    Soak::short_jobs,
    Soak::long_extremes,
    Soak::exact_quotes,
    Soak::exact_stricts,
    Soak::many_quotas,
    Soak::many_cells,
    Soak::long_meetings,
];

impl Outcome for Soak {
    fn add(&mut self, more: Soak) {
        self.waves.add(more.waves);
        self.chains.add(more.chains);
        self.inverses.add(more.inverses);
        self.paths.add(more.paths);
        self.divisions.add(more.divisions);
        self.quotes.add(more.quotes);
        self.stricts.add(more.stricts);
        self.jobs.add(more.jobs);
        self.writes.add(more.writes);
        self.extremes.add(more.extremes);
        self.quotas.add(more.quotas);
        self.cells.add(more.cells);
        self.teeth.add(more.teeth);
        self.meetings.add(more.meetings);
    }
}

impl Soak {
    /// The part with this index.
    pub fn compare_part(&mut self, part: u64, random: &mut Random) {
        let (round, place) = (
            part / ROUND.len() as u64,
            (part % ROUND.len() as u64) as usize,
        );
        ROUND[place](self, random);
        if round % ROUNDS == 1
            && let Some(long) = LONG.get(place)
        {
            long(self, random);
        }
    }

    fn waves(&mut self, random: &mut Random) {
        static SUMS: LazyLock<Sums> = LazyLock::new(Sums::default);
        self.waves.compare_drawn(200_000, &SUMS, random);
    }

    fn chains(&mut self, random: &mut Random) {
        self.chains.compare_drawn(35_000, 2_000, random);
    }

    fn inverses(&mut self, random: &mut Random) {
        self.inverses.compare_drawn(15_000, random);
    }

    fn paths(&mut self, random: &mut Random) {
        self.paths.compare_drawn(1_300, random);
    }

    fn divisions(&mut self, random: &mut Random) {
        self.divisions.compare_drawn(550, random);
    }

    fn jobs(&mut self, random: &mut Random) {
        self.jobs.compare_drawn(8_000, random);
        self.jobs.compare_posted(60, random);
    }

    fn writes(&mut self, random: &mut Random) {
        self.writes.compare_drawn(4_000, random);
    }

    fn extremes(&mut self, random: &mut Random) {
        self.extremes.compare_drawn(600, random);
    }

    fn quotes(&mut self, random: &mut Random) {
        self.quotes.compare_drawn(400, random);
    }

    fn stricts(&mut self, random: &mut Random) {
        self.stricts.compare_drawn(400, random);
    }

    fn quotas(&mut self, random: &mut Random) {
        self.quotas.compare_drawn(40, random);
    }

    fn cells(&mut self, random: &mut Random) {
        self.cells.compare_drawn(150, random);
    }

    fn teeth(&mut self, random: &mut Random) {
        self.teeth.compare_drawn(8_000, random);
    }

    fn meetings(&mut self, random: &mut Random) {
        self.meetings.compare_drawn(4_000, random);
    }

    fn long_paths(&mut self, random: &mut Random) {
        self.paths.compare_long(random);
    }

    fn exact_divisions(&mut self, random: &mut Random) {
        self.divisions.compare_exact(random);
    }

    fn long_divisions(&mut self, random: &mut Random) {
        self.divisions.compare_others(random);
    }

    fn short_jobs(&mut self, random: &mut Random) {
        self.jobs.compare_each_change(random);
    }

    fn exact_quotes(&mut self, random: &mut Random) {
        self.quotes.compare_exact(random);
        self.quotes.compare_others(random);
    }

    fn exact_stricts(&mut self, random: &mut Random) {
        self.stricts.compare_exact(random);
        self.stricts.compare_others(random);
    }

    fn long_extremes(&mut self, random: &mut Random) {
        self.extremes.compare_long(random);
    }

    fn many_quotas(&mut self, random: &mut Random) {
        self.quotas.compare_many(random);
    }

    fn many_cells(&mut self, random: &mut Random) {
        self.cells.compare_many(random);
    }

    fn long_meetings(&mut self, random: &mut Random) {
        self.meetings.compare_long(random);
    }

    fn families(&self) -> [&dyn Account; 14] {
        let Soak {
            waves,
            chains,
            inverses,
            paths,
            divisions,
            jobs,
            writes,
            extremes,
            quotes,
            stricts,
            quotas,
            cells,
            teeth,
            meetings,
        } = self;
        [
            waves, chains, inverses, paths, divisions, jobs, writes, extremes, quotes, stricts,
            quotas, cells, teeth, meetings,
        ]
    }

    fn calls(&self) -> Vec<(&'static str, u64)> {
        let each = self.families().map(|family| family.calls());
        each.concat()
    }

    fn differences(&self) -> u64 {
        let each = self.families().map(|family| family.noted());
        each.iter().flatten().map(|noted| noted.count()).sum()
    }

    pub fn print_total(&self) {
        let total: u64 = self.calls().iter().map(|(_, calls)| calls).sum();
        println!("{total} comparisons, {} differences", self.differences());
    }

    /// Status 1 where there is a difference. What was not met is said, and is none: a short run meets little that is rare.
    pub fn print(&self, time: Duration) -> ExitCode {
        println!("{:16} {:>12} {:>12}", "entry", "comparisons", "a second");
        for (entry, calls) in self.calls() {
            let rate = calls as f64 / time.as_secs_f64();
            println!("{entry:16} {calls:12} {rate:12.0}");
        }
        for family in self.families() {
            for what in family.unmet() {
                println!("not met: {what}");
            }
            for noted in family.noted() {
                noted.print_examples();
            }
        }
        self.print_total();
        ExitCode::from(u8::from(self.differences() > 0))
    }
}
