//! A bend with a waist: a horizontal mill whose table B turns the part under the tool. Between two of its four poses
//! the tip crosses the chord in the middle and is off at both quarters, so the old division inserts nothing there, and
//! the strict one does.
//!
//!     cargo run --example waist                                   prints the gaps and what each division inserts
//!     cargo run --example waist -- --svg > ../../docs/waist.svg   draws it

use maztubel::*;

const TOLERANCES: Tolerances = Tolerances {
    chord: 0.5,
    axis: 0.5,
};

/// The table turns by so many degrees while the tip goes on by so many mm: the pair with the waist.
const TURN: f64 = 170.0;
const WAY: f64 = 60.0;

/// Before and behind it the table turns on alone.
const ALONE: f64 = 25.0;

const PARTS: [f64; 3] = [0.25, 0.5, 0.75];

/// Of 1 mm in the left panel.
const SCALE: f64 = 4.0;

/// Steps in which a way between two neighbours is looked at.
const STEPS: usize = 240;

const OLD: &str = "#c40";
const STRICT: &str = "#27a";

fn main() -> Result<(), Refusal> {
    match std::env::args().any(|word| word == "--svg") {
        true => print!("{}", picture()?),
        false => Bend::new()?.print()?,
    }
    Ok(())
}

pub fn picture() -> Result<String, Refusal> {
    Bend::new()?.picture()
}

fn chain() -> Chain {
    Chain {
        rotaries: vec![Rotary {
            letter: b'B',
            carrier: Carrier::Table,
            axis: [0.0, 1.0, 0.0],
            pivot: [0.0; 3],
            limits: None,
            rest: 0.0,
        }],
        spindle: [0.0, 0.0, 1.0],
    }
}

/// The given poses with their joints, and what the two divisions make of them.
struct Bend {
    chain: Chain,
    given: Path,
    old: Divided,
    strict: Divided,
}

struct Path {
    poses: Vec<Pose>,
    joints: Vec<Joints>,
}

impl Bend {
    fn new() -> Result<Self, Refusal> {
        let chain = chain();
        // Here the tip is back on the chord in the middle.
        let aside = 0.5 * WAY / (TURN / 4.0).to_radians().tan();
        let half = [0.5 * WAY, 0.5 * TURN];
        let wanted = [(-1.0, ALONE), (-1.0, 0.0), (1.0, 0.0), (1.0, ALONE)];
        let wanted = wanted.map(|(side, more)| Joints {
            position: [side * half[0], 0.0, aside],
            angles: [side * (half[1] + more), 0.0],
        });
        let poses = wanted.iter().map(|joints| forward(&chain, joints, 0.0));
        let poses = poses.collect::<Result<Vec<Pose>, Refusal>>()?;
        let joints = solve_path(&chain, &poses, Start::AtZero, 1.0)?;
        Ok(Bend {
            old: subdivide_path(&chain, &poses, &joints, TOLERANCES)?,
            strict: subdivide_strict(&chain, &poses, &joints, TOLERANCES)?,
            given: Path { poses, joints },
            chain,
        })
    }

    /// Where the joints have the tip at a part of the way between two neighbours, and how far that is from the chord.
    fn at(
        &self,
        path: (&[Pose], &[Joints]),
        i: usize,
        part: f64,
    ) -> Result<([f64; 3], f64), Refusal> {
        let (poses, joints) = path;
        let lerp = |from: f64, to: f64| from + (to - from) * part;
        let [from, to] = [joints[i], joints[i + 1]];
        let between = Joints {
            position: [0, 1, 2].map(|k| lerp(from.position[k], to.position[k])),
            angles: [0, 1].map(|k| lerp(from.angles[k], to.angles[k])),
        };
        let tip = forward(&self.chain, &between, 0.0)?.tip;
        let chord = [0, 1, 2].map(|k| lerp(poses[i].tip[k], poses[i + 1].tip[k]));
        let square: f64 = (0..3).map(|k| (tip[k] - chord[k]).powi(2)).sum();
        Ok((tip, square.sqrt()))
    }

    /// The largest gap of the tip anywhere on a path, as far as the steps show.
    fn largest(&self, path: (&[Pose], &[Joints])) -> Result<f64, Refusal> {
        let mut largest = 0.0f64;
        for i in 0..path.0.len() - 1 {
            for step in 0..=STEPS {
                let part = step as f64 / STEPS as f64;
                largest = largest.max(self.at(path, i, part)?.1);
            }
        }
        Ok(largest)
    }

    fn given(&self) -> (&[Pose], &[Joints]) {
        (&self.given.poses, &self.given.joints)
    }

    fn print(&self) -> Result<(), Refusal> {
        let Tolerances { chord, axis } = TOLERANCES;
        println!("tolerances {chord} mm and {axis} degrees");
        println!("pair   1/4 mm   1/2 mm   3/4 mm   old   strict");
        for i in 0..self.given.poses.len() - 1 {
            let mut gaps = [0.0; 3];
            for (gap, part) in gaps.iter_mut().zip(PARTS) {
                *gap = self.at(self.given(), i, part)?.1;
            }
            let [quarter, half, three] = gaps;
            let [old, strict] = [&self.old, &self.strict].map(|path| between(path, i));
            println!(
                "{i} {}  {quarter:7.3}  {half:7.3}  {three:7.3}  {old:4}  {strict:7}",
                i + 1
            );
        }
        let (poses, joints) = self.given();
        let quotes = [quote, quote_strict];
        for (words, path, quote) in [
            ("old", &self.old, quotes[0]),
            ("strict", &self.strict, quotes[1]),
        ] {
            let quotation = quote(&self.chain, poses, joints, TOLERANCES)?;
            let gap = self.largest((&path.poses, &path.joints))?;
            println!(
                "{words}: {} inserted, {} poses, {} evaluations; the tip is off by at most {gap:.3} mm",
                quotation.inserted, quotation.poses, quotation.evaluations,
            );
        }
        Ok(())
    }

    fn picture(&self) -> Result<String, Refusal> {
        let title = format!(
            "A bend with a waist, chord {} mm: the old division inserts {}, the strict one {}",
            TOLERANCES.chord, self.old.inserted, self.strict.inserted
        );
        Ok(format!(
            "<svg xmlns=\"http://www.w3.org/2000/svg\" viewBox=\"0 0 860 400\" font-family=\"sans-serif\" font-size=\"13\">\n\
             <rect width=\"860\" height=\"400\" rx=\"6\" fill=\"#fff\"/>\n{}{}{}</svg>\n",
            text([40.0, 30.0], "start", &title),
            self.seen_from_above()?,
            self.gaps_on_the_way()?
        ))
    }

    /// The tip's way in the part, and both divided paths as chords.
    fn seen_from_above(&self) -> Result<String, Refusal> {
        let mut way = Vec::new();
        for i in 0..self.given.poses.len() - 1 {
            for step in 0..=STEPS {
                let part = step as f64 / STEPS as f64;
                way.push(seen(self.at(self.given(), i, part)?.0));
            }
        }
        let mut svg = line(&way, "#9ab", 5.0) + &self.ties()?;
        for (path, colour, radius) in [(&self.strict, STRICT, 4.0), (&self.old, OLD, 2.5)] {
            let points: Vec<[f64; 2]> = path.poses.iter().map(|pose| seen(pose.tip)).collect();
            svg += &line(&points, colour, 1.2);
            let inserted = (0..points.len()).filter(|&i| path.is_inserted(i));
            svg += &inserted
                .map(|i| dot(points[i], radius, colour))
                .collect::<String>();
        }
        let given = self
            .given
            .poses
            .iter()
            .map(|pose| dot(seen(pose.tip), 5.0, "#234"));
        svg += &given.collect::<String>();
        let words = [
            "from above, in the part: the tip's way (wide), the chords of the old division (red)",
            "and of the strict one (blue); at eighths of the waist, chord and tip are joined",
        ];
        let [first, second] = words;
        Ok(svg + &text([40.0, 374.0], "start", first) + &text([40.0, 391.0], "start", second))
    }

    /// In the waist, at eighths of the way: from where the chord of the given poses has the tip to where the joints
    /// have it.
    fn ties(&self) -> Result<String, Refusal> {
        let [from, to] = [1, 2].map(|i| self.given.poses[i].tip);
        let mut svg = String::new();
        for part in (1..8).map(|eighth| eighth as f64 / 8.0) {
            let chord = [0, 1, 2].map(|k| from[k] + (to[k] - from[k]) * part);
            let (tip, _) = self.at(self.given(), 1, part)?;
            svg += &line(&[seen(chord), seen(tip)], OLD, 1.0);
            svg += &dot(seen(tip), 2.0, "#678");
        }
        Ok(svg)
    }

    /// Between the two poses of the waist: how far the tip is from the chord of the old path, and from those of the
    /// strict one.
    fn gaps_on_the_way(&self) -> Result<String, Refusal> {
        let [left, right, floor, high] = [500.0, 830.0, 340.0, 5.0];
        let height = |gap: f64| floor - (floor - 80.0) * gap / high;
        let mut svg = String::new();
        for (gap, words) in [(0.0, "0"), (TOLERANCES.chord, "0.5"), (4.0, "4")] {
            svg += &line(&[[left, height(gap)], [right, height(gap)]], "#dde", 1.0);
            svg += &text([left - 8.0, height(gap) + 4.0], "end", words);
        }
        for (part, words) in PARTS.into_iter().zip(["1/4", "1/2", "3/4"]) {
            let x = left + (right - left) * part;
            svg += &line(&[[x, floor], [x, 80.0]], "#eef", 1.0);
            svg += &text([x, floor + 18.0], "middle", words);
        }
        for (path, colour) in [(&self.old, OLD), (&self.strict, STRICT)] {
            let [first, last] = [path.given[1], path.given[2]];
            let mut points = Vec::new();
            for i in first..last {
                for step in 0..=STEPS / (last - first) {
                    let part = (step * (last - first)) as f64 / STEPS as f64;
                    let (_, gap) = self.at((&path.poses, &path.joints), i, part)?;
                    let place = ((i - first) as f64 + part) / (last - first) as f64;
                    points.push([left + (right - left) * place, height(gap)]);
                }
            }
            svg += &line(&points, colour, 1.8);
        }
        let words = "mm from the chord, along the waist";
        Ok(svg + &text([left, 66.0], "start", words))
    }
}

/// How many poses a divided path has between the given poses i and i + 1.
fn between(path: &Divided, i: usize) -> usize {
    path.given[i + 1] - path.given[i] - 1
}

/// From above: x to the right, z up.
fn seen([x, _, z]: [f64; 3]) -> [f64; 2] {
    [235.0 + SCALE * x, 330.0 - SCALE * z]
}

fn line(points: &[[f64; 2]], stroke: &str, width: f64) -> String {
    let points = points.iter().map(|[x, y]| format!("{x:.1},{y:.1}"));
    let points = points.collect::<Vec<_>>().join(" ");
    format!(
        "<polyline points=\"{points}\" fill=\"none\" stroke=\"{stroke}\" stroke-width=\"{width}\"/>\n"
    )
}

fn dot([x, y]: [f64; 2], radius: f64, fill: &str) -> String {
    format!("<circle cx=\"{x:.1}\" cy=\"{y:.1}\" r=\"{radius}\" fill=\"{fill}\"/>\n")
}

fn text([x, y]: [f64; 2], anchor: &str, words: &str) -> String {
    format!(
        "<text x=\"{x:.1}\" y=\"{y:.1}\" text-anchor=\"{anchor}\" fill=\"#234\">{words}</text>\n"
    )
}
