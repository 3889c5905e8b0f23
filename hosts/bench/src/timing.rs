//! Sizes, repetitions, times, growth.

use std::time::Instant;

/// How much is measured.
pub struct Plan {
    check: bool,
}

impl Plan {
    pub fn new(check: bool) -> Plan {
        Plan { check }
    }

    /// The size to measure, or the tiny one to check.
    pub fn size(&self, full: usize, tiny: usize) -> usize {
        if self.check {
            tiny
        } else {
            full
        }
    }

    fn repetitions(&self) -> usize {
        self.size(31, 1)
    }

    /// Prints a line of the report.
    pub fn say(&self, line: &str) {
        if !self.check {
            println!("{line}");
        }
    }

    pub fn method(&self) -> String {
        format!(
            "Each time is the best of {}, with the median in brackets. The sides of a ratio take turns of\n\
             some milliseconds in one process, on the same input; a ratio is that of the bests, with the\n\
             median of the turns' ratios in brackets. All sides are checked to end alike.",
            self.repetitions()
        )
    }

    /// The times of each side, which take turns. A side gives its own time.
    pub fn measure(&self, sides: &mut [Side]) -> Vec<Times> {
        let mut times = vec![Vec::new(); sides.len()];
        for turn in 0..self.repetitions() {
            for place in 0..sides.len() {
                let side = (turn + place) % sides.len();
                times[side].push(sides[side]());
            }
        }
        times.into_iter().map(Times).collect()
    }
}

/// Work that is timed: it gives the nanoseconds that it took.
pub type Side<'a> = Box<dyn FnMut() -> f64 + 'a>;

/// The nanoseconds that the work takes.
pub fn nanoseconds(work: impl FnOnce()) -> f64 {
    let start = Instant::now();
    work();
    start.elapsed().as_nanos() as f64
}

/// The nanoseconds of each of so many calls.
pub fn each_of(calls: usize, mut call: impl FnMut()) -> f64 {
    nanoseconds(|| (0..calls).for_each(|_| call())) / calls as f64
}

/// The times of one side in nanoseconds, turn by turn.
pub struct Times(Vec<f64>);

impl Times {
    pub fn best(&self) -> f64 {
        self.0.iter().copied().fold(f64::INFINITY, f64::min)
    }

    /// Best and median for one of so many parts of the work.
    pub fn per(&self, parts: usize) -> String {
        let each = |time: f64| number(time / parts as f64);
        format!("{} ({})", each(self.best()), each(median(self.0.clone())))
    }

    /// The ratios to the other side's times: of the bests, and the median of the turns.
    pub fn ratios(&self, other: &Times) -> [f64; 2] {
        let turns = self.0.iter().zip(&other.0).map(|(own, other)| own / other);
        [self.best() / other.best(), median(turns.collect())]
    }

    /// Both ratios in print.
    pub fn ratio(&self, other: &Times) -> String {
        let [best, median] = self.ratios(other);
        format!("{best:.2} ({median:.2})")
    }
}

/// Of each side the times in the place where it is fastest. All sides of a place stand together.
pub fn fastest(times: &[Times], places: usize) -> Vec<&Times> {
    let sides = times.len() / places;
    let by_best = |one: &&Times, two: &&Times| one.best().total_cmp(&two.best());
    (0..sides)
        .filter_map(|side| times.iter().skip(side).step_by(sides).min_by(by_best))
        .collect()
}

fn median(mut values: Vec<f64>) -> f64 {
    values.sort_by(f64::total_cmp);
    values[values.len() / 2]
}

/// A number with about three digits.
pub fn number(value: f64) -> String {
    match value {
        v if v < 10.0 => format!("{v:.2}"),
        v if v < 100.0 => format!("{v:.1}"),
        v => format!("{v:.0}"),
    }
}

/// The exponent of growth: the least-squares slope of log y against log x.
pub fn exponent(points: &[(f64, f64)]) -> f64 {
    let logs: Vec<(f64, f64)> = points.iter().map(|(x, y)| (x.ln(), y.ln())).collect();
    let count = logs.len() as f64;
    let mean_x = logs.iter().map(|(x, _)| x).sum::<f64>() / count;
    let mean_y = logs.iter().map(|(_, y)| y).sum::<f64>() / count;
    let above: f64 = logs.iter().map(|(x, y)| (x - mean_x) * (y - mean_y)).sum();
    let below: f64 = logs.iter().map(|(x, _)| (x - mean_x).powi(2)).sum();
    above / below
}
