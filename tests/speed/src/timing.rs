//! One operation of the archive beside the same in plain Rust: passes over the same inputs, in turns.

use crate::stages::Stage;
use std::fmt::Debug;
use std::hint::black_box;
use std::time::Duration;

/// What is given, and what is lent.
pub type Operation<T> = fn(&[u8], &mut [T]) -> u32;

pub struct Pair<T: 'static> {
    /// the C function
    pub function: &'static str,
    pub proved: Operation<T>,
    pub plain: Operation<T>,
    /// how much is lent
    pub lent: usize,
}

/// The time that this thread has had a processor, so that other programs on the machine count little.
fn processor_time() -> Duration {
    #[repr(C)]
    struct Timespec {
        seconds: i64,
        nanoseconds: i64,
    }
    extern "C" {
        fn clock_gettime(clock: i32, time: *mut Timespec) -> i32;
    }
    const THREAD_CPUTIME: i32 = 3;
    let mut time = Timespec { seconds: 0, nanoseconds: 0 };
    // SAFETY: time is a live struct timespec of 64-bit Linux.
    assert_eq!(unsafe { clock_gettime(THREAD_CPUTIME, &mut time) }, 0);
    Duration::new(time.seconds as u64, time.nanoseconds as u32)
}

/// Least, median and greatest, and the half of the values that lies in the middle.
struct Spread {
    least: f64,
    median: f64,
    most: f64,
    middle: f64,
}

fn spread(values: impl Iterator<Item = f64>) -> Spread {
    let mut values: Vec<f64> = values.collect();
    values.sort_by(f64::total_cmp);
    let n = values.len();
    Spread { least: values[0], median: values[n / 2], most: values[n - 1], middle: values[3 * n / 4] - values[n / 4] }
}

fn ratio(times: &[(f64, f64)]) -> Spread {
    spread(times.iter().map(|t| t.0 / t.1))
}

/// Whether the median of the ratios would hardly move with more rounds: by about half a percent. It goes by the width of the
/// middle half over the root of the number of rounds.
fn settled(times: &[(f64, f64)]) -> bool {
    let ratio = ratio(times);
    ratio.middle <= 0.005 * ratio.median * (times.len() as f64).sqrt()
}

/// No more than so many times the rounds that were asked for.
const MOST_TURNS: usize = 10;

/// As many digits as tell something.
fn shown(ns: f64) -> String {
    if ns < 100.0 {
        format!("{ns:.1}")
    } else {
        format!("{ns:.0}")
    }
}

/// The head of the table that `whole` prints rows of.
pub fn head() {
    println!("times are ns of one input's units, least and median of the rounds; a ratio is the median of the rounds' own ratios, from least to greatest");
    println!("| function | input | proved, least | median | plain Rust, least | median | proved / plain Rust |");
    println!("|---|---|---:|---:|---:|---:|---:|");
}

/// Inputs of each stage, few enough that all stages can take turns in a round.
const STAGE_INPUTS: usize = 1000;

impl<T: Clone + Default + PartialEq + Debug> Pair<T> {
    /// Nanoseconds an input of one pass over all of them.
    fn pass(&self, of: Operation<T>, inputs: &[Vec<u8>]) -> f64 {
        let mut lent = vec![T::default(); self.lent];
        let start = processor_time();
        for input in inputs {
            black_box(of(black_box(input), black_box(&mut lent)));
        }
        (processor_time() - start).as_nanos() as f64 / inputs.len() as f64
    }

    /// One pass of each a round, the proved library first in every other round, after one round that is not counted.
    fn rounds(&self, count: usize, inputs: &[Vec<u8>]) -> Vec<(f64, f64)> {
        let round = |i: usize| {
            if i % 2 == 0 {
                let first = self.pass(self.proved, inputs);
                (first, self.pass(self.plain, inputs))
            } else {
                let first = self.pass(self.plain, inputs);
                (self.pass(self.proved, inputs), first)
            }
        };
        (0..=count).map(round).skip(1).collect()
    }

    /// Both must give the same answer to every input and leave the same in what is lent; this answer, where one is known.
    pub fn agree(&self, inputs: &[Vec<u8>], answer: Option<u32>) {
        for input in inputs {
            let (mut ours, mut theirs) = (vec![T::default(); self.lent], vec![T::default(); self.lent]);
            let answers = ((self.proved)(input, &mut ours), (self.plain)(input, &mut theirs));
            assert_eq!(answers.0, answers.1);
            assert_eq!(answers.0, answer.unwrap_or(answers.0));
            assert_eq!(ours, theirs);
        }
    }

    /// A row of the table: the time of a unit, of which each input has so many.
    pub fn whole(&self, count: usize, input: &str, units: usize, inputs: &[Vec<u8>], answer: Option<u32>) {
        self.agree(inputs, answer);
        self.row(input, units, &self.rounds(count, inputs));
    }

    /// The same with more rounds where the ratios are spread so wide that they are needed.
    pub fn settled(&self, count: usize, input: &str, units: usize, inputs: &[Vec<u8>], answer: Option<u32>) {
        self.agree(inputs, answer);
        let mut times = self.rounds(count, inputs);
        while !settled(&times) && times.len() < MOST_TURNS * count {
            times.extend(self.rounds(count, inputs));
        }
        self.row(input, units, &times);
    }

    fn row(&self, input: &str, units: usize, times: &[(f64, f64)]) {
        let (proved, plain) = (spread(times.iter().map(|t| t.0)), spread(times.iter().map(|t| t.1)));
        let ratio = ratio(times);
        let [a, b, c, d] = [proved.least, proved.median, plain.least, plain.median].map(|ns| shown(ns / units as f64));
        let ratio = format!("{:.2} ({:.2} to {:.2})", ratio.median, ratio.least, ratio.most);
        println!("| `{}` | {input} | {a} | {b} | {c} | {d} | {ratio} |", self.function);
    }

    /// The least pass of each over inputs that are refused at each stage.
    fn least_of(&self, count: usize, inputs: &[Vec<u8>], stages: &[Stage]) -> Vec<(f64, f64)> {
        let spoil = |stage: &Stage| {
            let mut spoilt = inputs.to_vec();
            spoilt.iter_mut().for_each(stage.spoil);
            self.agree(&spoilt, Some(stage.answer));
            spoilt
        };
        let spoilt: Vec<Vec<Vec<u8>>> = stages.iter().map(spoil).collect();
        let mut least = vec![(f64::INFINITY, f64::INFINITY); stages.len()];
        for _ in 0..count {
            for (least, spoilt) in least.iter_mut().zip(&spoilt) {
                least.0 = self.pass(self.proved, spoilt).min(least.0);
                least.1 = self.pass(self.plain, spoilt).min(least.1);
            }
        }
        least
    }

    /// What each stage costs more than the stage before it.
    pub fn split(&self, count: usize, input: &str, inputs: &[Vec<u8>], stages: &[Stage]) {
        let inputs = &inputs[..inputs.len().min(STAGE_INPUTS)];
        let least = self.least_of(count, inputs, stages);
        println!("the parts of a {input}, by {} that are refused behind each: ns, least", inputs.len());
        println!("| part | proved | plain Rust |");
        println!("|---|---:|---:|");
        let mut before = (0.0, 0.0);
        for (stage, now) in stages.iter().zip(least) {
            println!("| {} | {:.0} | {:.0} |", stage.part, now.0 - before.0, now.1 - before.1);
            before = now;
        }
        println!("| all | {:.0} | {:.0} |", before.0, before.1);
    }

    /// One call of each on an input that is refused behind a part.
    pub fn once(&self, mut input: Vec<u8>, stage: &Stage) {
        (stage.spoil)(&mut input);
        self.agree(&[input], Some(stage.answer));
    }
}
