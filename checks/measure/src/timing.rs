//! Times of calls, taken in rounds that go through all rows, so that a busy
//! moment of the machine falls on all of them alike.

use std::time::Instant;

const ROUNDS: usize = 200;

/// A call to be timed: what is done, and by whose code.
pub struct Row<'a> {
    pub task: &'static str,
    pub code: &'static str,
    pub call: Box<dyn FnMut() + 'a>,
}

/// Nanoseconds a call, over the rounds.
#[derive(Clone, Copy)]
pub struct Timing {
    pub best: f64,
    pub median: f64,
}

impl Timing {
    pub fn less(self, other: Timing) -> Timing {
        Timing { best: self.best - other.best, median: self.median - other.median }
    }

    pub fn over(self, parts: usize) -> Timing {
        Timing { best: self.best / parts as f64, median: self.median / parts as f64 }
    }
}

pub fn row<'a>(task: &'static str, code: &'static str, call: impl FnMut() + 'a) -> Row<'a> {
    Row { task, code, call: Box::new(call) }
}

/// Makes so many calls of a row, and nothing else; whether there is such a row.
pub fn repeat_row(rows: &mut [Row], task: &str, code: &str, calls: u32) -> bool {
    let Some(row) = rows.iter_mut().find(|row| row.task == task && row.code == code) else { return false };
    (0..calls).for_each(|_| (row.call)());
    true
}

/// The tasks that a code has a row for.
pub fn tasks_of(rows: &[Row], code: &str) -> Vec<&'static str> {
    rows.iter().filter(|row| row.code == code).map(|row| row.task).collect()
}

/// `calls` are the calls of a row in a round.
pub fn time_all(rows: &mut [Row], calls: u32) -> Vec<Timing> {
    let mut rounds = vec![Vec::with_capacity(ROUNDS); rows.len()];
    for _ in 0..ROUNDS {
        for (row, times) in rows.iter_mut().zip(&mut rounds) {
            times.push(time_round(&mut row.call, calls));
        }
    }
    rounds.into_iter().map(summary).collect()
}

fn time_round(call: &mut dyn FnMut(), calls: u32) -> f64 {
    let start = Instant::now();
    for _ in 0..calls {
        call();
    }
    start.elapsed().as_nanos() as f64 / calls as f64
}

fn summary(mut times: Vec<f64>) -> Timing {
    times.sort_by(f64::total_cmp);
    Timing { best: times[0], median: times[times.len() / 2] }
}
