//! Rounds that time the two in turn.

use std::time::{Duration, Instant};

/// Something that both do, a number of times at once.
pub struct Job {
    pub name: String,
    pub ours: Box<dyn Fn()>,
    pub theirs: Box<dyn Fn()>,
}

const ROUNDS: usize = 201;
/// What a timing is to take at least, so that the clock's own steps do not count.
const TIMING: Duration = Duration::from_micros(300);

/// The ratio of the best times, and the median ratio of the rounds.
pub fn ratios(job: &Job) -> (f64, f64) {
    let times = repetitions(&job.theirs);
    let mut ours = Vec::new();
    let mut theirs = Vec::new();
    for round in 0..ROUNDS {
        if round % 2 == 0 {
            ours.push(timed(&job.ours, times));
            theirs.push(timed(&job.theirs, times));
        } else {
            theirs.push(timed(&job.theirs, times));
            ours.push(timed(&job.ours, times));
        }
    }
    let mut each: Vec<f64> = ours.iter().zip(&theirs).map(|(ours, theirs)| ours / theirs).collect();
    each.sort_by(f64::total_cmp);
    (least(&ours) / least(&theirs), each[ROUNDS / 2])
}

fn least(times: &[f64]) -> f64 {
    times.iter().copied().fold(f64::INFINITY, f64::min)
}

/// How often a job is done for one timing. Doing it so often also warms it up.
fn repetitions(job: &dyn Fn()) -> u32 {
    let mut times = 1;
    while timed(job, times) < TIMING.as_secs_f64() {
        times *= 2;
    }
    times
}

fn timed(job: &dyn Fn(), times: u32) -> f64 {
    let start = Instant::now();
    for _ in 0..times {
        job();
    }
    start.elapsed().as_secs_f64()
}
