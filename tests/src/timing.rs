//! Times of several ways to do the same thing, taken turn about in the same rounds so that all meet the same machine.
#![forbid(unsafe_code)]

use std::hint::black_box;
use std::time::{Duration, Instant};

/// A sample of one way lasts at least so long.
const SAMPLE: Duration = Duration::from_millis(2);

/// The times of one way, a round each, in nanoseconds of a call.
#[derive(Clone, Debug, PartialEq)]
pub struct Times(Vec<f64>);

impl Times {
    pub fn median(&self) -> f64 {
        median(self.0.clone())
    }

    /// Round by round, what these times are above others of the same rounds.
    pub fn above(&self, others: &Times) -> Times {
        Times(self.0.iter().zip(&others.0).map(|(time, other)| (time - other).max(0.0)).collect())
    }

    /// Round by round, the share of one of so many parts.
    pub fn divided_by(&self, parts: usize) -> Times {
        Times(self.0.iter().map(|time| time / parts as f64).collect())
    }

    /// The median of the rounds' ratios, so that a machine that changes its speed between rounds changes it little.
    pub fn ratio_to(&self, others: &Times) -> f64 {
        median(self.0.iter().zip(&others.0).map(|(time, other)| time / other).collect())
    }
}

/// The one in the middle, the higher of two.
pub fn median(mut numbers: Vec<f64>) -> f64 {
    numbers.sort_by(f64::total_cmp);
    numbers[numbers.len() / 2]
}

/// One way to do a thing once.
pub type Way<'a> = &'a mut dyn FnMut();

/// The times of each way over so many rounds; each round begins with another of them.
pub fn turn_about(rounds: usize, ways: &mut [Way]) -> Vec<Times> {
    turn_about_behind(rounds, ways, |_| ())
}

/// The same where each way is gone once, untimed, before each of its samples, so that it meets the caches as it leaves
/// them itself and not as the way before it does.
pub fn turn_about_again(rounds: usize, ways: &mut [Way]) -> Vec<Times> {
    turn_about_behind(rounds, ways, |way| way())
}

fn turn_about_behind(rounds: usize, ways: &mut [Way], before: fn(Way)) -> Vec<Times> {
    let calls = calls_of_a_sample(ways[0]);
    let mut times = vec![Times(Vec::new()); ways.len()];
    for turn in 0..rounds * ways.len() {
        let (round, place) = (turn / ways.len(), turn % ways.len());
        let way = (round + place) % ways.len();
        before(ways[way]);
        times[way].0.push(time_of(ways[way], calls).as_nanos() as f64 / f64::from(calls));
    }
    times
}

// As many as the first way makes in a sample's time.
fn calls_of_a_sample(way: Way) -> u32 {
    let mut calls = 1;
    while time_of(way, calls) < SAMPLE {
        calls *= 2;
    }
    calls
}

fn time_of(way: Way, calls: u32) -> Duration {
    let begin = Instant::now();
    for _ in 0..calls {
        black_box(&mut *way)();
    }
    begin.elapsed()
}

#[cfg(test)]
mod tests {
    use super::*;

    #[test]
    fn ratios_are_of_the_same_round() {
        let (slow, fast) = (Times(vec![10.0, 1000.0, 20.0]), Times(vec![5.0, 500.0, 20.0]));
        assert_eq!((slow.median(), fast.median(), slow.ratio_to(&fast)), (20.0, 20.0, 2.0));
        assert_eq!(slow.above(&fast), Times(vec![5.0, 500.0, 0.0]));
        assert_eq!(slow.divided_by(10), Times(vec![1.0, 100.0, 2.0]));
    }

    #[test]
    fn every_way_is_timed_in_every_round() {
        // The first way is called once more, to see how many calls a sample takes.
        assert_eq!(calls_of_two_ways(turn_about), [4, 3]);
        assert_eq!(calls_of_two_ways(turn_about_again), [7, 6]);
    }

    // How often each of two ways is gone in three rounds, the first being as long as a sample.
    fn calls_of_two_ways(turn_about: fn(usize, &mut [Way]) -> Vec<Times>) -> [u64; 2] {
        let (mut ones, mut twos) = (0, 0);
        let mut long = || {
            ones += 1;
            let begin = Instant::now();
            while begin.elapsed() < SAMPLE {}
        };
        let times = turn_about(3, &mut [&mut long, &mut || twos += 1]);
        assert_eq!(times.iter().map(|times| times.0.len()).collect::<Vec<_>>(), [3, 3]);
        assert!(times[0].median() >= 2e6 && times[1].median() < 2e6);
        [ones, twos]
    }
}
