//! Times of one process: trials of the Rust and of ours in turn, in CPU time of the thread.
use crate::ours::Ours;
use std::hint::black_box;

const THREAD_CPU_TIME: i32 = 3;
#[repr(C)]
struct Time {
    seconds: i64,
    nanoseconds: i64,
}
extern "C" {
    fn clock_gettime(clock: i32, time: *mut Time) -> i32;
}
fn now() -> f64 {
    let mut time = Time { seconds: 0, nanoseconds: 0 };
    assert_eq!(unsafe { clock_gettime(THREAD_CPU_TIME, &mut time) }, 0);
    time.seconds as f64 * 1e9 + time.nanoseconds as f64
}

/// A call as a function of the rounds, which sums up the sizes of its answers.
pub type Rounds<'a> = dyn FnMut(u64) -> u64 + 'a;

/// Repeats a call; each is handed its number.
pub fn rounds<'a>(mut call: impl FnMut(usize) -> usize + 'a) -> impl FnMut(u64) -> u64 + 'a {
    move |count| (0..count as usize).map(|i| call(i) as u64).sum()
}

fn nanoseconds(call: &mut Rounds, rounds: u64) -> f64 {
    let start = now();
    black_box(call(black_box(rounds)));
    now() - start
}

/// A time taken deeper in the stack, by some 336 bytes a step: how records lie to pages and cache lines changes the time of the same code.
#[inline(never)]
fn deeper(depth: usize, time: &mut dyn FnMut() -> f64) -> f64 {
    let room = black_box([0u8; 288]);
    let taken = if depth == 0 { time() } else { deeper(depth - 1, time) };
    black_box(&room);
    taken
}

/// A side of a line: how many rounds take a millisecond, what none take, and the least of the trials so far.
struct Side<'a> {
    call: &'a mut Rounds<'a>,
    rounds: u64,
    none: f64,
    least: f64,
}
impl<'a> Side<'a> {
    fn new(call: &'a mut Rounds<'a>) -> Self {
        let none = (0..7).map(|_| nanoseconds(call, 0)).fold(f64::MAX, f64::min);
        let mut rounds = 64;
        while nanoseconds(call, rounds) - none < 1e6 {
            rounds *= 2;
        }
        Side { call, rounds, none, least: f64::MAX }
    }
    fn trial(&mut self, depth: usize) {
        let time = deeper(depth, &mut || nanoseconds(self.call, self.rounds)) - self.none;
        self.least = self.least.min(time / self.rounds as f64);
    }
}

/// Which lines are timed, and how often.
pub struct Lines {
    pub filter: String,
    pub trials: usize,
}
impl Lines {
    /// One line: group, name, x (what grows), nanoseconds a call of the Rust, of ours. The sums of both sides must agree: ours makes its
    /// first call once more, before the rounds.
    pub fn line(&self, group: &str, name: &str, x: usize, rust: &mut Rounds, ours: &Ours) {
        if self.passes(group, name, x) {
            assert_eq!(rust(1) + rust(192), ours.call(192), "{group}, {name}, {x}: the answers differ in size");
            let mut call = |rounds| ours.call(rounds);
            let (mut rust, mut ours) = (Side::new(rust), Side::new(&mut call));
            for depth in 0..self.trials {
                rust.trial(depth);
                ours.trial(depth);
            }
            println!("{group},{name},{x},{:.1},{:.1}", rust.least, ours.least);
        }
    }
    /// A line of what the Rust does not have.
    pub fn ours_alone(&self, group: &str, name: &str, x: usize, ours: &Ours) {
        if self.passes(group, name, x) {
            let mut call = |rounds| ours.call(rounds);
            let mut ours = Side::new(&mut call);
            (0..self.trials).for_each(|depth| ours.trial(depth));
            println!("{group},{name},{x},,{:.1}", ours.least);
        }
    }
    fn passes(&self, group: &str, name: &str, x: usize) -> bool {
        format!("{group},{name},{x}").contains(&self.filter)
    }
}
