//! How a job is held right, timed and told.

use std::hint::black_box;
use std::time::Duration;

/// The rounds of a job: as many as take this long, between these bounds.
const LONG: Duration = Duration::from_secs(3);
const LEAST: usize = 15;
const MOST: usize = 101;

pub fn head() {
    println!(
        "{LEAST} to {MOST} rounds of each job, on a million letters or views of them; ratio is ours / original, the median"
    );
    println!(
        "{:<38} {:>6} {:>6} {:>6} {:>10} {:>12} {:>6}",
        "job", "ratio", "least", "most", "ours", "original", "rounds"
    );
}

/// The processor's time for this thread, so that other work on the machine counts little.
fn now() -> Duration {
    #[repr(C)]
    struct Time {
        seconds: i64,
        nanos: i64,
    }
    unsafe extern "C" {
        fn clock_gettime(clock: i32, to: &mut Time) -> i32;
    }
    const THREAD: i32 = 3;
    let mut time = Time {
        seconds: 0,
        nanos: 0,
    };
    // SAFETY: it fills the pair of numbers, which Linux has so on 64 bits.
    let failed = unsafe { clock_gettime(THREAD, &mut time) };
    assert_eq!(failed, 0);
    Duration::new(time.seconds as u64, time.nanos as u32)
}

fn timed<S, T>(job: &mut impl FnMut(&mut S) -> T, state: &mut S) -> f64 {
    let began = now();
    black_box(job(black_box(state)));
    (now() - began).as_secs_f64()
}

fn rounds(mut round: impl FnMut(usize)) -> usize {
    let began = now();
    let mut made = 0;
    while made < LEAST || made < MOST && now() - began < LONG {
        round(made);
        made += 1;
    }
    made
}

/// The least, the median and the largest.
fn spread(mut numbers: Vec<f64>) -> [f64; 3] {
    numbers.sort_by(f64::total_cmp);
    let last = numbers.len() - 1;
    [numbers[0], numbers[last / 2], numbers[last]]
}

fn millis(times: Vec<f64>) -> String {
    format!("{:.3} ms", spread(times)[1] * 1e3)
}

/// One job, both ways, turn by turn; whichever began a round is second in the next. What both write is in the state; `same` looks at it
/// and at both answers, before the rounds and after them.
pub fn job<S, A, B>(
    name: &str,
    mut state: S,
    mut ours: impl FnMut(&mut S) -> A,
    mut original: impl FnMut(&mut S) -> B,
    same: impl Fn(&S, A, B) -> bool,
) {
    let hold = |state: &mut S,
                ours: &mut dyn FnMut(&mut S) -> A,
                original: &mut dyn FnMut(&mut S) -> B| {
        let (a, b) = (ours(state), original(state));
        assert!(same(state, a, b), "{name}: the two results differ");
    };
    hold(&mut state, &mut ours, &mut original);
    let (mut first, mut second) = (vec![], vec![]);
    let made = rounds(|round| {
        if round % 2 == 0 {
            first.push(timed(&mut ours, &mut state));
            second.push(timed(&mut original, &mut state));
        } else {
            second.push(timed(&mut original, &mut state));
            first.push(timed(&mut ours, &mut state));
        }
    });
    hold(&mut state, &mut ours, &mut original);
    let [least, ratio, most] = spread(first.iter().zip(&second).map(|(a, b)| a / b).collect());
    let (ours, original) = (millis(first), millis(second));
    println!(
        "{name:<38} {ratio:>6.2} {least:>6.2} {most:>6.2} {ours:>10} {original:>12} {made:>6}"
    );
}

/// A job that the original has no call for: our time alone.
pub fn alone<S, A>(
    name: &str,
    mut state: S,
    mut ours: impl FnMut(&mut S) -> A,
    right: impl Fn(&S, A) -> bool,
) {
    let answer = ours(&mut state);
    assert!(right(&state, answer), "{name}: the result is wrong");
    let mut times = vec![];
    let made = rounds(|_| times.push(timed(&mut ours, &mut state)));
    let answer = ours(&mut state);
    assert!(right(&state, answer), "{name}: the result is wrong");
    let ours = millis(times);
    println!(
        "{name:<38} {:>6} {:>6} {:>6} {ours:>10} {:>12} {made:>6}",
        "-", "-", "-", "none"
    );
}
