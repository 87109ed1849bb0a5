//! Times of the two sides on the same inputs, and how they are printed.

use std::fmt::Debug;
use std::hint::black_box;
use std::sync::OnceLock;

mod clock {
    /// A time as the C library of Linux counts it.
    #[repr(C)]
    pub struct Time {
        pub seconds: i64,
        pub nanoseconds: i64,
    }

    /// The clock that runs only while the calling thread does.
    pub const THREAD: i32 = 3;

    extern "C" {
        pub fn clock_gettime(clock: i32, time: *mut Time) -> i32;
    }
}

/// Each side is timed on so many inputs, and the median counts.
const INPUTS: usize = 11;

/// The medians of both sides in microseconds.
#[derive(Clone, Copy)]
pub struct Medians {
    proved: f64,
    reference: f64,
}

/// How long this thread has run, in microseconds: other programs of the machine don't count.
fn running_time() -> f64 {
    let mut time = clock::Time { seconds: 0, nanoseconds: 0 };
    assert_eq!(unsafe { clock::clock_gettime(clock::THREAD, &mut time) }, 0);
    time.seconds as f64 * 1e6 + time.nanoseconds as f64 / 1e3
}

/// What it takes to ask for the time, which a call of few microseconds must not be charged with.
fn asking_time() -> f64 {
    static MEDIAN: OnceLock<f64> = OnceLock::new();
    let nothing_timed = || {
        let start = running_time();
        running_time() - start
    };
    *MEDIAN.get_or_init(|| median((0..101).map(|_| nothing_timed()).collect()))
}

/// The answer and the time of a side on a fresh input, in microseconds. It is called on an earlier input first, so that it finds
/// its own code and memory in the cache, and not those of the other side. Each input is restored after its call.
fn timed<Input, Answer>(side: impl Fn(&Input) -> Answer, restore: impl Fn(&Input), earlier: &Input, fresh: &Input) -> (Answer, f64) {
    black_box(side(black_box(earlier)));
    restore(earlier);
    let start = running_time();
    let answer = black_box(side(black_box(fresh)));
    let time = running_time() - start - asking_time();
    restore(fresh);
    (answer, time)
}

fn median(mut times: Vec<f64>) -> f64 {
    times.sort_by(f64::total_cmp);
    times[times.len() / 2]
}

/// The times of both sides on inputs of one kind, and the last of these inputs.
struct Kind<Input> {
    proved: Vec<f64>,
    reference: Vec<f64>,
    earlier: Input,
}

/// Times both sides, one after the other, on inputs that neither has met before. The side that comes second finds the input in the
/// cache, so each side is the first on every other input. Both must give the expected answer.
///
/// There may be several kinds of inputs, say of several sizes. They take turns: where the machine changes its speed, it does so for all.
///
/// A call may change its input, which `restore` makes as it was, in time that doesn't count.
pub fn medians_of_restored_kinds<const KINDS: usize, Input, Answer: PartialEq + Debug>(
    mut draw: impl FnMut(usize) -> Input,
    expected: Answer,
    restore: impl Fn(&Input),
    proved: impl Fn(&Input) -> Answer,
    reference: impl Fn(&Input) -> Answer,
) -> [Medians; KINDS] {
    let mut kinds: [Kind<Input>; KINDS] = std::array::from_fn(|kind| Kind { proved: Vec::new(), reference: Vec::new(), earlier: draw(kind) });
    for turn in 0..INPUTS {
        for (number, kind) in kinds.iter_mut().enumerate() {
            let fresh = draw(number);
            let mut sides = [(&proved as &dyn Fn(&Input) -> Answer, &mut kind.proved), (&reference, &mut kind.reference)];
            sides.rotate_left(turn % 2);
            for (side, times) in sides {
                let (answer, time) = timed(side, &restore, &kind.earlier, &fresh);
                assert_eq!(answer, expected);
                times.push(time);
            }
            kind.earlier = fresh;
        }
    }
    kinds.map(|kind| Medians { proved: median(kind.proved), reference: median(kind.reference) })
}

/// The same for calls that change nothing.
pub fn medians_of_kinds<const KINDS: usize, Input, Answer: PartialEq + Debug>(
    draw: impl FnMut(usize) -> Input,
    expected: Answer,
    proved: impl Fn(&Input) -> Answer,
    reference: impl Fn(&Input) -> Answer,
) -> [Medians; KINDS] {
    medians_of_restored_kinds(draw, expected, |_| {}, proved, reference)
}

/// The same for inputs of one kind.
pub fn medians<Input, Answer: PartialEq + Debug>(
    mut draw: impl FnMut() -> Input,
    expected: Answer,
    proved: impl Fn(&Input) -> Answer,
    reference: impl Fn(&Input) -> Answer,
) -> Medians {
    let [medians] = medians_of_kinds(|_| draw(), expected, proved, reference);
    medians
}

/// A line with the medians of a case and their ratio.
pub fn report(what: &str, medians: &Medians) {
    let Medians { proved, reference } = medians;
    println!("{what}: proved {proved:.1} us, reference {reference:.1} us, ratio {:.2}", proved / reference);
}

/// The same of two builds of the proved functions, of which the one before took the place of the reference implementation.
pub fn report_builds(what: &str, medians: &Medians) {
    let Medians { proved: after, reference: before } = medians;
    println!("{what}: before {before:.1} us, after {after:.1} us, ratio {:.3}", after / before);
}

/// A line with the growth of both sides from a smaller case to a larger one.
pub fn report_growth(what: &str, smaller: &Medians, larger: &Medians) {
    println!("{what}: proved grows {:.2}-fold, reference {:.2}-fold", larger.proved / smaller.proved, larger.reference / smaller.reference);
}
