//! Comparing two or three ways of doing the same; timing them in turn.

use std::hint::black_box;
use std::time::Duration;

/// What one call of each costs: nanoseconds, or bytes of stack.
#[derive(Clone, Copy)]
pub struct Costs {
    pub ours: f64,
    /// Of the older library, if there is one.
    pub older: Option<f64>,
    pub plain: f64,
    /// Whether the older library returned another refusal number than ours: then it did other work.
    pub refused_otherwise: bool,
}

impl Costs {
    /// Above 1 the proved library is the cheaper.
    pub fn plain_to_ours(self) -> f64 {
        self.plain / self.ours
    }

    /// Above 1 the present library is the cheaper.
    pub fn older_to_ours(self) -> Option<f64> {
        self.older.map(|older| older / self.ours)
    }

    /// The same of a part, such as a step of a run.
    pub fn per(self, parts: f64) -> Costs {
        self.each(|cost| cost / parts)
    }

    /// What remains without what something else cost.
    pub fn without(self, other: Costs) -> Costs {
        Costs {
            ours: self.ours - other.ours,
            older: self.older.zip(other.older).map(|(whole, part)| whole - part),
            plain: self.plain - other.plain,
            ..self
        }
    }

    /// The larger of each.
    pub fn most(self, other: Costs) -> Costs {
        Costs {
            ours: self.ours.max(other.ours),
            older: self.older.zip(other.older).map(|(one, another)| one.max(another)),
            plain: self.plain.max(other.plain),
            refused_otherwise: self.refused_otherwise || other.refused_otherwise,
        }
    }

    /// All costs changed alike.
    fn each(self, change: impl Fn(f64) -> f64) -> Costs {
        Costs {
            ours: change(self.ours),
            older: self.older.map(&change),
            plain: change(self.plain),
            ..self
        }
    }
}

#[derive(Clone, Copy)]
pub struct Effort {
    /// Batches of each, of which the median is taken.
    pub batches: usize,
    /// How long a batch takes at least.
    pub batch: Duration,
    /// A comparison that has taken so long makes no further batches,
    pub line: Duration,
    /// if it has so many.
    pub fewest: usize,
}

impl Effort {
    pub const USUAL: Effort = Effort {
        batches: 21,
        batch: Duration::from_millis(2),
        line: Duration::from_secs(10),
        fewest: 3,
    };
    /// Enough to see that everything runs.
    pub const QUICK: Effort = Effort {
        batches: 3,
        batch: Duration::from_micros(200),
        line: Duration::from_secs(1),
        fewest: 1,
    };
}

/// A way to compare what calls cost. A call answers its refusal number.
pub trait Compare {
    fn compare(
        self,
        ours: impl FnMut() -> u32 + Send,
        older: Option<impl FnMut() -> u32 + Send>,
        plain: impl FnMut() -> u32 + Send,
    ) -> Costs;
}

impl Compare for Effort {
    /// Batches of all take turns, so that whatever else the machine does hits all alike.
    fn compare(
        self,
        ours: impl FnMut() -> u32 + Send,
        older: Option<impl FnMut() -> u32 + Send>,
        plain: impl FnMut() -> u32 + Send,
    ) -> Costs {
        let start = clock::now();
        let mut ours = Timed::new(self, ours);
        let mut older = older.map(|call| Timed::new(self, call));
        let mut plain = Timed::new(self, plain);
        for done in 0..self.batches {
            if done >= self.fewest && clock::now() - start > self.line {
                break;
            }
            ours.take_turn();
            older.iter_mut().for_each(Timed::take_turn);
            plain.take_turn();
        }
        let refused_otherwise = older.as_ref().is_some_and(|older| older.refusal != ours.refusal);
        Costs {
            ours: ours.median(),
            older: older.map(Timed::median),
            plain: plain.median(),
            refused_otherwise,
        }
    }
}

/// One of those that are compared, with its times so far.
struct Timed<F> {
    call: F,
    /// What the last call was refused with, 0 for nothing.
    refusal: u32,
    calls_per_batch: u32,
    times: Vec<f64>,
}

impl<F: FnMut() -> u32> Timed<F> {
    /// Finds how many calls a batch needs, which also warms up.
    fn new(effort: Effort, call: F) -> Timed<F> {
        let mut timed = Timed { call, refusal: 0, calls_per_batch: 1, times: vec![] };
        while timed.batch() < effort.batch {
            timed.calls_per_batch *= 2;
        }
        timed
    }

    /// One batch more.
    fn take_turn(&mut self) {
        let time = self.batch().as_nanos() as f64;
        self.times.push(time / f64::from(self.calls_per_batch));
    }

    /// How long the calls of a batch take together.
    fn batch(&mut self) -> Duration {
        let start = clock::now();
        for _ in 0..self.calls_per_batch {
            self.refusal = black_box((self.call)());
        }
        clock::now() - start
    }

    /// The middle of the times, which a disturbed batch does not move.
    fn median(mut self) -> f64 {
        self.times.sort_by(f64::total_cmp);
        self.times[self.times.len() / 2]
    }
}

/// The processor time of this thread: what others do on the machine meanwhile does not count.
#[cfg(target_os = "linux")]
mod clock {
    use std::ffi::c_int;
    use std::time::Duration;

    pub const NAME: &str = "processor time of the thread";

    const THREAD_PROCESSOR_TIME: c_int = 3;

    #[repr(C)]
    struct Time {
        seconds: i64,
        nanoseconds: i64,
    }

    extern "C" {
        fn clock_gettime(clock: c_int, time: *mut Time) -> c_int;
    }

    pub fn now() -> Duration {
        let mut time = Time { seconds: 0, nanoseconds: 0 };
        // SAFETY: writes one time where there is room for it.
        let status = unsafe { clock_gettime(THREAD_PROCESSOR_TIME, &mut time) };
        assert_eq!(status, 0, "the clock cannot be read");
        Duration::new(time.seconds as u64, time.nanoseconds as u32)
    }
}

#[cfg(not(target_os = "linux"))]
mod clock {
    use std::sync::OnceLock;
    use std::time::{Duration, Instant};

    pub const NAME: &str = "time on the clock";

    pub fn now() -> Duration {
        static START: OnceLock<Instant> = OnceLock::new();
        START.get_or_init(Instant::now).elapsed()
    }
}

/// Which time is measured, in words.
pub const CLOCK: &str = clock::NAME;
