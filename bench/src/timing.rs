//! The clock: one repeat of each measure, and the medians of many.

use std::ptr;
use std::time::{Duration, Instant};

use crate::inputs::Inputs;
use crate::proved;
use crate::side::{Proved, Side};

/// The repeats of each side; an odd number has a middle one.
pub const REPEATS: usize = 31;

/// The times that one repeat reads the table.
const READS: usize = 1000;

/// The SERVEs between two looks at the clock: their systems fit the nearest
/// cache, as the one system of a running scheduler does.
const SERVES: usize = 16;

/// A value that the compiler must take for any (`std::hint::black_box` is newer
/// than Rust 1.63).
fn opaque<T: Copy>(value: T) -> T {
    // SAFETY: the value is there, and may be copied.
    unsafe { ptr::read_volatile(&value) }
}

/// One repeat of each measure, in nanoseconds for one table, event or SERVE.
impl<S: Side> Inputs<'_, S> {
    pub fn time_table(&self) -> f64 {
        let since = Instant::now();
        for _ in 0..READS {
            let read = S::read_table(opaque(&self.case.table));
            opaque(&read);
        }
        each(since.elapsed(), READS)
    }

    pub fn time_events(&self) -> f64 {
        let mut system = self.start.clone();
        let since = Instant::now();
        for &event in &self.events {
            opaque(S::apply(&mut system, opaque(event)));
        }
        each(since.elapsed(), self.events.len())
    }

    pub fn time_batches(&self) -> f64 {
        let mut system = self.start.clone();
        let mut out = vec![u8::MAX; self.case.room()]; // written, so that its pages are there
        let since = Instant::now();
        for bytes in &self.case.batches {
            opaque(S::batch(&mut system, opaque(bytes), &mut out));
        }
        each(since.elapsed(), self.events.len())
    }

    pub fn time_serves(&self) -> f64 {
        let mut spent = Duration::ZERO;
        for (before, serves) in self.before.chunks(SERVES).zip(self.serves.chunks(SERVES)) {
            let mut systems = before.to_vec();
            let since = Instant::now();
            for (system, &serve) in systems.iter_mut().zip(serves) {
                opaque(S::apply(system, opaque(serve)));
            }
            spent += since.elapsed();
        }
        each(spent, self.serves.len())
    }
}

/// What the proved library alone has.
impl Inputs<'_, Proved> {
    /// The events of `time_events`, the system by value.
    pub fn time_by_value(&self) -> f64 {
        let mut system = self.start;
        let since = Instant::now();
        for &event in &self.events {
            let (after, answer) = proved::applied(system, opaque(event));
            system = after;
            opaque(answer);
        }
        each(since.elapsed(), self.events.len())
    }
}

fn each(spent: Duration, count: usize) -> f64 {
    spent.as_nanos() as f64 / count as f64
}

/// Both sides' medians of a measure.
pub struct Pair {
    pub proved: f64,
    pub model: f64,
}

impl Pair {
    /// Repeats the two in turn, so that what else the machine does meets both.
    pub fn measure(proved: impl Fn() -> f64, model: impl Fn() -> f64) -> Self {
        let mut times = (Vec::new(), Vec::new());
        for _ in 0..REPEATS {
            times.0.push(proved());
            times.1.push(model());
        }
        Pair {
            proved: median(times.0),
            model: median(times.1),
        }
    }

    /// The proved library's time over the model's.
    pub fn ratio(&self) -> f64 {
        self.proved / self.model
    }
}

fn median(mut times: Vec<f64>) -> f64 {
    times.sort_by(f64::total_cmp);
    times[times.len() / 2]
}
