//! Times of the proved library beside the oracle's, for the benchmarks. A ratio is the oracle's time by ours: above 1, ours is the quicker one.
use std::ffi::{c_int, c_long};
use std::time::{Duration, Instant};

#[repr(C)]
struct Timespec {
    seconds: i64,
    nanos: c_long,
}

extern "C" {
    fn clock_gettime(clock: c_int, time: *mut Timespec) -> c_int;
}

/// Linux's clock of a thread's own processor time.
const THREAD_CLOCK: c_int = 3;

/// The processor time that this thread has had.
fn processor_time() -> Duration {
    let mut time = Timespec { seconds: 0, nanos: 0 };
    assert_eq!(unsafe { clock_gettime(THREAD_CLOCK, &mut time) }, 0, "this system has no clock for a thread");
    Duration::new(time.seconds as u64, time.nanos as u32)
}

/// Reading the processor's clock takes too long for calls shorter than this.
const SHORT: Duration = Duration::from_micros(100);

/// A call's time; of a longer one its processor time, so that what else runs on the machine counts little.
pub fn time(call: impl FnOnce()) -> Duration {
    let processor = processor_time();
    let start = Instant::now();
    call();
    let passed = start.elapsed();
    if passed < SHORT {
        passed
    } else {
        processor_time() - processor
    }
}

/// The middle one, in seconds.
pub fn middle(mut times: Vec<Duration>) -> f64 {
    times.sort();
    times[times.len() / 2].as_secs_f64()
}

/// A time to read.
pub fn micros(seconds: f64) -> String {
    format!("{:.1} us", seconds * 1e6)
}

/// Both sides of one input, in seconds.
pub struct Timed {
    pub input: String,
    pub oracle: f64,
    pub ours: f64,
}

impl Timed {
    /// Each side is timed so many times, in turn; the middle times count.
    pub fn new(input: String, times: usize, mut ours: impl FnMut() -> Duration, mut oracle: impl FnMut() -> Duration) -> Timed {
        let (ours, oracle): (Vec<_>, Vec<_>) = (0..times).map(|_| (ours(), oracle())).unzip();
        Timed { input, oracle: middle(oracle), ours: middle(ours) }
    }

    pub fn ratio(&self) -> f64 {
        self.oracle / self.ours
    }

    pub fn show(&self) -> String {
        format!("{}: oracle {}, ours {}", self.input, micros(self.oracle), micros(self.ours))
    }
}

pub fn geometric_mean(ratios: impl Iterator<Item = f64> + Clone) -> f64 {
    let many = ratios.clone().count() as f64;
    (ratios.map(f64::ln).sum::<f64>() / many).exp()
}

/// One line: the mean, and the input on which ours does worst; before it a line for each input, where they are asked for.
pub fn report(name: &str, timed: &[Timed]) {
    if std::env::args().any(|argument| argument == "--each") {
        timed.iter().for_each(|timed| println!("  {:>6.2} {}", timed.ratio(), timed.show()));
    }
    let worst = timed.iter().min_by(|a, b| a.ratio().total_cmp(&b.ratio())).expect("nothing was timed");
    let mean = geometric_mean(timed.iter().map(Timed::ratio));
    println!("{name:<18} mean {mean:>6.2} worst {:>6.2} of {} ({})", worst.ratio(), timed.len(), worst.show());
}

/// The word after an option of the command line.
pub fn option(name: &str) -> Option<String> {
    std::env::args().skip_while(|argument| argument != name).nth(1)
}

/// Our side alone, again and again for a second at least, for a profiler.
pub fn run_ours(name: &str, mut ours: impl FnMut() -> Duration) {
    let (start, mut times) = (Instant::now(), vec![]);
    while start.elapsed() < Duration::from_secs(1) {
        times.push(ours());
    }
    println!("{name}: {}", micros(middle(times)));
}
