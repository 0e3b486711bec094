// Times several works in turn, and what the times of many rounds come to.

// How long, and how often.
#[derive(Clone, Copy)]
pub struct Effort {
    pub rounds: usize,
    // What one measurement takes at least, in ns: the clock's own cost is lost in it.
    pub least: f64,
}

#[repr(C)]
struct Timespec {
    seconds: i64,
    nanoseconds: i64,
}

extern "C" {
    fn clock_gettime(clock: i32, time: *mut Timespec) -> i32;
}

const CLOCK_THREAD_CPUTIME_ID: i32 = 3;

// The processor time of this thread in ns. What else runs on the machine while this thread waits is not in it.
pub fn now() -> f64 {
    let mut time = Timespec {
        seconds: 0,
        nanoseconds: 0,
    };
    // SAFETY: the time has its place.
    let code = unsafe { clock_gettime(CLOCK_THREAD_CPUTIME_ID, &mut time) };
    assert_eq!(code, 0, "the processor time of a thread cannot be read");
    time.seconds as f64 * 1e9 + time.nanoseconds as f64
}

// Does so many steps, and answers how many things they made.
pub type Work<'a> = Box<dyn FnMut(usize) -> usize + 'a>;

// One measurement: its time, and the time of each thing.
fn measured(work: &mut Work, steps: usize) -> (f64, f64) {
    let start = now();
    let things = work(steps);
    let time = now() - start;
    (time, time / things as f64)
}

// How many steps take the least time. What is done to find out warms the work up.
fn steps_for(work: &mut Work, least: f64) -> usize {
    let mut steps = 1;
    loop {
        let (time, _) = measured(work, steps);
        if time >= least {
            return steps;
        }
        let wanted = 1.2 * least / time.max(1.0);
        steps = (steps as f64 * wanted.min(16.0)).ceil() as usize;
    }
}

// The times of one thing in ns, round by round: in each round every work has its turn, and another one is the first.
pub fn in_turn(works: &mut [Work], effort: Effort) -> Vec<Vec<f64>> {
    let steps: Vec<usize> = works
        .iter_mut()
        .map(|work| steps_for(work, effort.least))
        .collect();
    let mut times = vec![Vec::new(); works.len()];
    for round in 0..effort.rounds {
        for turn in 0..works.len() {
            let i = (round + turn) % works.len();
            times[i].push(measured(&mut works[i], steps[i]).1);
        }
    }
    times
}

// The median, and the quartiles around it.
#[derive(Clone, Copy)]
pub struct Spread {
    pub low: f64,
    pub median: f64,
    pub high: f64,
}

// What lies at this part of the sorted values, between two of them in proportion.
fn at(sorted: &[f64], part: f64) -> f64 {
    let place = part * (sorted.len() - 1) as f64;
    let below = place.floor() as usize;
    let above = place.ceil() as usize;
    sorted[below] + (place - below as f64) * (sorted[above] - sorted[below])
}

impl Spread {
    pub fn of(values: &[f64]) -> Spread {
        let mut sorted = values.to_vec();
        sorted.sort_by(f64::total_cmp);
        Spread {
            low: at(&sorted, 0.25),
            median: at(&sorted, 0.5),
            high: at(&sorted, 0.75),
        }
    }

    // Of the ratios of one round's two times: what slows a whole round down is not in them.
    pub fn of_ratios(values: &[f64], base: &[f64]) -> Spread {
        let ratios: Vec<f64> = values.iter().zip(base).map(|(v, b)| v / b).collect();
        Spread::of(&ratios)
    }
}
