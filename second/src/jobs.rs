//! The parts of a run, shared out over the cores, stopped at the first difference.

use std::path::PathBuf;
use std::sync::atomic::{AtomicBool, AtomicUsize, Ordering};
use std::sync::Mutex;
use std::thread;
use std::time::{Duration, Instant};

use crate::compare::{Difference, Tally};
use crate::damage;
use crate::face::Face;
use crate::program;
use crate::rng::Rng;
use crate::shapes;
use crate::word::MAX_BITS;
use crate::words;

/// What a run compares with, and when random parts stop being begun.
pub struct Setting {
    pub face: Box<dyn Face>,
    pub program: PathBuf,
    pub deadline: Instant,
}

type Work = Box<dyn Fn(&Setting, &mut Rng) -> Result<Tally, Difference> + Send + Sync>;

/// One part, with a name for the report. Its seed is the run's seed and its own place in the list.
pub struct Job {
    name: String,
    /// A part that is run even past the deadline.
    always: bool,
    work: Work,
}

fn job<F>(name: &str, work: F) -> Job
where
    F: Fn(&Setting, &mut Rng) -> Result<Tally, Difference> + Send + Sync + 'static,
{
    Job {
        name: name.into(),
        always: false,
        work: Box::new(work),
    }
}

fn always(job: Job) -> Job {
    Job {
        always: true,
        ..job
    }
}

/// The parts of the gate: the exhaustive ones first, then random ones of growing size.
pub fn gate() -> Vec<Job> {
    let mut jobs = vec![
        always(job("every word up to 14 bits, every question", |s, _| {
            words::every_small(&*s.face, 14)
        })),
        always(job("house files by rule", |s, _| {
            program::named_files(&s.program)
        })),
    ];
    jobs.extend((0..shapes::shape_count()).map(|choice| few_blocks(choice, 258, 1_100)));
    jobs.push(job("damaged words up to 3,000 bits", |s, rng| {
        damage::random(&*s.face, 3_000, 150, 40, rng)
    }));
    jobs.extend((0..shapes::shape_count()).map(largest));
    jobs.extend(random(8));
    jobs
}

/// One round of the longer run; each round has a seed of its own.
pub fn long_round() -> Vec<Job> {
    let mut jobs: Vec<Job> = (0..shapes::shape_count())
        .map(|choice| few_blocks(choice, 514, 1_400))
        .collect();
    jobs.extend((0..shapes::shape_count()).map(largest));
    jobs.extend(random(12));
    jobs
}

/// What only a long run has time for.
pub fn long_once() -> Vec<Job> {
    vec![job("every word up to 18 bits, every question", |s, _| {
        words::every_small(&*s.face, 18)
    })]
}

/// A word of a few blocks of one shape, with every question.
fn few_blocks(choice: usize, least: usize, most: usize) -> Job {
    job("a word of a few blocks, every question", move |s, rng| {
        let bits = rng.within(least, most) & !1;
        let shaped = shapes::shaped_as(choice, bits, rng);
        words::every_question(&*s.face, &shaped, rng)
    })
}

/// The largest words that are accepted, sound and with a few faults.
fn largest(choice: usize) -> Job {
    job("a largest word", move |s, rng| {
        let bits = MAX_BITS as usize - 2 * rng.below(3);
        let shaped = shapes::shaped_as(choice, bits, rng);
        let mut tally = words::chosen_questions(&*s.face, &shaped, 3_000, rng)?;
        tally += damage::few_of_word(&*s.face, &shaped, 3, rng)?;
        Ok(tally)
    })
}

fn random(times: usize) -> Vec<Job> {
    let mut jobs = Vec::new();
    for _ in 0..times {
        jobs.push(job("random words up to 5,000 bits", |s, rng| {
            words::random(&*s.face, (0, 5_000), 160, 3_000, rng)
        }));
        jobs.push(job("random words up to 100,000 bits", |s, rng| {
            words::random(&*s.face, (5_000, 100_000), 40, 5_000, rng)
        }));
        jobs.push(job("random words up to 2,097,152 bits", |s, rng| {
            words::random(&*s.face, (100_000, MAX_BITS as usize), 6, 3_000, rng)
        }));
        jobs.push(job("damaged words up to 20,000 bits", |s, rng| {
            damage::random(&*s.face, 20_000, 20, 40, rng)
        }));
        jobs.push(job("house files", |s, rng| {
            let mut tally = program::random_files(&s.program, 3_000, 80, rng)?;
            tally += program::random_files(&s.program, 65_536, 20, rng)?;
            Ok(tally)
        }));
    }
    jobs
}

/// What a run has come to.
pub struct Report {
    pub tally: Tally,
    pub skipped: usize,
    pub difference: Option<String>,
}

/// Runs the parts on every core. A part that fails stops the others from beginning new ones.
pub fn run(setting: &Setting, jobs: &[Job], seed: u64) -> Report {
    let next = AtomicUsize::new(0);
    let stop = AtomicBool::new(false);
    let report = Mutex::new(Report {
        tally: Tally::default(),
        skipped: 0,
        difference: None,
    });
    let cores = thread::available_parallelism().map_or(2, |cores| cores.get());
    thread::scope(|scope| {
        for _ in 0..cores {
            scope.spawn(|| loop {
                let place = next.fetch_add(1, Ordering::Relaxed);
                if place >= jobs.len() || stop.load(Ordering::Relaxed) {
                    return;
                }
                if let Err(difference) = run_one(setting, &jobs[place], seed, place, &report) {
                    stop.store(true, Ordering::Relaxed);
                    report.lock().unwrap().difference.get_or_insert(difference);
                }
            });
        }
    });
    report.into_inner().unwrap()
}

fn run_one(
    setting: &Setting,
    job: &Job,
    seed: u64,
    place: usize,
    report: &Mutex<Report>,
) -> Result<(), String> {
    if !job.always && Instant::now() > setting.deadline {
        report.lock().unwrap().skipped += 1;
        return Ok(());
    }
    let begun = Instant::now();
    let mut rng = Rng::new(seed ^ (place as u64).wrapping_mul(0xD134_2543_DE82_EF95));
    let tally = (job.work)(setting, &mut rng)
        .map_err(|difference| format!("seed {seed}, part {place} ({})\n{difference}", job.name))?;
    report.lock().unwrap().tally += tally;
    say(place, &job.name, begun.elapsed());
    Ok(())
}

fn say(place: usize, name: &str, time: Duration) {
    println!("part {place:3}  {:6.1} s  {name}", time.as_secs_f64());
}
