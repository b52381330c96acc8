//! As many emulators at a time as there are processors, and the batches shared out
//! among them.

use crate::hold::{Prepared, Setting};
use crate::mame::Mame;
use crate::plan::Batch;
use crate::tally::Tally;
use std::io;
use std::path::Path;
use std::sync::atomic::{AtomicUsize, Ordering};
use std::sync::Mutex;
use std::thread;
use std::time::{Duration, Instant};

/// How often it is told how far a run is.
const TELLING: Duration = Duration::from_secs(10);

/// So many differences are printed whole; with more a run ends.
const MOST_DIFFERENCES: u64 = 10_000;

/// The batches, those that are done, and how far that is.
struct Crew<'a> {
    folder: &'a Path,
    setting: &'a Setting,
    plan: &'a [Batch],
    next: AtomicUsize,
    done: Mutex<Done>,
}

struct Done {
    tallies: Vec<(usize, Tally)>,
    cases: u64,
    differences: u64,
    told: Instant,
}

/// Does the batches. What comes of it does not hang on which emulator is first.
pub fn side_by_side(folder: &Path, setting: &Setting, plan: &[Batch]) -> io::Result<Tally> {
    let crew = Crew {
        folder,
        setting,
        plan,
        next: AtomicUsize::new(0),
        done: Mutex::new(Done {
            tallies: Vec::new(),
            cases: 0,
            differences: 0,
            told: Instant::now(),
        }),
    };
    let processors = thread::available_parallelism().map_or(1, usize::from);
    thread::scope(|scope| {
        let workers = 0..processors.min(plan.len());
        let workers: Vec<_> = workers.map(|_| scope.spawn(|| crew.work())).collect();
        let ended = |worker: thread::ScopedJoinHandle<'_, io::Result<()>>| {
            worker.join().expect("a worker that ends")
        };
        workers.into_iter().try_for_each(ended)
    })?;
    let mut tallies = crew.done.into_inner().expect("no other failed").tallies;
    tallies.sort_by_key(|(number, _)| *number);
    let mut all = Tally::new(setting.slips.len());
    tallies.into_iter().for_each(|(_, tally)| all.join(tally));
    Ok(all)
}

impl Crew<'_> {
    /// One emulator's work: the library does a batch while it does the one before.
    fn work(&self) -> io::Result<()> {
        let mut mame = Mame::start(self.folder)?;
        let mut asked: Option<(usize, Prepared)> = None;
        loop {
            let number = self.next.fetch_add(1, Ordering::Relaxed);
            let batch = self.plan.get(number).filter(|_| !self.is_weary());
            let prepared = batch.map(|batch| Prepared::new(self.setting, batch));
            if let Some((number, asked)) = asked.take() {
                self.put_down(number, asked.compare(&mut mame)?);
            }
            let Some(prepared) = prepared else {
                return mame.end();
            };
            prepared.ask(&mut mame)?;
            asked = Some((number, prepared));
        }
    }

    fn is_weary(&self) -> bool {
        let done = self.done.lock().expect("no other failed");
        done.differences > MOST_DIFFERENCES
    }

    /// Puts down what came of a batch, and tells now and then how far it is.
    fn put_down(&self, number: usize, tally: Tally) {
        let mut done = self.done.lock().expect("no other failed");
        done.cases += tally.cases;
        done.differences += tally.unexplained;
        done.tallies.push((number, tally));
        if done.told.elapsed() > TELLING {
            done.told = Instant::now();
            let (batches, all) = (done.tallies.len(), self.plan.len());
            eprintln!("witness: {batches} of {all} batches, {} cases", done.cases);
        }
    }
}
