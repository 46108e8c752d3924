//! The layer above the pool in lockstep with the Rust's manager: sizes are bytes.

mod count;
mod layer;
mod library;
#[cfg(test)]
mod model;
mod session;

use std::{
    sync::{
        atomic::{AtomicU64, Ordering},
        Mutex,
    },
    thread,
};

use compare::scale::plan::Planned;

pub use count::Count;
use layer::Layer;
use library::Library;
use session::follow;

#[derive(Default)]
pub struct Report {
    pub sessions: u64,
    pub count: Count,
    pub differences: Vec<String>,
}

/// Differences after which no further session is begun.
const ENOUGH: usize = 5;

/// As many random sessions as make so many calls, on all cores.
pub fn run(calls: u64) -> Report {
    run_on::<Library>(calls)
}

fn run_on<Tested: Layer>(calls: u64) -> Report {
    let sessions = sessions_with(calls);
    let next = AtomicU64::new(0);
    let report = Mutex::new(Report {
        sessions,
        ..Report::default()
    });
    let work = || loop {
        let number = next.fetch_add(1, Ordering::Relaxed);
        if number >= sessions {
            return;
        }
        let followed = follow::<Tested>(&Planned::in_bytes(number));
        let mut report = report.lock().expect("no thread fails");
        match followed {
            Ok(count) => report.count.join(count),
            Err(difference) => report.differences.push(difference),
        }
        if report.differences.len() >= ENOUGH {
            next.store(sessions, Ordering::Relaxed);
        }
    };
    let cores = thread::available_parallelism().map_or(1, usize::from);
    thread::scope(|scope| {
        for _ in 0..cores {
            scope.spawn(work);
        }
    });
    report.into_inner().expect("no thread fails")
}

/// The opening and the close come on top.
fn sessions_with(calls: u64) -> u64 {
    let mut planned = 0;
    let mut sessions = 0;
    while planned < calls {
        planned += Planned::in_bytes(sessions).calls;
        sessions += 1;
    }
    sessions
}

#[cfg(test)]
mod tests {
    use super::{
        model::{Fault, Model, Sound},
        *,
    };

    fn differences<Tested: Layer>() -> Vec<String> {
        run_on::<Tested>(20_000).differences
    }

    #[test]
    fn the_library_follows() {
        let report = run_on::<Library>(20_000);
        assert_eq!(report.differences, Vec::<String>::new());
        assert!(report.count.calls > 20_000);
    }

    /// So does a plain layer above the library's pool.
    #[test]
    fn a_plain_layer_follows() {
        assert_eq!(differences::<Model<Sound>>(), Vec::<String>::new());
    }

    /// Layers that are wrong in one thing are found out.
    #[test]
    fn faults_are_found() {
        macro_rules! found {
            ($($fault:ident: $wrong:expr),*) => {$(
                struct $fault;
                impl Fault for $fault {
                    const WRONG: model::Wrong = $wrong;
                }
                assert!(!differences::<Model<$fault>>().is_empty(), stringify!($fault));
            )*};
        }
        found!(
            Unrounded: model::Wrong::Unrounded,
            PageIsSmall: model::Wrong::PageIsSmall,
            AsTheRust: model::Wrong::LetsGoOfAFailedDrop,
            CountsFailures: model::Wrong::CountsAFailedSmall,
            PoolFirst: model::Wrong::PoolFirst,
            HighestFalls: model::Wrong::HighestFalls,
            OtherStream: model::Wrong::OtherStream,
            ClosesBackwards: model::Wrong::ClosesBackwards,
            StopsAtAFailure: model::Wrong::StopsAtAFailure
        );
    }
}
