//! A gate where two workers meet at each query, and the wait of one worker for the other.

use solver_gate::gate::{Gate, Spot};
use std::sync::atomic::{AtomicU64, Ordering};
use std::thread;

// The most yields of a worker that waits for the other.
const TURNS: u32 = 10_000_000;

/// Waits until the word is at least `number`. Returns whether that happened in time.
pub fn reaches_in_time(word: &AtomicU64, number: u64) -> bool {
    for _ in 0..TURNS {
        if word.load(Ordering::SeqCst) >= number {
            return true;
        }
        thread::yield_now();
    }
    false
}

/// A gate where two workers meet at each query. The second may post once the first has arrived to post, and the first may post once
/// the second has its reply. The first answer to each query comes from the second worker. If a worker does not arrive in time, the
/// other continues alone.
#[derive(Drop)]
pub struct Meeting {
    // The last query that worker 0 arrived to post for.
    came: AtomicU64,
    // The last query for which worker 1 has a reply.
    answered: AtomicU64,
    // The queries at which each worker met the other in time, one digit each.
    first: AtomicU64,
    second: AtomicU64,
}

impl Meeting {
    /// Returns a gate that no worker has reached.
    pub fn new() -> Meeting {
        Meeting {
            came: AtomicU64::new(0),
            answered: AtomicU64::new(0),
            first: AtomicU64::new(0),
            second: AtomicU64::new(0),
        }
    }

    /// Returns the queries at which worker 0 met worker 1, in order, one digit each: 12 for queries 1 and 2.
    pub fn first_met(&self) -> u64 {
        self.first.load(Ordering::SeqCst)
    }

    /// Returns the queries at which worker 1 met worker 0, in the same form.
    pub fn second_met(&self) -> u64 {
        self.second.load(Ordering::SeqCst)
    }
}

// Appends the query's digit to the word. Only one worker writes to each word.
fn note(word: &AtomicU64, number: u64) {
    let noted = word.load(Ordering::SeqCst);
    let longer = noted.wrapping_mul(10).wrapping_add(number);
    word.store(longer, Ordering::SeqCst);
}

impl Gate for Meeting {
    fn at(&self, spot: Spot, worker: u32, number: u64) {
        match (spot, worker) {
            (Spot::BeforePost, 0) => {
                self.came.store(number, Ordering::SeqCst);
                if reaches_in_time(&self.answered, number) {
                    note(&self.first, number);
                }
            }
            (Spot::BeforePost, _) => {
                if reaches_in_time(&self.came, number) {
                    note(&self.second, number);
                }
            }
            (Spot::AfterPost, 1) => self.answered.store(number, Ordering::SeqCst),
            _ => {}
        }
    }
}
