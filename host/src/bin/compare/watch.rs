//! How long a comparison may go on, and a line every ten seconds that says how far it is.

use crate::counts::Counts;
use std::time::{Duration, Instant};

const BETWEEN_LINES: Duration = Duration::from_secs(10);

pub struct Watch {
    began: Instant,
    told: Instant,
    /// None where the comparison ends by its sizes alone.
    limit: Option<Duration>,
}

impl Watch {
    /// Begins now; 0 minutes is no limit.
    pub fn new(minutes: u64) -> Watch {
        let now = Instant::now();
        Watch { began: now, told: now, limit: (minutes > 0).then(|| Duration::from_secs(60 * minutes)) }
    }

    pub fn elapsed(&self) -> Duration {
        self.began.elapsed()
    }

    /// Whether the time is up. Where nothing was said for long, says how far the comparison is.
    pub fn is_over(&mut self, counts: &Counts) -> bool {
        self.tell(counts);
        self.limit.is_some_and(|limit| self.elapsed() >= limit)
    }

    /// As `is_over`, for half the time.
    pub fn is_half_over(&mut self, counts: &Counts) -> bool {
        self.tell(counts);
        self.limit.is_some_and(|limit| self.elapsed() >= limit / 2)
    }

    fn tell(&mut self, counts: &Counts) {
        if self.told.elapsed() < BETWEEN_LINES {
            return;
        }
        self.told = Instant::now();
        let of = self.limit.map_or(String::new(), |limit| format!(" of {} s", limit.as_secs()));
        println!(
            "compare: {} s{of}; {} calls, {} reads and {} states so far, 0 differences",
            self.elapsed().as_secs(),
            counts.calls,
            counts.reads,
            counts.states
        );
    }
}
