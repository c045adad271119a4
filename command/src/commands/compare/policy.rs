//! What is compared.

/// A way to choose the reads that are served.
#[derive(Clone, Copy, Debug, PartialEq, Eq)]
pub enum Policy {
    /// Serves the earliest deadline and drops nothing: what is late is served late.
    Edf,
    /// Discards a read only when the coming slot is too late for it, and serves the earliest deadline.
    PrudentEdf,
    /// The queue's rule, but where not all can finish, the new read is always the one dropped.
    NewcomerDropped,
    /// The queue, which is Fair-EDF in whole slots.
    Queue,
}

pub const POLICIES: [Policy; 4] = [Policy::Edf, Policy::PrudentEdf, Policy::NewcomerDropped, Policy::Queue];

impl Policy {
    /// Only the queue is there as a program, and that one is proved.
    pub fn is_simulated(self) -> bool {
        self != Policy::Queue
    }

    /// Its name with what its results are from, so that nobody takes a simulation for the program.
    pub fn marked(self) -> &'static str {
        match self {
            Policy::Edf => "plain EDF (simulated)",
            Policy::PrudentEdf => "Prudent-EDF (simulated)",
            Policy::NewcomerDropped => "newcomer dropped (simulated)",
            Policy::Queue => "the queue (proved program)",
        }
    }
}
