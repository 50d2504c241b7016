//! The time that has passed.

use std::io;
use std::time::{Clock, Instant};

/// The nanoseconds since a moment.
pub(crate) fn since<R: Clock>(rt: &R, start: Instant) -> io::Result<u64> {
    Ok(u64::try_from(start.elapsed(rt)?.as_nanos()).unwrap_or(u64::MAX))
}
