//! Why a pool's calls are refused.
use super::{FEW_WORKERS, MOST_WAITING, MOST_WORKERS};
use crate::texts::error_texts;

/// Why a pool couldn't be made, or a call of it was refused. If several reasons hold, it is the first of them. Nothing was changed.
#[derive(Debug, Clone, Copy, PartialEq, Eq, Hash)]
#[non_exhaustive]
pub enum PoolError {
    /// The pool's name contains a zero byte, which no thread's name may.
    NulInName,
    /// The number of events to record isn't from 1 to 100,000.
    RecordOutOfRange,
    /// The core size isn't from 1 to 1,024, or at a resize of a pool that was made with a maximum size of at most 64, from 1 to 64.
    CoreOutOfRange,
    /// The maximum size isn't from the core size to 1,024, or at a resize, to the maximum size that the pool was made with.
    MaxOutOfRange,
    /// The queue capacity isn't from 1 to 65,536.
    QueueOutOfRange,
    /// The number of callers isn't from 1 to 65,535.
    CallersOutOfRange,
    /// Out of memory.
    Memory,
    /// The caller isn't from 1 to the number of callers.
    NoCaller,
    /// The job's number isn't one more than its caller's submissions so far.
    WrongNumber,
    /// No job with this id was picked at this place, or it is finished already.
    NotOut,
}

error_texts! { PoolError {
    NulInName => "the name contains a zero byte",
    RecordOutOfRange => "the record is not for 1 to 100000 events",
    CoreOutOfRange => "the core size is not from 1 to {MOST_WORKERS}, or at a resize of a pool for at most {FEW_WORKERS} threads from 1 to {FEW_WORKERS}",
    MaxOutOfRange => "the maximum size is not from the core size to {MOST_WORKERS}, or at a resize to that of the opening",
    QueueOutOfRange => "the queue capacity is not from 1 to {MOST_WAITING}",
    CallersOutOfRange => "the number of callers is not from 1 to 65535",
    Memory => "out of memory",
    NoCaller => "not one of the callers",
    WrongNumber => "not the caller's next number",
    NotOut => "no job with this id is running",
}}
