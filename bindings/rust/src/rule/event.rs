//! What a pool reports: jobs, replies, events and numbers.
use crate::library::{PoolCounts, PoolEvent, PoolJob};

/// The id of a job: its caller, and the caller's own number for it, counted from 1.
#[derive(Debug, Clone, Copy, PartialEq, Eq, Hash)]
pub struct JobId {
    /// The caller that submits it, from 1.
    pub caller: u16,
    /// Which of that caller's submissions it is, counted from 1.
    pub number: u64,
}

/// The reply to a submission.
#[derive(Debug, Clone, Copy, PartialEq, Eq, Hash)]
#[non_exhaustive]
pub enum Reply {
    /// Accepted: a worker is started for it, since there were fewer than the core size.
    Core,
    /// Accepted: the job waits in the queue.
    Queued,
    /// Accepted: a worker is started for it, since the queue is full.
    Extra,
    /// Refused: the queue is full and there are as many workers as the maximum size.
    Full,
    /// Refused: the pool is closed.
    Closed,
}

impl Reply {
    pub(crate) fn of(answer: u8) -> Option<Reply> {
        [
            Reply::Core,
            Reply::Queued,
            Reply::Extra,
            Reply::Full,
            Reply::Closed,
        ]
        .get(usize::from(answer))
        .copied()
    }
}

/// The origin of a picked job.
#[derive(Debug, Clone, Copy, PartialEq, Eq, Hash)]
pub enum Origin {
    /// It has had a worker of its own since its submission.
    OwnStart,
    /// It was taken from the front of the queue.
    Queue,
}

/// A job that was picked, and what is needed to finish it.
#[derive(Debug, Clone, Copy, PartialEq, Eq, Hash)]
pub struct Picked {
    /// Its id.
    pub id: JobId,
    /// What was submitted with it.
    pub work: u64,
    /// The place that it keeps until it is finished.
    pub place: u32,
    /// Its origin.
    pub origin: Origin,
}

impl Picked {
    pub(crate) fn of(job: PoolJob, origin: Origin) -> Picked {
        Picked {
            id: JobId {
                caller: job.caller,
                number: job.number,
            },
            work: job.work,
            place: job.place,
            origin,
        }
    }
}

/// One event of a pool: what happened at one call.
#[derive(Debug, Clone, Copy, PartialEq, Eq, Hash)]
#[non_exhaustive]
pub enum Event {
    /// A submission and its reply.
    Submit(JobId, Reply),
    /// A worker took this job from the front of the queue.
    Take(JobId),
    /// A worker finished this job.
    Finish(JobId),
    /// An idle worker ended.
    IdleEnd,
    /// The pool was closed.
    Close,
    /// The core size and the maximum size, in workers, from now on.
    Resized {
        /// The core size.
        core: u32,
        /// The maximum size.
        max: u32,
    },
}

impl Event {
    pub(crate) fn of(event: PoolEvent) -> Option<Event> {
        let id = JobId {
            caller: event.caller,
            number: event.number,
        };
        match event.kind {
            0 => Reply::of(event.reply).map(|reply| Event::Submit(id, reply)),
            1 => Some(Event::Take(id)),
            2 => Some(Event::Finish(id)),
            3 => Some(Event::IdleEnd),
            4 => Some(Event::Close),
            5 => Some(Event::Resized {
                core: event.core,
                max: event.max,
            }),
            _ => None,
        }
    }
}

/// A pool's numbers, all of one moment: `accepted = running + waiting + finished`.
#[derive(Debug, Clone, Copy, PartialEq, Eq, Hash)]
pub struct PoolNumbers {
    /// The current core size, in workers.
    pub core: u32,
    /// The current maximum size, in workers.
    pub max: u32,
    /// The capacity of the queue, in jobs.
    pub capacity: u32,
    /// The number of workers.
    pub workers: u32,
    /// The number of jobs that have a worker.
    pub running: u32,
    /// The number of jobs that wait in the queue.
    pub waiting: u32,
    /// The number of accepted submissions.
    pub accepted: u64,
    /// The number of refused submissions.
    pub refused: u64,
    /// The number of finished jobs.
    pub finished: u64,
}

impl From<PoolCounts> for PoolNumbers {
    fn from(counts: PoolCounts) -> PoolNumbers {
        PoolNumbers {
            core: counts.core,
            max: counts.max,
            capacity: counts.capacity,
            workers: counts.workers,
            running: counts.running,
            waiting: counts.waiting,
            accepted: counts.accepted,
            refused: counts.refused,
            finished: counts.finished,
        }
    }
}
