//! Why a job has no answer.
use std::any::Any;
use std::error::Error;
use std::fmt;
use std::sync::{Mutex, PoisonError};

/// Why a job has no answer.
#[derive(Debug, PartialEq)]
#[non_exhaustive]
pub enum JobError {
    /// The function panicked.
    Panicked(JobPanic),
    /// The pool was closed before the job began, and then its holder dropped the job.
    Cancelled,
}

impl JobError {
    pub(super) fn panicked(payload: Box<dyn Any + Send>) -> JobError {
        JobError::Panicked(JobPanic::new(payload))
    }
}

impl fmt::Display for JobError {
    fn fmt(&self, f: &mut fmt::Formatter<'_>) -> fmt::Result {
        match self {
            JobError::Cancelled => f.write_str("the job was cancelled"),
            JobError::Panicked(panic) => match panic.message() {
                Some(message) => write!(f, "the job panicked: {message}"),
                None => f.write_str("the job panicked"),
            },
        }
    }
}

impl Error for JobError {}

/// The panic of a job's function, with its payload.
pub struct JobPanic {
    message: Option<String>,
    // A payload may move to another thread but not be shared, so only its owner accesses it.
    payload: Mutex<Box<dyn Any + Send>>,
}

impl JobPanic {
    fn new(payload: Box<dyn Any + Send>) -> JobPanic {
        let text = payload.downcast_ref::<&str>().copied();
        let text = text.or_else(|| payload.downcast_ref::<String>().map(String::as_str));
        JobPanic {
            message: text.map(str::to_owned),
            payload: Mutex::new(payload),
        }
    }

    /// The message, if the payload is a string.
    #[must_use]
    pub fn message(&self) -> Option<&str> {
        self.message.as_deref()
    }

    /// The payload, for [`resume_unwind`](std::panic::resume_unwind).
    #[must_use]
    pub fn into_payload(self) -> Box<dyn Any + Send> {
        let payload = self.payload.into_inner();
        payload.unwrap_or_else(PoisonError::into_inner)
    }
}

/// Equal if both have the same message. Payloads that aren't strings aren't compared: such a panic equals no other.
impl PartialEq for JobPanic {
    fn eq(&self, other: &JobPanic) -> bool {
        self.message.is_some() && self.message == other.message
    }
}

impl fmt::Debug for JobPanic {
    fn fmt(&self, f: &mut fmt::Formatter<'_>) -> fmt::Result {
        f.debug_struct("JobPanic")
            .field("message", &self.message)
            .finish_non_exhaustive()
    }
}
