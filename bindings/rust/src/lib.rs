#![doc = include_str!("../README.md")]
#![warn(missing_docs)]

#[cfg(test)]
extern crate self as resil;
mod bulkhead;
mod call_error;
mod decorators;
pub mod guide {
    #![doc = include_str!("guide.md")]
}
mod interval;
mod library;
mod lock;
pub mod metrics;
mod moment;
mod observer;
pub mod pass;
mod record;
mod registry;
mod retry;
pub mod rule;
mod texts;
mod thread_number;
mod thread_pool;

pub use bulkhead::NoPermit::{Closed, Full};
pub use bulkhead::{
    Acquire, AcquireMany, Bulkhead, BulkheadError, BulkheadNumbers, NoPermit, OwnedPermit,
    OwnedPermits, Permit, Permits,
};
pub use call_error::CallError;
pub use decorators::{AsyncDecorators, AsyncLayer, Decorators, KeptLayer, Layer};
pub use interval::{Interval, IntervalError};
pub use observer::{Observer, WaitEnd};
pub use registry::{BulkheadRegistry, RegistryError};
pub use retry::{Attempts, ErrorTest, EveryError, NoValue, Retry, ValueTest, WaitBy, Waits};
#[doc(inline)]
pub use rule::{PoolError, PoolNumbers, Reply};
pub use thread_pool::{
    JobError, JobHandle, JobPanic, Refusal, Refused, ThreadPool, ThreadPoolBuilder, Unstarted,
};

// Names from version 0.3.
#[doc(hidden)]
pub use pass::{Pass, PassPermit};
#[doc(hidden)]
pub use rule::{Event, JobId, Origin, Picked, PoolRule, PoolRuleBuilder};
