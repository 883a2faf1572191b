#![doc = include_str!("../README.md")]
#![forbid(unsafe_code)]
#![warn(missing_docs)]

mod future;
mod layer;
mod policy;
mod queueing;
mod service;

pub use future::ResponseFuture;
pub use layer::BulkheadLayer;
pub use policy::{CloneRequest, EveryClone, RetryPolicy, Wait};
pub use queueing::{QueueingFuture, QueueingLayer, QueueingService};
pub use resil::CallError;
pub use service::BulkheadService;
