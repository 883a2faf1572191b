//! The random loads of tests/recording, for recorded pools whose jobs come and end without the lock all the same.
use super::super::{ThreadPool, ThreadPoolBuilder};
use crate::rule::PoolError;

#[path = "../../../tests/common/mod.rs"]
mod common;
#[path = "../../../tests/recording/loads.rs"]
mod random;
#[path = "../../../tests/recording/text.rs"]
mod text;

fn opened(mut builder: ThreadPoolBuilder) -> Result<ThreadPool, PoolError> {
    builder.kind.by_lock = false;
    builder.open()
}
