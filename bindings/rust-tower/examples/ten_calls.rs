//! A backend that takes three calls at a time, and ten concurrent calls: all are made if calls wait for a permit, and three if they are
//! refused.
use resil::Bulkhead;
use resil_tower::{BulkheadLayer, CallError};
use std::convert::Infallible;
use std::error::Error;
use std::sync::Arc;
use std::time::Duration;
use tokio::task::JoinSet;
use tower::{Service, ServiceBuilder, ServiceExt, service_fn};

type Answer = Result<(), CallError<Infallible>>;

// How many calls were answered, and how many were refused.
async fn counts(mut calls: JoinSet<Answer>) -> Result<(u32, u32), Box<dyn Error>> {
    let (mut answered, mut refused) = (0, 0);
    while let Some(call) = calls.join_next().await {
        match call? {
            Ok(()) => answered += 1,
            Err(CallError::Failed(error)) => return Err(error.into()),
            Err(_) => refused += 1,
        }
    }
    println!("{answered} answered, {refused} refused");
    Ok((answered, refused))
}

#[tokio::main(flavor = "current_thread")]
pub async fn main() -> Result<(), Box<dyn Error>> {
    let backend = Arc::new(Bulkhead::new("backend", 3)?);
    let answers = service_fn(async |long: Duration| {
        tokio::time::sleep(long).await;
        Ok::<(), Infallible>(())
    });

    let queueing = BulkheadLayer::queueing(Arc::clone(&backend))
        .longest(Duration::from_secs(60), tokio::time::sleep)
        .most_waiting(100);
    let service = ServiceBuilder::new().layer(queueing).service(answers);
    let mut calls = JoinSet::new();
    for _ in 0..10 {
        calls.spawn(service.clone().oneshot(Duration::from_millis(20)));
    }
    assert_eq!(counts(calls).await?, (10, 0));

    let refusing = BulkheadLayer::new(Arc::clone(&backend));
    let mut service = ServiceBuilder::new().layer(refusing).service(answers);
    let mut calls = JoinSet::new();
    for _ in 0..10 {
        calls.spawn(service.clone().oneshot(Duration::from_millis(20)));
    }
    assert_eq!(counts(calls).await?, (3, 7));

    // Giving up drops the call, and its permit is free again.
    let call = service.ready().await?.call(Duration::MAX);
    let late = tokio::time::timeout(Duration::from_millis(1), call).await;
    assert!(late.is_err());
    println!("{} of {} permits free", backend.available(), backend.max());
    assert_eq!(backend.available(), 3);
    Ok(())
}
