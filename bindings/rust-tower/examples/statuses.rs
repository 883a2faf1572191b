//! What a server answers to a call without a permit: 503 at once if too many already wait, and 504 if the wait times out.
use resil::Bulkhead;
use resil_tower::{BulkheadLayer, CallError};
use std::error::Error;
use std::sync::Arc;
use std::time::Duration;
use tower::{Layer, Service, ServiceExt, service_fn};

fn status(answer: &Result<u32, CallError<&str>>) -> u16 {
    match answer {
        Ok(_) => 200,
        Err(CallError::TimedOut) => 504,
        Err(CallError::Failed(_)) => 502,
        // Full or closed: nobody has waited.
        Err(_) => 503,
    }
}

#[tokio::main(flavor = "current_thread")]
pub async fn main() -> Result<(), Box<dyn Error>> {
    let backend = Arc::new(Bulkhead::new("backend", 1)?);
    let layer = BulkheadLayer::queueing(Arc::clone(&backend))
        .longest(Duration::from_millis(20), tokio::time::sleep)
        .most_waiting(1);
    let mut service = layer.layer(service_fn(async |number: u32| Ok(number + 1)));
    let service = service.ready().await.map_err(|error| error.to_string())?;
    let permit = backend.enter()?;
    // The first waits for 20 ms, and nobody may wait after it.
    let (first, second) = tokio::join!(service.call(41), service.call(41));
    println!("{} and {}", status(&first), status(&second));
    assert_eq!((status(&first), status(&second)), (504, 503));
    drop(permit);
    assert_eq!(status(&service.call(41).await), 200);
    Ok(())
}
