//! A permit that moves into a thread, one that is waited for, and fewer permits for a while.
use resil::{Bulkhead, Full};
use std::error::Error;
use std::sync::Arc;
use std::thread;
use std::time::Duration;

pub fn main() -> Result<(), Box<dyn Error>> {
    let backend = Arc::new(Bulkhead::new("backend", 1)?);
    let permit = backend.enter_owned()?;
    let call = thread::spawn(move || {
        let _permit = permit;
        "answer"
    });
    // A caller that finds no permit may block until there is one.
    let permit = backend.enter_within(Duration::from_secs(10))?;
    assert_eq!(backend.enter_within(Duration::ZERO).err(), Some(Full));
    drop(permit);
    assert_eq!(call.join().map_err(|_| "the call panicked")?, "answer");

    // While the backend has problems, no call goes to it.
    assert_eq!(backend.retire(1), 1);
    assert_eq!(backend.call(|| "answer"), Err(Full));
    assert_eq!(backend.raise(1), 1);
    assert_eq!(backend.call(|| "answer"), Ok("answer"));
    println!(
        "{} of {} permits are free",
        backend.available(),
        backend.max()
    );
    Ok(())
}
