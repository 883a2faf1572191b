//! At most two concurrent calls of a backend; a third one is refused at once.
use resil::{Bulkhead, Full};

pub fn main() -> Result<(), Box<dyn std::error::Error>> {
    let backend = Bulkhead::new("backend", 2)?;
    let first = backend.enter()?;
    let second = backend.enter()?;
    assert_eq!(backend.call(|| "answer"), Err(Full));
    drop(first);
    assert_eq!(backend.call(|| "answer"), Ok("answer"));
    drop(second);
    println!(
        "{} has {} of {} permits free",
        backend.name(),
        backend.available(),
        backend.max()
    );
    Ok(())
}
