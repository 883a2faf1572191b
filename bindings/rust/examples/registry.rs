//! Bulkheads by name: everyone who asks for a name gets the same one.
use resil::{BulkheadRegistry, RegistryError};
use std::error::Error;
use std::sync::Arc;

pub fn main() -> Result<(), Box<dyn Error>> {
    let registry = BulkheadRegistry::new(25);
    registry.add_config("small", 2)?;
    let prices = registry.bulkhead("prices")?;
    let letters = registry.bulkhead_with("letters", "small")?;
    assert_eq!((prices.max(), letters.max()), (25, 2));

    // A known name keeps its bulkhead, whichever configuration is passed with it.
    assert!(Arc::ptr_eq(
        &prices,
        &registry.bulkhead_with("prices", "small")?
    ));

    let refused = registry.bulkhead("no name").err();
    assert_eq!(refused, Some(RegistryError::BadName));
    let refused = registry.bulkhead_with("parcels", "large").err();
    assert_eq!(refused, Some(RegistryError::NoSuchConfig));
    let refused = registry.add_config("small", 3);
    assert_eq!(refused, Err(RegistryError::NameTaken));
    println!("{} is kept beside {}", prices.name(), letters.name());
    Ok(())
}
