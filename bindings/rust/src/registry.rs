//! Bulkheads by name.
use crate::bulkhead::{Bulkhead, BulkheadError, is_name};
use crate::lock::locked;
use crate::observer::Observer;
use crate::texts::error_texts;
use std::collections::HashMap;
use std::collections::hash_map::Entry;
use std::fmt;
use std::panic::{RefUnwindSafe, UnwindSafe};
use std::sync::{Arc, Mutex, MutexGuard};

/// The name of the configuration that a registry is created with.
const DEFAULT_CONFIG: &str = "default";

/// Why a registry refused a call. If several reasons hold, it is the first of them. The registry is unchanged.
#[derive(Debug, Clone, Copy, PartialEq, Eq, Hash)]
#[non_exhaustive]
pub enum RegistryError {
    /// A name isn't 1 to 64 bytes of ASCII letters, digits, `-`, `_` and `.`.
    BadName,
    /// The configuration `default` is set when a registry is made, and no other may have its name.
    ReservedName,
    /// A configuration already has the name.
    NameTaken,
    /// No configuration has the name.
    NoSuchConfig,
    /// The configuration has more than 65,535 permits.
    TooManyPermits,
    /// Out of memory.
    Memory,
}

error_texts! { RegistryError {
    BadName => "a name must be 1 to 64 bytes of ASCII letters, digits, `-`, `_` and `.`",
    ReservedName => "the name `default` is reserved",
    NameTaken => "a configuration already has that name",
    NoSuchConfig => "no configuration has that name",
    TooManyPermits => "there are more than 65535 permits",
    Memory => "out of memory",
}}

impl From<BulkheadError> for RegistryError {
    fn from(error: BulkheadError) -> RegistryError {
        match error {
            BulkheadError::BadName => RegistryError::BadName,
            BulkheadError::TooManyPermits => RegistryError::TooManyPermits,
            BulkheadError::Memory => RegistryError::Memory,
        }
    }
}

/// Bulkheads by name, one for each, and named configurations, which say how many permits a bulkhead is made with.
///
/// Threads share it by reference. The first caller that asks for a name makes its bulkhead; all others get the same one. Ask once and
/// keep the `Arc`, since each call of the registry takes a lock.
///
/// A name stays until it is [removed](BulkheadRegistry::remove), and its bulkhead takes a few KiB. So use names for dependencies, which
/// are few, not for individual callers.
///
/// ```
/// let registry = resil::BulkheadRegistry::new(25);
/// registry.add_config("small", 2)?;
/// let prices = registry.bulkhead("prices")?;
/// let letters = registry.bulkhead_with("letters", "small")?;
/// assert_eq!((prices.max(), letters.max()), (25, 2));
/// # Ok::<(), resil::RegistryError>(())
/// ```
pub struct BulkheadRegistry {
    inner: Mutex<Inner>,
    observer: Option<Arc<dyn Observer>>,
}

struct Inner {
    configurations: HashMap<String, u32>,
    instances: HashMap<String, Arc<Bulkhead>>,
}

impl BulkheadRegistry {
    /// Makes a registry without bulkheads whose configuration `default` has this number of permits. A number above 65,535 is refused when
    /// a bulkhead is made with it.
    #[must_use]
    pub fn new(default_max: u32) -> BulkheadRegistry {
        BulkheadRegistry {
            inner: Mutex::new(Inner {
                configurations: HashMap::from([(DEFAULT_CONFIG.to_owned(), default_max)]),
                instances: HashMap::new(),
            }),
            observer: None,
        }
    }

    /// Returns the same registry: this observer [observes](Bulkhead::observed) every bulkhead that it makes from now on.
    #[must_use]
    pub fn observed(mut self, observer: Arc<dyn Observer>) -> BulkheadRegistry {
        self.observer = Some(observer);
        self
    }

    /// Adds a configuration of `max` permits. A number above 65,535 is refused when a bulkhead is made with it.
    ///
    /// # Errors
    ///
    /// In this order: `BadName` if the name isn't 1 to 64 bytes of ASCII letters, digits, `-`, `_` and `.`; `ReservedName` if it is
    /// `default`; `NameTaken` if a configuration already has that name.
    pub fn add_config(&self, name: &str, max: u32) -> Result<(), RegistryError> {
        if !is_name(name) {
            return Err(RegistryError::BadName);
        }
        if name == DEFAULT_CONFIG {
            return Err(RegistryError::ReservedName);
        }
        match self.inner().configurations.entry(name.to_owned()) {
            Entry::Occupied(_) => Err(RegistryError::NameTaken),
            Entry::Vacant(place) => {
                place.insert(max);
                Ok(())
            }
        }
    }

    /// Returns the bulkhead of that name. If there is none, it makes one with the configuration `default`.
    ///
    /// # Errors
    ///
    /// In this order: `BadName` if the name isn't 1 to 64 bytes of ASCII letters, digits, `-`, `_` and `.`; if a bulkhead has to be made,
    /// `TooManyPermits` and `Memory`, as in [`Bulkhead::new`].
    pub fn bulkhead(&self, name: &str) -> Result<Arc<Bulkhead>, RegistryError> {
        self.bulkhead_with(name, DEFAULT_CONFIG)
    }

    /// Returns the bulkhead of that name. If there is none, it makes one with the named configuration; if there is one, it doesn't look
    /// up the configuration.
    ///
    /// # Errors
    ///
    /// In this order: `BadName` if the bulkhead's name isn't 1 to 64 bytes of ASCII letters, digits, `-`, `_` and `.`; if a bulkhead has
    /// to be made, `NoSuchConfig` if no configuration is called `config`, then `TooManyPermits` and `Memory`, as in [`Bulkhead::new`].
    pub fn bulkhead_with(&self, name: &str, config: &str) -> Result<Arc<Bulkhead>, RegistryError> {
        if !is_name(name) {
            return Err(RegistryError::BadName);
        }
        let inner = self.inner();
        if let Some(bulkhead) = inner.instances.get(name) {
            return Ok(Arc::clone(bulkhead));
        }
        let max = inner.configurations.get(config);
        let max = *max.ok_or(RegistryError::NoSuchConfig)?;
        // The observer is called outside the lock.
        drop(inner);
        let mut bulkhead = Bulkhead::new(name, max)?;
        if let Some(observer) = &self.observer {
            bulkhead = bulkhead.observed(Arc::clone(observer));
        }
        let mut inner = self.inner();
        let reserved = inner.instances.try_reserve(1);
        reserved.map_err(|_| RegistryError::Memory)?;
        let kept = inner.instances.entry(name.to_owned());
        // Another thread may have been faster.
        Ok(Arc::clone(kept.or_insert_with(|| Arc::new(bulkhead))))
    }

    /// Removes the bulkhead of that name and returns it, or `None` if there is none. Callers that have it keep it, with its permits; you
    /// may [close](Bulkhead::close) it. The next caller that asks for the name makes a new one.
    pub fn remove(&self, name: &str) -> Option<Arc<Bulkhead>> {
        self.inner().instances.remove(name)
    }

    /// Returns all bulkheads, sorted by name in byte order.
    ///
    /// ```
    /// let registry = resil::BulkheadRegistry::new(25);
    /// registry.bulkhead("prices")?;
    /// registry.bulkhead("letters")?;
    /// let names: Vec<_> = registry.bulkheads().iter().map(|one| one.name().to_owned()).collect();
    /// assert_eq!(names, ["letters", "prices"]);
    /// # Ok::<(), resil::RegistryError>(())
    /// ```
    #[must_use]
    pub fn bulkheads(&self) -> Vec<Arc<Bulkhead>> {
        let mut all: Vec<_> = self.inner().instances.values().map(Arc::clone).collect();
        all.sort_by(|one, other| one.name().cmp(other.name()));
        all
    }

    fn inner(&self) -> MutexGuard<'_, Inner> {
        locked(&self.inner)
    }
}

// A panic of the observer leaves nothing half made.
impl UnwindSafe for BulkheadRegistry {}
impl RefUnwindSafe for BulkheadRegistry {}

impl fmt::Debug for BulkheadRegistry {
    fn fmt(&self, f: &mut fmt::Formatter<'_>) -> fmt::Result {
        let bulkheads = self.bulkheads();
        let inner = self.inner();
        let mut configurations: Vec<_> = inner.configurations.iter().collect();
        configurations.sort();
        f.debug_struct("BulkheadRegistry")
            .field("configurations", &configurations)
            .field("bulkheads", &bulkheads)
            .finish()
    }
}
