//! For operators: taking permits out of use, and putting them back.
//!
//! The bulkhead itself holds the retired permits. Owed permits count as wanted, just as waiters do. So a caller that gives a permit back
//! takes the slow path, which retires the permit instead of releasing it or passing it on.
use super::Bulkhead;
use super::row::{Row, wake_all};
use crate::lock::locked;
use crate::thread_number;
use std::sync::atomic::Ordering;

impl Bulkhead {
    /// Retires free permits, up to `count`, and returns how many it retired. They aren't in use until they are raised again. It doesn't
    /// wait for held permits, and other calls may take permits in between. While tasks wait, permits may hardly ever be free, since one
    /// that is given back passes straight to a waiter: see [`shrink`](Bulkhead::shrink).
    ///
    /// ```
    /// # let backend = resil::Bulkhead::new("backend", 3)?;
    /// assert_eq!((backend.retire(2), backend.available()), (2, 1));
    /// assert_eq!((backend.raise(2), backend.available()), (2, 3));
    /// # Ok::<(), Box<dyn std::error::Error>>(())
    /// ```
    pub fn retire(&self, count: u32) -> u32 {
        // Free permits go to owed ones first.
        let one = |row: &mut Row| row.owed == 0 && self.retire_one(row);
        let mut retired = 0;
        while retired < count && one(&mut locked(&self.gate)) {
            retired += 1;
        }
        retired
    }

    /// Takes `count` permits out of use, even while others wait. It retires the free ones, returns how many those are, and owes the rest,
    /// up to the number that are held. As long as one is owed, a permit that is given back is retired before any waiter gets it. One that
    /// is [forgotten](crate::OwnedPermit::forget) or leaked is never retired: see [`write_off`](Bulkhead::write_off).
    ///
    /// ```
    /// # let backend = resil::Bulkhead::new("backend", 3)?;
    /// let permit = backend.enter()?;
    /// assert_eq!((backend.shrink(3), backend.owed()), (2, 1));
    /// drop(permit);
    /// assert_eq!((backend.retired(), backend.owed()), (3, 0));
    /// # Ok::<(), Box<dyn std::error::Error>>(())
    /// ```
    pub fn shrink(&self, count: u32) -> u32 {
        let mut row = locked(&self.gate);
        let gone = row.retired() + row.owed + row.written_off;
        let owes = count.min(self.max.saturating_sub(gone));
        // They are owed before the search for a free one begins.
        row.owed += owes;
        self.wanted.fetch_add(owes as usize, Ordering::SeqCst);
        self.pay(&mut row)
    }

    /// The number of owed permits: each is retired when it is given back.
    ///
    /// ```
    /// # let backend = resil::Bulkhead::new("backend", 1)?;
    /// let permit = backend.enter()?;
    /// assert_eq!((backend.shrink(1), backend.owed()), (0, 1));
    /// # Ok::<(), Box<dyn std::error::Error>>(())
    /// ```
    pub fn owed(&self) -> u32 {
        locked(&self.gate).owed
    }

    /// Puts up to `count` permits back into use, and returns how many. It first cancels [owed](Bulkhead::owed) ones, then frees retired
    /// ones, no matter which thread retired them.
    ///
    /// ```
    /// # let backend = resil::Bulkhead::new("backend", 2)?;
    /// let _permit = backend.enter()?;
    /// assert_eq!((backend.shrink(2), backend.available()), (1, 0));
    /// // One is no longer owed, and the other is free.
    /// assert_eq!((backend.raise(2), backend.available()), (2, 1));
    /// # Ok::<(), Box<dyn std::error::Error>>(())
    /// ```
    pub fn raise(&self, count: u32) -> u32 {
        let mut row = locked(&self.gate);
        let cancelled = self.cancel(&mut row, count);
        let raised = (count - cancelled).min(row.retired());
        let kept = row.retired.len() - raised as usize;
        for place in row.retired.drain(kept..) {
            self.seats.release(place);
        }
        let tasks = self.hand_on_all(&mut row);
        drop(row);
        self.freed.notify_all();
        wake_all(tasks);
        cancelled + raised
    }

    /// Writes off [owed](Bulkhead::owed) permits that never come back because they were forgotten or leaked: up to `count` of them, and
    /// returns how many. From now on they are neither owed nor retired, so [`raise`](Bulkhead::raise) counts only those that it frees,
    /// and [`shrink`](Bulkhead::shrink) doesn't owe them again. If one does come back, it is in use again.
    ///
    /// ```
    /// # use std::sync::Arc;
    /// let backend = Arc::new(resil::Bulkhead::new("backend", 2)?);
    /// backend.enter_owned()?.forget();
    /// assert_eq!((backend.shrink(2), backend.owed()), (1, 1));
    /// assert_eq!((backend.write_off(1), backend.owed()), (1, 0));
    /// # Ok::<(), Box<dyn std::error::Error>>(())
    /// ```
    pub fn write_off(&self, count: u32) -> u32 {
        let mut row = locked(&self.gate);
        let gone = self.cancel(&mut row, count);
        row.written_off += gone;
        gone
    }

    /// The number of retired permits.
    pub fn retired(&self) -> u32 {
        locked(&self.gate).retired()
    }

    // Retires a free permit, and returns whether there was one. A spare pass keeps it, so that no thread loses its seat.
    fn retire_one(&self, row: &mut Row) -> bool {
        let taken = self.seats.acquire_spare(thread_number::current());
        row.retired.extend(taken);
        taken.is_ok()
    }

    /// Cancels up to `count` owed permits, and returns how many.
    pub(super) fn cancel(&self, row: &mut Row, count: u32) -> u32 {
        let cancelled = count.min(row.owed);
        row.owed -= cancelled;
        self.wanted.fetch_sub(cancelled as usize, Ordering::SeqCst);
        cancelled
    }

    /// Retires free permits to pay for owed ones, and returns how many.
    pub(super) fn pay(&self, row: &mut Row) -> u32 {
        let mut paid = 0;
        while row.owed > 0 && self.retire_one(row) {
            paid += self.cancel(row, 1);
        }
        paid
    }
}
