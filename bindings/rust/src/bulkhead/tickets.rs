//! A map ordered by ticket.
use std::collections::VecDeque;

/// Values in the order of their tickets. Any of them can be removed.
///
/// A removal from the middle leaves a gap. Once most entries are gaps, they are closed. So a removal takes the same time however many
/// entries there are, apart from the search, and the memory of removed entries is released.
pub(super) struct Tickets<T> {
    // None in a gap. The first entry is never a gap.
    entries: VecDeque<(u64, Option<T>)>,
    gaps: usize,
}

impl<T> Default for Tickets<T> {
    fn default() -> Tickets<T> {
        Tickets {
            entries: VecDeque::new(),
            gaps: 0,
        }
    }
}

impl<T> Tickets<T> {
    // At or below this capacity the memory is kept.
    const FEW: usize = 64;

    pub(super) fn is_empty(&self) -> bool {
        self.entries.is_empty()
    }

    /// The ticket must be above all those present.
    pub(super) fn push(&mut self, ticket: u64, value: T) {
        self.entries.push_back((ticket, Some(value)));
    }

    pub(super) fn pop_first(&mut self) -> Option<(u64, T)> {
        let (ticket, value) = self.entries.pop_front()?;
        self.close_gaps();
        Some((ticket, value?))
    }

    pub(super) fn first_mut(&mut self) -> Option<(u64, &mut T)> {
        let (ticket, value) = self.entries.front_mut()?;
        Some((*ticket, value.as_mut()?))
    }

    pub(super) fn get_mut(&mut self, ticket: u64) -> Option<&mut T> {
        let index = self.index(ticket)?;
        self.entries[index].1.as_mut()
    }

    pub(super) fn remove(&mut self, ticket: u64) -> Option<T> {
        let index = self.index(ticket)?;
        let value = self.entries[index].1.take()?;
        self.gaps += 1;
        self.close_gaps();
        Some(value)
    }

    pub(super) fn into_values(self) -> impl Iterator<Item = T> {
        self.entries.into_iter().filter_map(|(_, value)| value)
    }

    fn index(&self, ticket: u64) -> Option<usize> {
        let index = self.entries.binary_search_by_key(&ticket, |entry| entry.0);
        index.ok()
    }

    fn close_gaps(&mut self) {
        let is_gap = |entry: &(u64, Option<T>)| entry.1.is_none();
        while self.entries.front().is_some_and(is_gap) {
            self.entries.pop_front();
            self.gaps -= 1;
        }
        if self.gaps > self.entries.len() / 2 {
            self.entries.retain(|entry| !is_gap(entry));
            self.gaps = 0;
        }
        let room = self.entries.capacity();
        if room > Self::FEW && self.entries.len() < room / 4 {
            self.entries.shrink_to(self.entries.len() * 2);
        }
    }
}
