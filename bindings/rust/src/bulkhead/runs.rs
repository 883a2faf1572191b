//! Permits that are held together.
use super::seats::Place;

/// `count` permits held at one place.
#[derive(Clone, Copy)]
pub(super) struct Run {
    pub(super) place: Place,
    pub(super) count: u32,
}

/// Permits that are held together: a count for each place. Those that one thread takes at once form one run, however many they are.
#[derive(Default)]
pub(super) struct Runs {
    runs: Vec<Run>,
    count: u32,
}

impl Runs {
    pub(super) fn count(&self) -> u32 {
        self.count
    }

    pub(super) fn push(&mut self, run: Run) {
        self.count += run.count;
        match self.runs.last_mut() {
            Some(last) if last.place == run.place => last.count += run.count,
            _ => self.runs.push(run),
        }
    }

    /// Takes up to `most` of the permits that were added last.
    pub(super) fn pop(&mut self, most: u32) -> Option<Run> {
        let last = self.runs.last_mut()?;
        let count = last.count.min(most);
        let place = last.place;
        last.count -= count;
        if last.count == 0 {
            self.runs.pop();
        }
        self.count -= count;
        Some(Run { place, count })
    }

    /// Splits off `count` permits, or all if there are fewer.
    pub(super) fn split(&mut self, count: u32) -> Runs {
        let mut parts = Runs::default();
        while parts.count < count {
            let Some(run) = self.pop(count - parts.count) else {
                break;
            };
            parts.push(run);
        }
        parts
    }

    pub(super) fn merge(&mut self, others: Runs) {
        others.runs.into_iter().for_each(|run| self.push(run));
    }

    pub(super) fn iter(&self) -> impl Iterator<Item = Run> {
        self.runs.iter().copied()
    }

    /// The same permits, with each place replaced by what this function returns for it.
    pub(super) fn map(mut self, place: impl Fn(Place) -> Place) -> Runs {
        for run in &mut self.runs {
            run.place = place(run.place);
        }
        self
    }
}
