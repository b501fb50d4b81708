//! Items sorted into numbered groups, each group a slice.

#[derive(Clone, Debug)]
pub struct Groups<T> {
    /// Where each group starts, and at the end where the last one ends.
    starts: Vec<u32>,
    items: Vec<T>,
}

impl Groups<u32> {
    /// The positions of the items in their groups, in ascending order. Items without a group are left out.
    pub fn of(count: usize, groups: impl Iterator<Item = Option<usize>> + Clone) -> Groups<u32> {
        let mut starts = vec![0; count + 1];
        for group in groups.clone().flatten() {
            starts[group + 1] += 1;
        }
        for group in 0..count {
            starts[group + 1] += starts[group];
        }
        let mut next = starts.clone();
        let mut items = vec![0; starts[count] as usize];
        for (position, group) in groups.enumerate() {
            if let Some(group) = group {
                items[next[group] as usize] = position as u32;
                next[group] += 1;
            }
        }
        Groups { starts, items }
    }
}

impl<T> Groups<T> {
    pub fn get(&self, group: usize) -> &[T] {
        &self.items[self.starts[group] as usize..self.starts[group + 1] as usize]
    }

    pub fn map<U>(self, f: impl FnMut(T) -> U) -> Groups<U> {
        Groups { starts: self.starts, items: self.items.into_iter().map(f).collect() }
    }
}
