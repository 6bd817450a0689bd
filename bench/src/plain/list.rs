//! A list with its whole room inside.

/// At most `N` items, taken from no heap.
#[derive(Clone, Copy)]
pub struct List<T, const N: usize> {
    items: [T; N],
    len: usize,
}

impl<T: Copy + Default, const N: usize> List<T, N> {
    pub fn new() -> List<T, N> {
        List {
            items: [T::default(); N],
            len: 0,
        }
    }

    pub fn push(&mut self, item: T) {
        self.items[self.len] = item;
        self.len += 1;
    }

    /// A copy of these items, as many as there is room for.
    pub fn copied(items: &[T]) -> List<T, N> {
        let mut list = List::new();
        list.len = items.len().min(N);
        list.items[..list.len].copy_from_slice(&items[..list.len]);
        list
    }

    pub fn as_slice(&self) -> &[T] {
        &self.items[..self.len]
    }
}

impl<T: Copy + Default, const N: usize> Default for List<T, N> {
    fn default() -> List<T, N> {
        List::new()
    }
}
