//! The host's own: a stand-in for the crate `vec1`, as far as the interner uses it.

#[derive(Clone, Debug)]
pub struct Vec1<T>(Vec<T>);

impl<T> Vec1<T> {
    pub fn of(first: T) -> Self {
        Vec1(vec![first])
    }

    pub fn push(&mut self, item: T) {
        self.0.push(item);
    }

    /// Takes the last item, unless it is the only one.
    pub fn pop(&mut self) -> Result<T, &'static str> {
        if self.0.len() == 1 { Err("a Vec1 keeps one item") } else { Ok(self.0.pop().unwrap()) }
    }

    pub fn len(&self) -> usize {
        self.0.len()
    }

    pub fn last(&self) -> &T {
        &self.0[self.0.len() - 1]
    }
}

macro_rules! vec1 {
    ($first:expr) => {
        $crate::vec1::Vec1::of($first)
    };
}
pub(crate) use vec1;
