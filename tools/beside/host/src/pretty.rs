//! The host's own: a stand-in for the crate `pretty`. It puts texts one after the other.

use std::io::Write;
use std::marker::PhantomData;

pub struct RcDoc<'a, A> {
    text: String,
    marks: PhantomData<&'a A>,
}

impl<'a, A> RcDoc<'a, A> {
    pub fn text(text: impl Into<String>) -> Self {
        RcDoc { text: text.into(), marks: PhantomData }
    }

    pub fn line() -> Self {
        Self::text("\n")
    }

    pub fn append(self, other: Self) -> Self {
        Self::text(self.text + &other.text)
    }

    pub fn nest(self, _offset: isize) -> Self {
        self
    }

    pub fn render(&self, _width: usize, out: &mut Vec<u8>) -> std::io::Result<()> {
        out.write_all(self.text.as_bytes())
    }
}
