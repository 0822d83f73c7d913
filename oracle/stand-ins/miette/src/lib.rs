//! Stands in for the crate `miette`: the span type and a derive that does nothing, nothing more.

pub use miette_derive::Diagnostic;

/// A place in the text: offset and length, in bytes.
#[derive(Clone, Copy, Debug, PartialEq, Eq)]
pub struct SourceSpan {
    offset: usize,
    length: usize,
}

impl SourceSpan {
    pub fn offset(&self) -> usize {
        self.offset
    }

    // No is_empty: the published type is asked for its length alone.
    #[allow(clippy::len_without_is_empty)]
    pub fn len(&self) -> usize {
        self.length
    }
}

impl From<(usize, usize)> for SourceSpan {
    fn from((offset, length): (usize, usize)) -> Self {
        SourceSpan { offset, length }
    }
}
