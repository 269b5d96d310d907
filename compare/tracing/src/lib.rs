//! Our stand-in for the crate `tracing`: a span that traces nothing.

pub struct Span;

/// Held for as long as the span lasts.
pub struct EnteredSpan;

impl Span {
    pub fn entered(self) -> EnteredSpan {
        EnteredSpan
    }
}

#[macro_export]
macro_rules! info_span {
    ($name:expr) => {
        $crate::Span
    };
}
