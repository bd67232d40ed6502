//! What a call reads, set amid other contents: an answer that hangs on those is no answer to the slice.

/// So many before and behind.
const AROUND: usize = 64;

/// A slice amid others of these contents.
pub fn amid<T: Copy>(inner: &[T], around: T) -> Vec<T> {
    [&[around; AROUND], inner, &[around; AROUND]].concat()
}

/// The same slice again.
pub fn within<T>(around: &[T]) -> &[T] {
    &around[AROUND..around.len() - AROUND]
}
