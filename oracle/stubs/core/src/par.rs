//! Stands in for the file that spreads work over threads: one thread, the
//! items in order, one scratch.

pub(crate) fn map_with_scratch<T, S: ?Sized, B: ?Sized, R>(
    items: &[T],
    _min_len: usize,
    scratch: &mut S,
    _fork: impl Fn(&S) -> Box<B>,
    f: impl Fn(&mut S, &T) -> R,
) -> Vec<R> {
    items.iter().map(|item| f(scratch, item)).collect()
}
