//! Shell for the original's parallel map: one thread, in order.

pub fn map_with_scratch<T, S, R>(
    items: &[T],
    _least: usize,
    scratch: &mut S,
    _more: impl Fn(&S) -> S,
    each: impl Fn(&mut S, &T) -> R,
) -> Vec<R> {
    items.iter().map(|item| each(scratch, item)).collect()
}
