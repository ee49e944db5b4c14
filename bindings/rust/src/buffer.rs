//! The memory that calls are lent to write into.

/// `room` entries, or none where the memory cannot be had: the call then refuses with
/// [`Error::ShortBuffer`](crate::Error::ShortBuffer).
pub(crate) fn buffer<T: Copy + Default>(room: usize) -> Vec<T> {
    let had = Vec::<T>::new().try_reserve_exact(room).is_ok();
    vec![T::default(); if had { room } else { 0 }]
}

/// The first `count` entries, in no more memory than they take.
pub(crate) fn kept<T>(mut entries: Vec<T>, count: usize) -> Vec<T> {
    entries.truncate(count);
    entries.shrink_to_fit();
    entries
}
