//! Work on several threads.

/// The names that the sources import.
pub mod prelude {
    use crate::alloc::{AllocError, Global};
    use crate::thread::Threads;
    use ::rayon::slice::ParallelSliceMut;
    use ::rayon::{ThreadPool, ThreadPoolBuilder};
    use std::sync::OnceLock;

    /// The threads that share the work; none if they can't be started. Rayon's own pool would end the program then.
    fn pool() -> Option<&'static ThreadPool> {
        static POOL: OnceLock<Option<ThreadPool>> = OnceLock::new();
        POOL.get_or_init(|| ThreadPoolBuilder::new().build().ok()).as_ref()
    }

    /// Sorts, equal items in their order. As theirs, but if memory runs out this ends the program.
    pub fn par_sort<R: Threads, T: Ord + Send>(_: &R, _: Global, items: &mut [T]) -> Result<(), AllocError> {
        match pool() {
            Some(pool) => pool.install(|| items.par_sort()),
            None => items.sort(),
        }
        Ok(())
    }

    /// Sorts by a key, equal items in their order. As `par_sort`.
    pub fn par_sort_by_key<R, T, K, F>(_: &R, _: Global, items: &mut [T], key: F) -> Result<(), AllocError>
    where
        R: Threads,
        T: Send,
        K: Ord,
        F: Fn(&T) -> K + Sync,
    {
        match pool() {
            Some(pool) => pool.install(|| items.par_sort_by_key(&key)),
            None => items.sort_by_key(key),
        }
        Ok(())
    }
}
