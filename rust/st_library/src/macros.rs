//! The macros that take the runtime or the allocator before their own words. Each is Rust's own of the same name.

/// Theirs is only for tests, as are `assert_eq` and `panic`.
#[macro_export]
macro_rules! assert {
    ($rt:expr; $($rest:tt)*) => {{ let _ = &$rt; ::std::assert!($($rest)*) }};
}

/// See `assert`.
#[macro_export]
macro_rules! assert_eq {
    ($rt:expr; $($rest:tt)*) => {{ let _ = &$rt; ::std::assert_eq!($($rest)*) }};
}

/// See `assert`.
#[macro_export]
macro_rules! panic {
    ($rt:expr; $($rest:tt)*) => {{ let _ = &$rt; ::std::panic!($($rest)*) }};
}

/// A list of n copies. As theirs.
#[macro_export]
macro_rules! vec {
    (in $alloc:expr; $item:expr; $n:expr) => { $crate::vec::Vec::filled($alloc, $item, $n) };
}

/// A text. Theirs returns an error if memory runs out, and this ends the program.
#[macro_export]
macro_rules! format {
    (in $alloc:expr; $($rest:tt)*) => {{ let _ = &$alloc; $crate::fmt::written(::std::format!($($rest)*)) }};
}
