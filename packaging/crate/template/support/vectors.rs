//! The macro for vectors that is passed the allocator.

/// `vec![in alloc; ..]`.
macro_rules! vec_in {
    (in $alloc:expr; $($items:tt)*) => {
        $crate::support::vec::Vec::from_std($alloc, std::vec![$($items)*])
    };
}

pub(crate) use vec_in;
