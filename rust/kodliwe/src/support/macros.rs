//! The macro for texts that is passed the allocator.

/// `format!(in alloc; ..)`, whose allocation may fail in Rattle.
macro_rules! format_in {
    (in $alloc:expr; $($text:tt)*) => {{
        let _ = $alloc;
        Ok::<_, $crate::support::alloc::AllocError>(
            $crate::support::string::String::from_std(std::format!($($text)*)),
        )
    }};
}

pub(crate) use format_in as format;
