//! Stands in for the crate `turso_macros`: a byte slice matched ignoring ASCII case, nothing more.

/// The arm whose text equals the word but for the case of ASCII letters, else the last arm.
#[macro_export]
macro_rules! match_ignore_ascii_case {
    (match $word:ident { $($text:literal => $kind:expr,)* _ => $other:expr $(,)? }) => {
        match () {
            $(() if $word.eq_ignore_ascii_case($text) => $kind,)*
            () => $other,
        }
    };
}
