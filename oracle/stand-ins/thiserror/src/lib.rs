//! Stands in for the crate `thiserror`: a derive that takes its attribute and writes no code, nothing more.

use proc_macro::TokenStream;

#[proc_macro_derive(Error, attributes(error))]
pub fn error(_: TokenStream) -> TokenStream {
    TokenStream::new()
}
