//! The attribute of the stand-in for `tracing`: the function stays as it is.

use proc_macro::TokenStream;

#[proc_macro_attribute]
pub fn instrument(_how: TokenStream, function: TokenStream) -> TokenStream {
    function
}
