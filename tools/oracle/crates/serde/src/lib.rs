//! Derives that write nothing.

extern crate proc_macro;
use proc_macro::TokenStream;
#[proc_macro_derive(Serialize)]
pub fn s(_: TokenStream) -> TokenStream {
    TokenStream::new()
}
#[proc_macro_derive(Deserialize)]
pub fn d(_: TokenStream) -> TokenStream {
    TokenStream::new()
}
