//! What the original takes from the crate of this name: of two bodies, the one for compilers from 1.84 on is kept.

extern crate proc_macro;

use proc_macro::TokenStream;

#[proc_macro_attribute]
pub fn since(_version: TokenStream, item: TokenStream) -> TokenStream {
    item
}

#[proc_macro_attribute]
pub fn before(_version: TokenStream, _item: TokenStream) -> TokenStream {
    TokenStream::new()
}
