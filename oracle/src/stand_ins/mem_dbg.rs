//! Stands in for the derive macros of the crate `mem_dbg`, which measure memory. They derive nothing here.
//! No answer rests on it.

use proc_macro::TokenStream;

#[proc_macro_derive(MemSize)]
pub fn mem_size(_: TokenStream) -> TokenStream {
    TokenStream::new()
}

#[proc_macro_derive(MemDbg)]
pub fn mem_dbg(_: TokenStream) -> TokenStream {
    TokenStream::new()
}
