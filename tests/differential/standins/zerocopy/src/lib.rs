//! Stands in for `zerocopy`: the derives check nothing, since only wild's own types use them.

use proc_macro::TokenStream;

#[proc_macro_derive(FromBytes)]
pub fn from_bytes(_item: TokenStream) -> TokenStream {
    TokenStream::new()
}

#[proc_macro_derive(IntoBytes)]
pub fn into_bytes(_item: TokenStream) -> TokenStream {
    TokenStream::new()
}

/// Compiled in `PerSymbolFlags::borrow_atomic`, which the comparison never calls.
#[proc_macro]
pub fn transmute_mut(value: TokenStream) -> TokenStream {
    format!("unsafe {{ ::std::mem::transmute({value}) }}")
        .parse()
        .unwrap()
}
