//! Stands in for `derive_more`: `Debug` with `#[debug("..", ..)]` on a tuple struct of one field.

use proc_macro::TokenStream;
use proc_macro::TokenTree;

#[proc_macro_derive(Debug, attributes(debug))]
pub fn debug(item: TokenStream) -> TokenStream {
    let name = after(item.clone(), "struct").expect("a struct");
    let format = item
        .into_iter()
        .find_map(|tree| match tree {
            TokenTree::Group(attribute) => after(attribute.stream(), "debug"),
            _ => None,
        })
        .expect("a debug attribute");
    format!(
        "impl ::std::fmt::Debug for {name} {{
            fn fmt(&self, f: &mut ::std::fmt::Formatter<'_>) -> ::std::fmt::Result {{
                let _0 = &self.0;
                f.write_fmt(::std::format_args!{format})
            }}
        }}"
    )
    .parse()
    .unwrap()
}

/// The token that follows `word`.
fn after(stream: TokenStream, word: &str) -> Option<TokenTree> {
    let mut trees = stream.into_iter();
    trees.find(|tree| matches!(tree, TokenTree::Ident(ident) if ident.to_string() == word))?;
    trees.next()
}
