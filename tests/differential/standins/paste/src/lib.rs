//! Stands in for `paste`: joins the words of `[<A _ B>]` into one name.

use proc_macro::Delimiter;
use proc_macro::Group;
use proc_macro::Ident;
use proc_macro::TokenStream;
use proc_macro::TokenTree;

#[proc_macro]
pub fn paste(input: TokenStream) -> TokenStream {
    input
        .into_iter()
        .map(|tree| match tree {
            TokenTree::Group(group) if group.delimiter() == Delimiter::Bracket => join(&group),
            other => other,
        })
        .collect()
}

fn join(group: &Group) -> TokenTree {
    let words = group.stream().into_iter().filter_map(|tree| match tree {
        TokenTree::Ident(word) => Some(word.to_string()),
        _ => None,
    });
    Ident::new(&words.collect::<String>(), group.span()).into()
}
