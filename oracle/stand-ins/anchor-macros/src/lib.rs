//! Stands in for the framework's attributes. Accounts are plain memory here, so the
//! attributes only add the derives that the original's code relies on.

use proc_macro::{TokenStream, TokenTree};

/// `#[account]`: plain data; with `zero_copy` it is read and written in place.
#[proc_macro_attribute]
pub fn account(arguments: TokenStream, item: TokenStream) -> TokenStream {
    let in_place = arguments.to_string().contains("zero_copy");
    before(item, if in_place { "#[derive(Clone, Copy)]" } else { "#[derive(Clone)]" })
}

/// `#[zero_copy(unsafe)]`: a part of an account that is read and written in place.
#[proc_macro_attribute]
pub fn zero_copy(_arguments: TokenStream, item: TokenStream) -> TokenStream {
    before(item, "#[derive(Clone, Copy)]")
}

/// `#[event]`: plain data.
#[proc_macro_attribute]
pub fn event(_arguments: TokenStream, item: TokenStream) -> TokenStream {
    before(item, "#[derive(Clone)]")
}

/// `#[error_code]`: an enum whose cases become errors.
#[proc_macro_attribute]
pub fn error_code(_arguments: TokenStream, item: TokenStream) -> TokenStream {
    before(item, "#[derive(Clone, Copy, Debug, PartialEq, Eq, ::anchor_lang::ErrorCase)]")
}

/// The step from a case of an `#[error_code]` enum to the framework's error.
#[proc_macro_derive(ErrorCase, attributes(msg))]
pub fn error_case(item: TokenStream) -> TokenStream {
    let name = name_after("enum", item);
    format!(
        "impl From<{name}> for ::anchor_lang::error::Error {{
            fn from(case: {name}) -> Self {{ Self::Named(case as u32) }}
        }}"
    )
    .parse()
    .expect("the step is written as Rust")
}

/// `#[derive(Accounts)]`: the runner hands over the right accounts, so nothing is checked.
#[proc_macro_derive(Accounts, attributes(account))]
pub fn accounts(_item: TokenStream) -> TokenStream {
    TokenStream::new()
}

/// No account is written out as bytes here.
#[proc_macro_derive(AnchorSerialize)]
pub fn anchor_serialize(_item: TokenStream) -> TokenStream {
    TokenStream::new()
}

/// No account is read from bytes here.
#[proc_macro_derive(AnchorDeserialize)]
pub fn anchor_deserialize(_item: TokenStream) -> TokenStream {
    TokenStream::new()
}

fn before(item: TokenStream, attribute: &str) -> TokenStream {
    let mut all: TokenStream = attribute.parse().expect("the attribute is written as Rust");
    all.extend(item);
    all
}

fn name_after(keyword: &str, item: TokenStream) -> String {
    let mut tokens = item.into_iter();
    tokens
        .find(|token| matches!(token, TokenTree::Ident(word) if word.to_string() == keyword))
        .and_then(|_| tokens.next())
        .expect("the keyword stands before the name")
        .to_string()
}
