//! Stand-in for serde: the two derives the published files name, deriving nothing.

use proc_macro::TokenStream;

/// Takes the type and its `serde` attributes, adds no code.
#[proc_macro_derive(Serialize, attributes(serde))]
pub fn serialize(_item: TokenStream) -> TokenStream {
    TokenStream::new()
}

/// Takes the type and its `serde` attributes, adds no code.
#[proc_macro_derive(Deserialize, attributes(serde))]
pub fn deserialize(_item: TokenStream) -> TokenStream {
    TokenStream::new()
}
