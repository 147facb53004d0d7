//! A local crate in the name of `serde`. The Rust that we hold our definitions
//! to derives `Serialize` for its report; no JSON is asked of it here, so the
//! derive gives nothing, and nothing has to be fetched to build it unchanged.

use proc_macro::TokenStream;

#[proc_macro_derive(Serialize)]
pub fn serialize(_: TokenStream) -> TokenStream {
    TokenStream::new()
}
