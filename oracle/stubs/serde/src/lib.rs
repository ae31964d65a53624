//! Stands where docs/src names serde. `Deserialize` adds nothing. `Serialize`
//! adds nothing either, but at the one struct named below it adds a child
//! module to the file that the struct stands in: a child sees its parent's
//! private items, and no line of the file changes.

use proc_macro::{TokenStream, TokenTree};

/// The struct, and the file of probes/ that becomes the child module.
const PROBES: &[(&str, &str)] = &[("SaddlePointConfig", "saddle_point.rs")];

/// The name after `struct` or `enum`.
fn name(item: TokenStream) -> String {
    let mut after = false;
    for token in item {
        if let TokenTree::Ident(word) = token {
            let word = word.to_string();
            if after {
                return word;
            }
            after = word == "struct" || word == "enum";
        }
    }
    String::new()
}

#[proc_macro_derive(Serialize, attributes(serde))]
pub fn serialize(item: TokenStream) -> TokenStream {
    let name = name(item);
    for (at, file) in PROBES {
        if *at == name {
            return format!(
                "#[doc(hidden)] #[allow(missing_docs)] pub mod oracle_probe {{ \
                 include!(concat!(env!(\"CARGO_MANIFEST_DIR\"), \"/probes/{file}\")); }}"
            )
            .parse()
            .expect("the child module is a module");
        }
    }
    TokenStream::new()
}

#[proc_macro_derive(Deserialize, attributes(serde))]
pub fn deserialize(_item: TokenStream) -> TokenStream {
    TokenStream::new()
}
