//! Stands for `serde_derive`: `Serialize` derives nothing, `Deserialize` an implementation that is never called.

use proc_macro::TokenStream;

#[proc_macro_derive(Serialize)]
pub fn serialize(_: TokenStream) -> TokenStream {
    TokenStream::new()
}

#[proc_macro_derive(Deserialize)]
pub fn deserialize(item: TokenStream) -> TokenStream {
    let (name, parameters) = struct_head(item);
    let code = format!(
        "impl<'de, {parameters}> serde::Deserialize<'de> for {name}<{parameters}> {{
            fn deserialize<D: serde::Deserializer<'de>>(_: D) -> Result<Self, D::Error> {{ unimplemented!() }}
        }}"
    );
    code.parse().unwrap()
}

/// A struct's name and the names of its type parameters, without their defaults: after the name, each name that follows `<` or `,`.
fn struct_head(item: TokenStream) -> (String, String) {
    let mut tokens = item.into_iter().map(|token| token.to_string()).skip_while(|word| word != "struct").skip(1);
    let name = tokens.next().unwrap();
    let mut parameters = String::new();
    let mut before = tokens.next().unwrap();
    if before == "<" {
        for word in tokens.take_while(|word| word != ">") {
            if before == "<" || before == "," {
                parameters += &format!("{word},");
            }
            before = word;
        }
    }
    (name, parameters)
}
