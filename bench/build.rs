//! Hands on how many bytes of padding stand before the code: `PADDING`, none where it isn't set.

fn main() {
    println!("cargo:rerun-if-env-changed=PADDING");
    let bytes = std::env::var("PADDING").unwrap_or_else(|_| "0".to_string());
    println!("cargo:rustc-env=PADDING={bytes}");
}
