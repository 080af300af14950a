//! Picks the assembly text for the target. That Cargo.toml says `links` has cargo refuse two versions of the text in one program.

use std::env;
use std::path::Path;

fn main() {
    let of = |name: &str| env::var(name).unwrap_or_default();
    let system = match of("CARGO_CFG_TARGET_OS").as_str() {
        "windows" => "windows",
        "macos" => "macos",
        // The others have ELF, or no text.
        _ => "linux",
    };
    let (processor, width) = (of("CARGO_CFG_TARGET_ARCH"), of("CARGO_CFG_TARGET_POINTER_WIDTH"));
    let name = format!("ic-{processor}-{system}.s");
    let text = Path::new(&of("CARGO_MANIFEST_DIR")).join("asm").join(&name);
    assert!(width == "64" && text.is_file(), "there is no {name} for {}", of("TARGET"));
    println!("cargo:rerun-if-changed=rust/build.rs");
    println!("cargo:rustc-env=IC_TEXT={}", text.display());
}
