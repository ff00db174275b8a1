//! Where the library lies: in BULWYNEF_LIB_DIR, or where pkg-config says, or where the linker looks. BULWYNEF_STATIC=1 links the static one.

use std::env;
use std::process::Command;

fn main() {
    println!("cargo:rerun-if-env-changed=BULWYNEF_LIB_DIR");
    println!("cargo:rerun-if-env-changed=BULWYNEF_STATIC");
    let said = || {
        let told = Command::new("pkg-config").args(["--variable=libdir", "bulwynef"]).output().ok()?;
        String::from_utf8(told.stdout).ok()
    };
    if let Some(folder) = env::var("BULWYNEF_LIB_DIR").ok().or_else(said) {
        if !folder.trim().is_empty() {
            println!("cargo:rustc-link-search=native={}", folder.trim());
        }
    }
    let kind = if env::var("BULWYNEF_STATIC").as_deref() == Ok("1") { "static" } else { "dylib" };
    println!("cargo:rustc-link-lib={kind}=bulwynef");
}
