//! The variable ESDK_LIBRARY names the folder with the library. Without it pkg-config is asked, and where that knows none,
//! the linker looks where it always does.

use std::process::Command;
use std::{env, fs, iter};

fn folder() -> Option<String> {
    if let Some(named) = env::var("ESDK_LIBRARY").ok().filter(|named| !named.is_empty()) {
        // The linker runs in another folder, and passes over one that isn't there: it would take another library of the name.
        let folder = fs::canonicalize(&named).unwrap_or_else(|error| panic!("ESDK_LIBRARY={named}: {error}"));
        return Some(folder.display().to_string());
    }
    let asked = Command::new("pkg-config").args(["--variable=libdir", "libesdk"]).output().ok()?;
    let said = String::from_utf8(asked.stdout).ok()?;
    // It writes a backslash before a space.
    let mut signs = said.trim().chars();
    let escaped = || match signs.next() {
        Some('\\') => signs.next(),
        sign => sign,
    };
    let folder: String = iter::from_fn(escaped).collect();
    (asked.status.success() && !folder.is_empty()).then_some(folder)
}

fn main() {
    println!("cargo:rerun-if-env-changed=ESDK_LIBRARY");
    println!("cargo:rerun-if-env-changed=PKG_CONFIG_PATH");
    if let Some(folder) = folder() {
        println!("cargo:rerun-if-changed={folder}");
        println!("cargo:rustc-link-search=native={folder}");
    }
    let kind = if env::var_os("CARGO_FEATURE_SHARED").is_some() { "dylib" } else { "static" };
    println!("cargo:rustc-link-lib={kind}=esdk");
}
