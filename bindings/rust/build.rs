//! Links libbucket.a: the one in the folder that BUCKET_LIB_DIR names, else the package's own, else the one that
//! bindings/build made in a checkout.
use std::env;
use std::path::{Path, PathBuf};

/// The target that the package's own library is built for.
const TARGET: &str = "x86_64-unknown-linux-gnu";

fn main() {
    println!("cargo:rerun-if-changed=build.rs");
    println!("cargo:rerun-if-env-changed=BUCKET_LIB_DIR");
    // A documentation build links nothing.
    if env::var_os("DOCS_RS").is_some() {
        return;
    }
    match folder() {
        Ok(folder) => {
            println!("cargo:rerun-if-changed={}", folder.join("libbucket.a").display());
            println!("cargo:rustc-link-search=native={}", folder.display());
            println!("cargo:rustc-link-lib=static=bucket");
        }
        Err(why) => println!("cargo::error={why}"),
    }
}

/// Returns the folder whose libbucket.a is linked, or a message that says what to do.
fn folder() -> Result<PathBuf, String> {
    if env::var("CARGO_CFG_TARGET_POINTER_WIDTH").as_deref() != Ok("64") {
        return Err("bucket supports 64-bit targets only".to_string());
    }
    if let Some(folder) = env::var_os("BUCKET_LIB_DIR").map(PathBuf::from) {
        return match has_library(&folder) {
            true => Ok(folder),
            false => Err(format!("BUCKET_LIB_DIR is {}, where there is no libbucket.a", folder.display())),
        };
    }
    let package = PathBuf::from(env::var_os("CARGO_MANIFEST_DIR").expect("cargo names the package's folder"));
    let made = package.join("../out");
    let target = env::var("TARGET").unwrap_or_default();
    let own = package.join("lib").join(TARGET);
    if target == TARGET && has_library(&own) {
        return Ok(own);
    }
    if target == TARGET && package.join("../build").is_file() && has_library(&made) {
        return Ok(made);
    }
    Err(format!(
        "bucket has no libbucket.a for {target}: set BUCKET_LIB_DIR to a folder with one, which bindings/build makes in a checkout, \
         or take the released package, whose library is for {TARGET}"
    ))
}

fn has_library(folder: &Path) -> bool {
    folder.join("libbucket.a").is_file()
}
