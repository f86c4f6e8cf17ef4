//! Finds the library `libprovedown`: in the folder `PROVEDOWN_LIB_DIR`, where that is set, and there the static one
//! unless `PROVEDOWN_DYNAMIC` is set; otherwise in this crate, where it has the archive of the target, as those that
//! are published have, unless the feature `system` is on; otherwise where `pkg-config` knows it. Documentation needs none:
//! where `DOCS_RS` is set, as docs.rs does, it looks for none.

use std::env;
use std::error::Error;
use std::path::PathBuf;
use std::process::Command;

fn main() -> Result<(), Box<dyn Error>> {
    println!("cargo::rerun-if-env-changed=PROVEDOWN_LIB_DIR");
    println!("cargo::rerun-if-env-changed=PROVEDOWN_DYNAMIC");
    println!("cargo::rerun-if-env-changed=PKG_CONFIG_PATH");
    println!("cargo::rerun-if-env-changed=DOCS_RS");
    if env::var_os("DOCS_RS").is_some() {
        return Ok(());
    }
    if let Ok(folder) = env::var("PROVEDOWN_LIB_DIR") {
        let kind = if env::var_os("PROVEDOWN_DYNAMIC").is_some() { "dylib" } else { "static" };
        link(&folder, kind);
        return Ok(());
    }
    let folder = PathBuf::from(env::var("CARGO_MANIFEST_DIR")?).join("lib").join(env::var("TARGET")?);
    if env::var_os("CARGO_FEATURE_SYSTEM").is_none() && folder.join("libprovedown.a").is_file() {
        link(folder.to_str().ok_or("the crate's folder is not UTF-8")?, "static");
        return Ok(());
    }
    link_by_pkg_config()
}

fn link(folder: &str, kind: &str) {
    println!("cargo::rustc-link-search=native={folder}");
    println!("cargo::rustc-link-lib={kind}=provedown");
    println!("cargo::rerun-if-changed={folder}/libprovedown.a");
}

fn link_by_pkg_config() -> Result<(), Box<dyn Error>> {
    let flags = Command::new("pkg-config").args(["--libs", "provedown"]).output();
    let flags = match flags {
        Ok(ran) if ran.status.success() => String::from_utf8(ran.stdout)?,
        _ => {
            return Err("no libprovedown: this crate has none for the target, or the feature system is on; set \
                        PROVEDOWN_LIB_DIR, or install it where pkg-config finds it"
                .into());
        }
    };
    for flag in flags.split_whitespace() {
        if let Some(folder) = flag.strip_prefix("-L") {
            println!("cargo::rustc-link-search=native={folder}");
        } else if let Some(name) = flag.strip_prefix("-l") {
            println!("cargo::rustc-link-lib=dylib={name}");
        }
    }
    Ok(())
}
