//! Says where libpp_c.a is: in the folder that PP_LIB_DIR names, else in the one of this package for the target.
use std::env;
use std::path::{Path, PathBuf};

fn set(name: &str) -> String {
    env::var(name).unwrap_or_else(|_| panic!("cargo sets {}", name))
}

fn folder() -> PathBuf {
    if let Some(named) = env::var_os("PP_LIB_DIR") {
        return named.into();
    }
    let (arch, os) = (set("CARGO_CFG_TARGET_ARCH"), set("CARGO_CFG_TARGET_OS"));
    let own = Path::new(&set("CARGO_MANIFEST_DIR")).join("lib");
    own.join(format!("{}-{}", arch, os))
}

fn main() {
    let folder = folder();
    let library = folder.join("libpp_c.a");
    println!("cargo:rerun-if-env-changed=PP_LIB_DIR");
    println!("cargo:rerun-if-changed={}", library.display());
    println!("cargo:rustc-link-search=native={}", folder.display());
    println!("cargo:rustc-link-lib=static=pp_c");
    // Nothing but linking needs it.
    if !library.is_file() {
        println!(
            "cargo:warning=nothing can be linked for {}, since there is no {}: PP_LIB_DIR may name another folder",
            set("TARGET"),
            library.display()
        );
    }
}
