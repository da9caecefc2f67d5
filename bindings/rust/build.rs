//! Links the static libraries of `bindings/lib/TARGET`, or of the folder that ARENA_LIBS names.

use std::env;
use std::path::Path;

fn main() {
    println!("cargo:rerun-if-env-changed=ARENA_LIBS");
    // This file is in bindings/rust, also for the package that shares it.
    let bindings = Path::new(env!("CARGO_MANIFEST_DIR")).join("..");
    let target = env::var("TARGET").expect("cargo sets TARGET");
    let folder = match env::var("ARENA_LIBS") {
        Ok(folder) => folder.into(),
        Err(_) => bindings.join("lib").join(&target),
    };
    println!("cargo:rustc-link-search=native={}", folder.display());
    let has_oracle = env::var_os("CARGO_FEATURE_ORACLE").is_some();
    for name in ["arena_oracle", "arena_cursor"] {
        let library = folder.join(format!("lib{name}.a"));
        if name == "arena_oracle" && !has_oracle {
            continue;
        }
        assert!(
            library.exists(),
            "there is no {}: {target} has no built library, or ARENA_LIBS names another folder",
            library.display()
        );
        println!("cargo:rerun-if-changed={}", library.display());
        println!("cargo:rustc-link-lib=static={name}");
    }
}
