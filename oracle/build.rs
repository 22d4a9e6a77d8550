//! Finds the original and the port's library.
//!
//! `RSSP_SRC` names the folder with timing.rs, bpm.rs and math.rs, from the repository's root; by default it stands beside the repository.
//! Each file is included whole and unchanged in a module of its name, with a child module `probe`, src/probes/NAME.rs,
//! which sees the file's private functions. With the feature `port` the port's library is linked.

use std::path::{Path, PathBuf};
use std::{env, fs};

const FILES: [&str; 3] = ["timing", "bpm", "math"];
const BESIDE: &str = "../shared/docs/src/crates/rssp-core/src";

fn main() {
    let here = PathBuf::from(env::var_os("CARGO_MANIFEST_DIR").unwrap());
    let root = here.parent().unwrap();
    println!("cargo::rerun-if-changed=build.rs");
    include_original(&here, root);
    if env::var_os("CARGO_FEATURE_PORT").is_some() {
        link_port(root);
    }
}

fn include_original(here: &Path, root: &Path) {
    println!("cargo::rerun-if-env-changed=RSSP_SRC");
    let from = root.join(env::var_os("RSSP_SRC").unwrap_or_else(|| BESIDE.into()));
    let mut text = String::new();
    for name in FILES {
        let original = from.join(name).with_extension("rs");
        let original = fs::canonicalize(&original)
            .unwrap_or_else(|why| panic!("{}: {why}. RSSP_SRC names the folder of the original", original.display()));
        let probe = here.join("src/probes").join(name).with_extension("rs");
        text += &format!(
            "#[allow(dead_code, unused_imports, clippy::all)]\npub mod {name} {{\n    include!({original:?});\n    pub mod probe {{\n        include!({probe:?});\n    }}\n}}\n"
        );
    }
    let out = PathBuf::from(env::var_os("OUT_DIR").unwrap()).join("original.rs");
    fs::write(out, text).unwrap();
}

fn link_port(root: &Path) {
    let folder = root.join("target/native");
    let library = folder.join("libmarrighentu.a");
    assert!(library.is_file(), "{} is missing: bindings/native-archive makes it", library.display());
    println!("cargo::rerun-if-changed={}", library.display());
    println!("cargo::rustc-link-search=native={}", folder.display());
    println!("cargo::rustc-link-lib=static=marrighentu");
}
