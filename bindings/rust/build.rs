//! Links the port. Where `MARRIGHENTU_ARCHIVE` names what `bindings/native-archive --pack` packed, the file or the folder that it unpacks to, that is linked and
//! no kit is needed; else the port is proved and compiled here. The first build takes as long as the proofs do then; later ones only look whether a source changed.

use std::path::{Path, PathBuf};
use std::process::Command;
use std::{env, fs};

fn main() {
    println!("cargo::rerun-if-changed=build.rs");
    println!("cargo::rerun-if-env-changed=MARRIGHENTU_ARCHIVE");
    let folder = match env::var_os("MARRIGHENTU_ARCHIVE") {
        Some(archive) => packed(Path::new(&archive)),
        None => proved(),
    };
    println!("cargo::rustc-link-search=native={}", folder.display());
    println!("cargo::rustc-link-lib=static=marrighentu");
}

/// The folder of the library in an archive that was packed elsewhere, once its manifest says that it is for this machine and as it was packed.
fn packed(archive: &Path) -> PathBuf {
    assert!(archive.is_absolute(), "MARRIGHENTU_ARCHIVE is {}: it must be an absolute path", archive.display());
    println!("cargo::rerun-if-changed={}", archive.display());
    let folder = if archive.is_dir() { archive.to_path_buf() } else { unpacked(archive) };
    let manifest = fs::read_to_string(folder.join("MANIFEST")).unwrap_or_else(|why| {
        panic!("MARRIGHENTU_ARCHIVE is {}: its MANIFEST can't be read: {why}", archive.display())
    });
    let machine = env::var("CARGO_CFG_TARGET_ARCH").unwrap();
    let made_for = manifest.lines().find_map(|line| line.strip_prefix("machine ")).unwrap_or("none");
    assert!(made_for == machine, "MARRIGHENTU_ARCHIVE is for {made_for}, and this build is for {machine}");
    let version = manifest.lines().find_map(|line| line.strip_prefix("version ")).unwrap_or("none");
    let wanted = env::var("CARGO_PKG_VERSION").unwrap();
    assert!(version == wanted, "MARRIGHENTU_ARCHIVE is of version {version}, and this crate is {wanted}");
    let sums: String = manifest.lines().filter(|line| line.contains("  ")).map(|line| format!("{line}\n")).collect();
    let list = PathBuf::from(env::var_os("OUT_DIR").unwrap()).join("sums");
    fs::write(&list, sums).unwrap();
    let same = Command::new("sha256sum").args(["--check", "--quiet"]).arg(&list).current_dir(&folder).status();
    assert!(
        same.is_ok_and(|status| status.success()),
        "MARRIGHENTU_ARCHIVE is not as it was packed: a file has another sha256 than its MANIFEST has"
    );
    folder.join("lib")
}

fn unpacked(archive: &Path) -> PathBuf {
    let out = PathBuf::from(env::var_os("OUT_DIR").unwrap());
    let done = Command::new("tar").arg("-xzf").arg(archive).arg("-C").arg(&out).status();
    assert!(
        done.is_ok_and(|status| status.success()),
        "MARRIGHENTU_ARCHIVE is {}: it can't be unpacked",
        archive.display()
    );
    out.join("marrighentu")
}

/// The folder of the library that the sources beside this crate are proved and compiled to.
fn proved() -> PathBuf {
    let here = PathBuf::from(env::var_os("CARGO_MANIFEST_DIR").unwrap());
    for name in ["../native-archive", "../../crates.txt", "../../HANDLES"] {
        println!("cargo::rerun-if-changed={}", here.join(name).display());
    }
    // not what the kit makes beside them, in out/
    for name in fs::read_dir(here.join("../../crates")).into_iter().flatten().flatten() {
        for part in ["src", "specs", "proofs"] {
            let folder = name.path().join(part);
            if folder.is_dir() {
                println!("cargo::rerun-if-changed={}", folder.display());
            }
        }
    }
    let script = here.join("../native-archive");
    assert!(
        script.is_file(),
        "there is nothing to link: the sources are not beside this crate, and MARRIGHENTU_ARCHIVE is not set. \
         It names an archive that `bindings/native-archive --pack` made where the Rattle kit is installed"
    );
    let made = Command::new(&script).status();
    assert!(
        made.is_ok_and(|status| status.success()),
        "bindings/native-archive failed. It needs the Rattle kit, its command `rt` on the PATH; without the kit set MARRIGHENTU_ARCHIVE \
         to an archive that `bindings/native-archive --pack` made where the kit is installed"
    );
    here.join("../../target/native").canonicalize().unwrap()
}
