//! Links the proved library: `libmaple.a`, as `make install` puts it, or else `libmt_c.a`, made by `rt lib` in crates/mt_c, and the
//! kit's `liblibc_c.a`. It looks in the folders that `MAPLE_ARCHIVES` names, separated by colons. Where that is not set, it looks
//! beside an installed copy of this crate, in its repository and in the kit that `rt doc` names.

use std::path::PathBuf;
use std::process::{exit, Command};

fn folders() -> Vec<PathBuf> {
    if let Ok(named) = std::env::var("MAPLE_ARCHIVES") {
        return named.split(':').map(PathBuf::from).collect();
    }
    let here = PathBuf::from(std::env::var("CARGO_MANIFEST_DIR").expect("cargo tells the folder"));
    let mut found = vec![here.join("../../../lib"), here.join("../../crates/mt_c/out")];
    if let Ok(told) = Command::new("rt").arg("doc").output() {
        let page = PathBuf::from(String::from_utf8_lossy(&told.stdout).trim());
        found.extend(page.parent().map(|kit| kit.join("c")));
    }
    found
}

fn fail(missing: &str, folders: &[PathBuf]) -> ! {
    eprintln!("maple: no {missing} in");
    folders.iter().for_each(|folder| eprintln!("maple:     {}", folder.display()));
    eprintln!("maple: `rt lib` in crates/mt_c of the repository makes libmt_c.a, and the kit of `rt` has liblibc_c.a;");
    eprintln!("maple: `make install PREFIX=..` at its top makes libmaple.a of both, and a release has that in lib/.");
    eprintln!("maple: MAPLE_ARCHIVES=FOLDER:FOLDER names where they lie.");
    exit(1)
}

fn main() {
    println!("cargo:rerun-if-env-changed=MAPLE_ARCHIVES");
    let folders = folders();
    for folder in &folders {
        println!("cargo:rustc-link-search=native={}", folder.display());
        println!("cargo:rerun-if-changed={}", folder.display());
    }
    let has = |library: &str| folders.iter().any(|folder| folder.join(format!("lib{library}.a")).is_file());
    let libraries: &[&str] = if has("maple") { &["maple"] } else { &["mt_c", "libc_c"] };
    for library in libraries {
        if !has(library) {
            fail(&format!("lib{library}.a"), &folders);
        }
        println!("cargo:rustc-link-lib=static={library}");
    }
}
