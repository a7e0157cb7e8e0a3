//! Links the verified judge: the library in the folder YACHTBANYAN_LIB_DIR; or in `lib/TARGET` of
//! this folder; or where pkg-config finds it.
use std::path::{Path, PathBuf};
use std::{env, fs, process::Command};

const LIBRARY: &str = "libyachtjudge.a";
/// The version follows these bytes in the library.
const MARK: &[u8] = b"@(#)yachtjudge ";

fn by_pkg_config() -> Option<PathBuf> {
    let words = ["--variable=libdir", "yachtjudge"];
    let asked = Command::new("pkg-config").args(words).output().ok()?;
    let folder = PathBuf::from(String::from_utf8(asked.stdout).ok()?.trim());
    asked.status.success().then_some(folder)
}

/// Returns the version that a library names in itself, or `None` if it names none.
fn version_in(library: &Path) -> Option<String> {
    let bytes = fs::read(library).ok()?;
    let at = bytes.windows(MARK.len()).position(|it| it == MARK)? + MARK.len();
    let rest = bytes[at..].iter().map(|it| char::from(*it));
    let digits = rest.take_while(|it| "0123456789.".contains(*it));
    Some(digits.collect())
}

/// Panics unless the folder has the library, and this is of the crate's version.
fn check(folder: &Path, by: &str) {
    let library = folder.join(LIBRARY);
    if !library.exists() {
        let folder = folder.display();
        panic!("there is no {LIBRARY} in {folder}, the folder that {by} names");
    }
    let found = version_in(&library).unwrap_or_else(|| "before 5.0.0".to_string());
    let wanted = env::var("CARGO_PKG_VERSION").expect("cargo sets it");
    let library = library.display();
    assert!(
        found == wanted,
        "{library} is of version {found}, and this crate needs the library of version {wanted}"
    );
}

fn main() {
    println!("cargo:rerun-if-env-changed=YACHTBANYAN_LIB_DIR");
    if env::var_os("DOCS_RS").is_some() {
        return;
    }
    let target = env::var("TARGET").expect("cargo sets it");
    let here = PathBuf::from(env::var("CARGO_MANIFEST_DIR").expect("cargo sets it"));
    let all = here.join("lib");
    let own = all.join(target);
    let given = env::var_os("YACHTBANYAN_LIB_DIR").map(|it| here.join(it));
    let by = given.as_ref().map_or("pkg-config", |_| "YACHTBANYAN_LIB_DIR");
    let known = given.or_else(|| own.join(LIBRARY).exists().then_some(own));
    let Some(folder) = known.or_else(by_pkg_config) else {
        panic!("there is no {LIBRARY}. Set YACHTBANYAN_LIB_DIR to its folder");
    };
    check(&folder, by);
    println!("cargo:rerun-if-changed={}", folder.join(LIBRARY).display());
    println!("cargo:rustc-link-search=native={}", folder.display());
    println!("cargo:rustc-link-lib=static=yachtjudge");
}
