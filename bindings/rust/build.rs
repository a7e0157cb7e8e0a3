//! Links the verified libraries for the target, that of the table and that of direct descriptors:
//! those in the folder YACHTBANYAN_LIB_DIR; or in `lib/TARGET` of this folder; or, unless the
//! target is another one than this machine's, where pkg-config finds the first one.
use std::path::{Path, PathBuf};
use std::{env, fs, process::Command};

const LIBRARY: &str = "libyachtbanyan.a";
const NAMES: [&str; 2] = ["yachtbanyan", "yachtdirect"];
/// What to do if there is no library.
const HELP: &str = "In the repository, `make libraries` makes it in the folder lib; set \
                    YACHTBANYAN_LIB_DIR to that folder. RUSTFLAGS='--cfg yachtbanyan_stand_in' \
                    builds the crate without a library, over a stand-in, of which nothing is proved";

fn by_pkg_config() -> Option<PathBuf> {
    let words = ["--variable=libdir", "yachtbanyan"];
    let asked = Command::new("pkg-config").args(words).output().ok()?;
    let folder = PathBuf::from(String::from_utf8(asked.stdout).ok()?.trim());
    asked.status.success().then_some(folder)
}

/// Returns which targets have a library in a folder.
fn targets_in(folder: &Path) -> String {
    let entries = fs::read_dir(folder).into_iter().flatten().flatten();
    let with_library = entries.filter(|it| it.path().join(LIBRARY).exists());
    let mut names: Vec<_> =
        with_library.map(|it| it.file_name().to_string_lossy().into_owned()).collect();
    names.sort();
    if names.is_empty() {
        return "has none".to_string();
    }
    format!("has one for these targets: {}", names.join(", "))
}

/// Checks whether the crate is compiled for ThreadSanitizer.
fn is_for_thread_sanitizer() -> bool {
    let flags = env::var("CARGO_ENCODED_RUSTFLAGS").unwrap_or_default();
    let sanitizer = env::var("CARGO_CFG_SANITIZE").unwrap_or_default();
    sanitizer == "thread" || flags.contains("sanitizer=thread")
}

/// Returns the version that a library names in itself after its own name, or `None` if it names
/// none.
fn version_in(library: &Path, name: &str) -> Option<String> {
    let bytes = fs::read(library).ok()?;
    let mark = format!("@(#){name} ").into_bytes();
    let at = bytes.windows(mark.len()).position(|it| it == mark)? + mark.len();
    let rest = bytes[at..].iter().map(|it| char::from(*it));
    let digits = rest.take_while(|it| "0123456789.".contains(*it));
    Some(digits.collect())
}

/// Links a library of the folder. Panics unless it is there, and is of the crate's version.
fn link(folder: &Path, name: &str, by: &str) {
    let file = format!("lib{name}.a");
    let library = folder.join(&file);
    if !library.exists() {
        let folder = folder.display();
        panic!("there is no {file} in {folder}, the folder that {by} names. {HELP}");
    }
    println!("cargo:rerun-if-changed={}", library.display());
    println!("cargo:rustc-link-lib=static={name}");
    let found = version_in(&library, name).unwrap_or_else(|| "before 5.0.0".to_string());
    let wanted = env::var("CARGO_PKG_VERSION").expect("cargo sets it");
    let library = library.display();
    assert!(
        found == wanted,
        "{library} is of version {found}, and this crate needs the library of version {wanted}"
    );
}

fn main() {
    println!("cargo:rerun-if-env-changed=YACHTBANYAN_LIB_DIR");
    let needs_no_library = ["CARGO_CFG_YACHTBANYAN_STAND_IN", "DOCS_RS"];
    if needs_no_library.iter().any(|it| env::var_os(it).is_some()) {
        return;
    }
    if is_for_thread_sanitizer() {
        println!("cargo:rustc-cfg=yachtbanyan_thread_sanitizer");
    }
    let target = env::var("TARGET").expect("cargo sets it");
    let is_host = env::var("HOST").as_deref() == Ok(target.as_str());
    let here = PathBuf::from(env::var("CARGO_MANIFEST_DIR").expect("cargo sets it"));
    let all = here.join("lib");
    let own = all.join(&target);
    let given = env::var_os("YACHTBANYAN_LIB_DIR").map(|it| here.join(it));
    let by = given.as_ref().map_or("pkg-config", |_| "YACHTBANYAN_LIB_DIR");
    let known = given.or_else(|| own.join(LIBRARY).exists().then_some(own));
    let Some(folder) = known.or_else(|| is_host.then(by_pkg_config).flatten()) else {
        panic!(
            "there is no {LIBRARY} for {target}. The folder {} {}. {HELP}",
            all.display(),
            targets_in(&all)
        );
    };
    println!("cargo:rustc-link-search=native={}", folder.display());
    for name in NAMES {
        link(&folder, name, by);
    }
}
