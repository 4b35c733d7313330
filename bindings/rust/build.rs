//! Says where libjitamoro.a lies: in JITAMORO_LIB_DIR, or else where the script `build` puts it.

use std::env::var_os;
use std::ffi::OsString;
use std::path::Path;
use std::path::PathBuf;

fn main() {
    let package = PathBuf::from(var_os("CARGO_MANIFEST_DIR").unwrap());
    let lines = lines(
        &package,
        var_os("JITAMORO_LIB_DIR"),
        var_os("PWD"),
        var_os("DOCS_RS").is_some(),
    );
    for line in lines {
        println!("cargo::{line}");
    }
}

/// What cargo is told, given the package's folder and the variables.
pub fn lines(
    package: &Path,
    lib_dir: Option<OsString>,
    pwd: Option<OsString>,
    docs_rs: bool,
) -> Vec<String> {
    let mut lines = vec!["rerun-if-env-changed=JITAMORO_LIB_DIR".to_owned()];
    let top = package.ancestors().nth(2).unwrap_or(package);
    let given = lib_dir.filter(|dir| !dir.is_empty()).map(PathBuf::from);
    // Cargo runs this in the package's folder; PWD is still the caller's.
    let caller = pwd.map(PathBuf::from).filter(|pwd| pwd.is_absolute());
    let caller = caller.as_deref().unwrap_or(package);
    let folder = match &given {
        Some(given) => caller.join(given),
        None => top.join("target/staticlib"),
    };
    if given.as_ref().is_some_and(|given| given.is_relative()) {
        lines.push("rerun-if-env-changed=PWD".to_owned());
    }

    let archive = folder.join("libjitamoro.a");
    let found = archive.is_file();
    let (archive, folder) = (archive.display(), folder.display());
    lines.push(format!("rerun-if-changed={archive}"));
    lines.push(format!("rustc-link-search=native={folder}"));
    // A crate that depends on this one has them as DEP_JITAMORO_LIB_DIR and DEP_JITAMORO_INCLUDE.
    lines.push(format!("metadata=lib_dir={folder}"));
    let include = top.join("include");
    if include.join("jitamoro.h").is_file() {
        lines.push(format!("metadata=include={}", include.display()));
    }

    // A folder that was named is meant to be the one. Without one, what links nothing goes on: checking, documenting.
    if !found && !docs_rs {
        lines.push(match &given {
            Some(given) => format!(
                "error=there is no {archive}, where JITAMORO_LIB_DIR has it (`{}`, from {}). Set it to the \
                 archive's folder: the script `build` at the top of Jitamoro's repository makes the archive, in \
                 target/staticlib.",
                given.display(),
                caller.display(),
            ),
            None => format!(
                "warning=there is no {archive}, without which no program can be linked. The script `build` in \
                 {} makes it; for an archive elsewhere set JITAMORO_LIB_DIR to its folder.",
                top.display(),
            ),
        });
    }
    lines
}
