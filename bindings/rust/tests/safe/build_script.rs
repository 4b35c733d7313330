//! What the build script tells cargo, with the archive there or not.

#[path = "../../build.rs"]
#[allow(dead_code)]
mod script;

use std::fs;
use std::path::Path;

/// A folder with a repository, in which the archive is or isn't, and another folder that has it.
struct Folders(&'static str);

impl Folders {
    /// The name keeps tests apart.
    fn new(name: &'static str, archive: bool) -> Self {
        let folders = Self(name);
        let _ = fs::remove_dir_all(folders.path(""));
        let mut files = vec!["top/include/jitamoro.h", "other/libjitamoro.a"];
        files.extend(archive.then_some("top/target/staticlib/libjitamoro.a"));
        for file in files {
            let file = folders.path(file);
            fs::create_dir_all(Path::new(&file).parent().unwrap()).unwrap();
            fs::write(file, "").unwrap();
        }
        folders
    }

    fn path(&self, path: &str) -> String {
        format!("{}/{}/{path}", env!("CARGO_TARGET_TMPDIR"), self.0)
    }

    /// The lines for JITAMORO_LIB_DIR and PWD.
    fn lines(&self, lib_dir: Option<&str>, pwd: Option<&str>, docs_rs: bool) -> Vec<String> {
        let package = self.path("top/bindings/rust");
        let [lib_dir, pwd] = [lib_dir, pwd].map(|it| it.map(Into::into));
        script::lines(package.as_ref(), lib_dir, pwd, docs_rs)
    }

    /// The lines for an archive in a folder, with nothing amiss.
    fn expected(&self, folder: &str, relative: bool) -> Vec<String> {
        let mut lines = vec!["rerun-if-env-changed=JITAMORO_LIB_DIR".to_owned()];
        lines.extend(relative.then(|| "rerun-if-env-changed=PWD".to_owned()));
        lines.extend([
            format!("rerun-if-changed={folder}/libjitamoro.a"),
            format!("rustc-link-search=native={folder}"),
            format!("metadata=lib_dir={folder}"),
            format!("metadata=include={}", self.path("top/include")),
        ]);
        lines
    }
}

#[test]
fn the_archive_is_there() {
    let folders = Folders::new("there", true);
    let built = folders.expected(&folders.path("top/target/staticlib"), false);
    assert_eq!(folders.lines(None, Some("/"), false), built);
    assert_eq!(folders.lines(Some(""), Some("/"), false), built);
    let other = folders.path("other");
    let named = folders.expected(&other, false);
    assert_eq!(folders.lines(Some(&other), Some("/"), false), named);
    // A relative folder counts from the caller's, or else from the package's.
    let caller = folders.path("top");
    let relative = folders.expected(&format!("{caller}/../other"), true);
    let lines = folders.lines(Some("../other"), Some(&caller), false);
    assert_eq!(lines, relative);
    let relative = folders.expected(&folders.path("top/bindings/rust/../../../other"), true);
    fs::create_dir_all(folders.path("top/bindings/rust")).unwrap();
    for pwd in [None, Some("not/absolute")] {
        let lines = folders.lines(Some("../../../other"), pwd, false);
        assert_eq!(lines, relative);
    }
}

#[test]
fn the_archive_is_not_there() {
    let folders = Folders::new("not_there", false);
    let top = folders.path("top");
    let mut lines = folders.lines(None, Some("/"), false);
    let said = lines.pop().unwrap();
    assert!(said.starts_with(&format!(
        "warning=there is no {top}/target/staticlib/libjitamoro.a,"
    )));
    assert!(said.contains(&format!("The script `build` in {top} makes it")));
    let built = folders.expected(&format!("{top}/target/staticlib"), false);
    assert_eq!(lines, built);
    assert_eq!(folders.lines(None, Some("/"), true), built);

    let mut lines = folders.lines(Some("nowhere"), Some(&top), false);
    let said = lines.pop().unwrap();
    assert!(said.starts_with(&format!(
        "error=there is no {top}/nowhere/libjitamoro.a, where JITAMORO_LIB_DIR has it (`nowhere`, from {top})."
    )));
    let named = folders.expected(&format!("{top}/nowhere"), true);
    assert_eq!(lines, named);
    assert_eq!(folders.lines(Some("nowhere"), Some(&top), true), named);
}
