//! What the crate's build script says is passed on: where the archive and the header lie.

fn main() {
    for (variable, file) in [("LIB_DIR", "libjitamoro.a"), ("INCLUDE", "jitamoro.h")] {
        let folder = std::env::var(format!("DEP_JITAMORO_{variable}")).unwrap();
        let path = std::path::Path::new(&folder).join(file);
        assert!(path.is_absolute() && path.is_file(), "{}", path.display());
    }
}
