//! What `links = "vcm"` hands on: the folders of the library and of the C header.
use std::env;
use std::path::Path;

fn main() {
    for (name, file) in [("DEP_VCM_LIBDIR", "libvcm.a"), ("DEP_VCM_INCLUDE", "vcm.h")] {
        let folder = env::var(name).unwrap_or_else(|_| panic!("{name} is not set"));
        let path = Path::new(&folder).join(file);
        assert!(path.is_file(), "{} is not there", path.display());
    }
}
