//! Links libthagaduvin.a, libthagaduvin_effect.a and libthagaduvin_mend.a to the programs that call them, and libthagaduvin_scroll.a and
//! libthagaduvin_convert.a to the one that scrolls and converts, from the folder HOST_LIB or ../target/staticlib.

use std::{env, path::PathBuf};

fn main() {
    let here = env::var("CARGO_MANIFEST_DIR").expect("the folder of this package");
    let folder = env::var("HOST_LIB").map_or_else(
        |_| PathBuf::from(here).join("../target/staticlib"),
        PathBuf::from,
    );
    println!("cargo::rerun-if-env-changed=HOST_LIB");
    for (name, programs) in [
        ("libthagaduvin.a", &["host", "measure"][..]),
        ("libthagaduvin_effect.a", &["host", "measure"]),
        ("libthagaduvin_mend.a", &["host", "measure"]),
        ("libthagaduvin_scroll.a", &["host"]),
        ("libthagaduvin_convert.a", &["host"]),
    ] {
        let library = folder.join(name);
        println!("cargo::rerun-if-changed={}", library.display());
        for program in programs {
            println!("cargo::rustc-link-arg-bin={program}={}", library.display());
        }
    }
}
