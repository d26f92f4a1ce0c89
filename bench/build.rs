//! Links the static library that `rt lib` builds in `crates/pgv_bench`, and the C library of the kit.
use std::path::Path;
use std::process::Command;

fn main() {
    let library = Path::new(env!("CARGO_MANIFEST_DIR")).join("../crates/pgv_bench/out");
    let path = library.join("libpgv_bench.a");
    println!("cargo:rerun-if-changed={}", path.display());
    assert!(path.exists(), "run `rt lib` in crates/pgv_bench first");
    let told = Command::new("rt").arg("doc").output().expect("the kit's rt is on the path");
    let page = String::from_utf8(told.stdout).expect("a path");
    let kit = Path::new(page.lines().next().expect("a path")).parent().expect("a folder");
    for (folder, name) in [(library.as_path(), "pgv_bench"), (&kit.join("c"), "libc_c")] {
        println!("cargo:rustc-link-search=native={}", folder.display());
        println!("cargo:rustc-link-lib=static={name}");
    }
}
