// Links the archives that `tools/staticlib silmezga_c` and `tools/staticlib totals_c` write. SILMEZGA_LIB names the folder that they are in.
use std::env;

fn main() {
    println!("cargo:rerun-if-env-changed=SILMEZGA_LIB");
    let folder = env::var("SILMEZGA_LIB").expect("SILMEZGA_LIB names no folder: that of libsilmezga_c.a and libtotals_c.a");
    println!("cargo:rustc-link-search=native={folder}");
    for archive in ["silmezga_c", "totals_c"] {
        println!("cargo:rerun-if-changed={folder}/lib{archive}.a");
        println!("cargo:rustc-link-lib=static={archive}");
    }
}
