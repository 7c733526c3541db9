//! Says what is linked: the static library, from the folder of NTRUN_LIB (else that in which `rt
//! lib` leaves it), and the kit's heap, from the folder of NTRUN_HEAP.

use std::env;
use std::path::PathBuf;

fn main() {
    println!("cargo::rerun-if-env-changed=NTRUN_LIB");
    println!("cargo::rerun-if-env-changed=NTRUN_HEAP");
    let here = PathBuf::from(env::var("CARGO_MANIFEST_DIR").expect("cargo gives it"));
    let built = here.join("../../crates/nt_c/out");
    let library = env::var("NTRUN_LIB").map_or(built, PathBuf::from);
    let heap = env::var("NTRUN_HEAP").expect("NTRUN_HEAP names the kit's folder with liblibc_c.a");
    println!(
        "cargo::rerun-if-changed={}",
        library.join("libnt_c.a").display()
    );
    println!("cargo::rustc-link-search=native={}", library.display());
    println!("cargo::rustc-link-search=native={heap}");
    println!("cargo::rustc-link-lib=static=nt_c");
    println!("cargo::rustc-link-lib=static=libc_c");
}
