// With the feature `proved`, links the static library `exports` found in
// the directory named by KERNEL_LIB_DIR; with `dumps`, `dump_exports` too;
// with `moves`, `move_exports`; with `loops`, `loop_exports`; with `bodies`,
// `read_exports`.
fn main() {
    println!("cargo:rerun-if-env-changed=KERNEL_LIB_DIR");
    println!("cargo:rerun-if-changed=build.rs");
    let dir = std::env::var("KERNEL_LIB_DIR");
    for (feature, library) in [
        ("PROVED", "exports"),
        ("DUMPS", "dump_exports"),
        ("MOVES", "move_exports"),
        ("LOOPS", "loop_exports"),
        ("BODIES", "read_exports"),
    ] {
        if std::env::var_os(format!("CARGO_FEATURE_{feature}")).is_none() {
            continue;
        }
        if let Ok(dir) = &dir {
            println!("cargo:rustc-link-search=native={dir}");
            println!("cargo:rerun-if-changed={dir}/lib{library}.a");
        }
        println!("cargo:rustc-link-lib=static={library}");
    }
}
