//! Links the libcbor shim if bench/run has built it (LIBCBOR_SHIM names its
//! folder), and hands on BENCH_PADDING, 0 if it is not set. The archive is linked by the crate `reading`.

fn main() {
    println!("cargo::rerun-if-env-changed=BENCH_PADDING");
    let padding = std::env::var("BENCH_PADDING").unwrap_or("0".to_string());
    println!("cargo::rustc-env=BENCH_PADDING={padding}");
    println!("cargo::rustc-check-cfg=cfg(libcbor)");
    println!("cargo::rerun-if-changed=build.rs");
    println!("cargo::rerun-if-env-changed=LIBCBOR_SHIM");
    let Ok(folder) = std::env::var("LIBCBOR_SHIM") else { return };
    println!("cargo::rerun-if-changed={folder}/liblibcbor_load.a");
    println!("cargo::rustc-link-search=native={folder}");
    println!("cargo::rustc-link-lib=static=libcbor_load");
    println!("cargo::rustc-link-lib=dylib=cbor");
    println!("cargo::rustc-cfg=libcbor");
}
