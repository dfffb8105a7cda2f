//! Where WIPHOSEGA_LIBRARY names the directory of the proved static libraries, the tests that call them are built and linked to them.

fn main() {
    println!("cargo:rustc-check-cfg=cfg(proved)");
    println!("cargo:rerun-if-env-changed=WIPHOSEGA_LIBRARY");
    if let Ok(directory) = std::env::var("WIPHOSEGA_LIBRARY") {
        println!("cargo:rustc-link-search=native={directory}");
        for name in ["capi", "capi_text"] {
            let library = std::path::Path::new(&directory).join(format!("lib{name}.a"));
            assert!(library.exists(), "{} is not there", library.display());
            println!("cargo:rerun-if-changed={}", library.display());
            println!("cargo:rustc-link-lib=static={name}");
        }
        println!("cargo:rustc-cfg=proved");
    }
}
