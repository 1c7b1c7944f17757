//! With the feature `boxed`: where the box's library stands, which `./library` in the top folder writes.

fn main() {
    if std::env::var_os("CARGO_FEATURE_BOXED").is_some() {
        let here = std::env::var("CARGO_MANIFEST_DIR").expect("cargo says where the package is");
        let folder = format!("{here}/../target/staticlib");
        let library = format!("{folder}/libsignalbox.a");
        println!("cargo:rustc-link-search=native={folder}");
        println!("cargo:rerun-if-changed={library}");
        if !std::path::Path::new(&library).exists() {
            // Kinder than what the linker says.
            let how = "`./library` in the top folder writes it";
            println!("cargo::error=there is no {library}: {how}");
        }
        let target = std::env::var("CARGO_CFG_TARGET_ARCH").expect("cargo says what it builds for");
        if target != "x86_64" {
            let how = "README.md says how this is built for it elsewhere";
            println!("cargo::warning=rt writes libraries for x86_64, and this is {target}: {how}");
        }
    }
}
