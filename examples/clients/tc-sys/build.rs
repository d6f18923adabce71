//! Links libtc: where TC_LIB_DIR says, or where the linker looks by itself, as behind `make install`. With TC_STATIC it
//! is the archive, whose names a plug-in of Rust keeps to itself.
fn main() {
    println!("cargo:rerun-if-env-changed=TC_LIB_DIR");
    if let Ok(place) = std::env::var("TC_LIB_DIR") {
        println!("cargo:rustc-link-search=native={place}");
    }
    let kind = if std::env::var_os("TC_STATIC").is_some() { "static=tc" } else { "tc" };
    println!("cargo:rustc-link-lib={kind}");
}
