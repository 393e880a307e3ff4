//! Gives the shared library its name, by which programs find it where it is
//! installed.

fn main() {
    println!("cargo:rerun-if-changed=build.rs");
    println!("cargo:rustc-cdylib-link-arg=-Wl,-soname,libnuyardi_explain.so");
}
