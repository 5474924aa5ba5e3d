//! Links the library that MASORITUN_LIB names.

fn main() {
    println!("cargo::rerun-if-env-changed=MASORITUN_LIB");
    match std::env::var("MASORITUN_LIB") {
        Ok(path) => {
            println!("cargo::rerun-if-changed={path}");
            println!("cargo::rustc-link-arg-bins={path}");
        }
        Err(_) => println!("cargo::error=MASORITUN_LIB is not set: give the path of libmasoritun.a"),
    }
}
