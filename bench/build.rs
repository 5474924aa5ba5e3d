//! Links what `run` names: the library, the C loops, and the libraries that the loops call.

fn main() {
    for name in ["MASORITUN_LIB", "BENCH_LOOPS", "BENCH_LIBS"] {
        println!("cargo::rerun-if-env-changed={name}");
        let Ok(value) = std::env::var(name) else {
            println!("cargo::error={name} is not set: start the benchmark by bench/run");
            return;
        };
        for arg in value.split_whitespace() {
            if !arg.starts_with("-l") {
                println!("cargo::rerun-if-changed={arg}");
            }
            println!("cargo::rustc-link-arg-bins={arg}");
        }
    }
}
