//! Each call of the heap is counted.
fn main() {
    for name in ["malloc", "realloc", "calloc", "posix_memalign"] {
        println!("cargo:rustc-link-arg-bins=-Wl,--wrap={name}");
    }
}
