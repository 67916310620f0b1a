//! Has the programs take their memory from jemalloc (Debian's libjemalloc-dev). The library reads each message into a tree whose nodes have some 1,100
//! bytes, and drops it again: more than the C library's heap keeps at hand, which takes half of the processor time of a call for it.
fn main() {
    println!("cargo:rerun-if-changed=build.rs");
    println!("cargo:rustc-link-search=native=/usr/lib/x86_64-linux-gnu");
    println!("cargo:rustc-link-lib=static=jemalloc_pic");
}
