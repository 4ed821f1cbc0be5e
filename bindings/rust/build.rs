//! Links the C library: the static one in the folder CWR_LIB_DIR, or else the system's shared one.

use std::env;
use std::path::Path;

const WANTED: &str = "the C library of CWR: CWR_LIB_DIR names the folder of libcwr.a, which is out/c of a checkout after `make`, \
                      and a relative one begins at the crate; without it the shared library is linked that `make install` puts below /usr/local";
const FOLDERS: [&str; 4] = ["/usr/local/lib", "/usr/lib", "/usr/lib/x86_64-linux-gnu", "/lib/x86_64-linux-gnu"];

fn main() {
    println!("cargo:rerun-if-env-changed=CWR_LIB_DIR");
    match env::var("CWR_LIB_DIR") {
        Ok(folder) => {
            let archive = Path::new(&folder).join("libcwr.a");
            println!("cargo:rerun-if-changed={}", archive.display());
            if !archive.is_file() {
                eprintln!("{} isn't there. Wanted is {WANTED}", archive.display());
                std::process::exit(1);
            }
            println!("cargo:rustc-link-search=native={folder}");
            println!("cargo:rustc-link-lib=static=cwr");
        }
        Err(_) => {
            if !FOLDERS.iter().any(|it| Path::new(it).join("libcwr.so").exists()) {
                println!("cargo:warning=libcwr.so is in none of {FOLDERS:?}. Wanted is {WANTED}");
            }
            println!("cargo:rustc-link-lib=dylib=cwr");
        }
    }
}
