// Names the directory of the engine's static libraries. Only what declares the
// engine's functions links them: the programs on placing and plans, and with the
// feature engine-state the module `engine`. The search path also reaches packages
// that depend on this one.

use std::env;
use std::path::Path;

fn main() {
    let given = env::var("CEMENTLEDGE_LIB").unwrap_or("../target/staticlib".to_string());
    let package = env::var("CARGO_MANIFEST_DIR").expect("set by cargo");
    let libraries = Path::new(&package).join(given);
    println!("cargo:rerun-if-env-changed=CEMENTLEDGE_LIB");
    let mut named = vec![
        "libmarking.a",
        "libplacing.a",
        "libplacing_items.a",
        "libplan.a",
    ];
    if env::var_os("CARGO_FEATURE_ENGINE_STATE").is_some() {
        named.push("libline.a");
    }
    for library in named {
        println!(
            "cargo:rerun-if-changed={}",
            libraries.join(library).display()
        );
    }
    println!("cargo:rustc-link-search=native={}", libraries.display());
}
