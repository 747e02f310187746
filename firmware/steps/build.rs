//! Points the linker at the archive with the proved driver, where it is asked for.

fn main() {
    println!("cargo::rerun-if-env-changed=STEP_COST_DIR");
    if std::env::var_os("CARGO_FEATURE_PROVED").is_some() {
        let folder = std::env::var("STEP_COST_DIR").expect("STEP_COST_DIR names the archive's folder");
        println!("cargo::rerun-if-changed={folder}/libstep_cost.a");
        println!("cargo::rustc-link-search=native={folder}");
        println!("cargo::rustc-link-lib=static=step_cost");
    }
}
