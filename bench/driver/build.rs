//! Links the object that `bench/native-object` made of the proved code.
fn main() {
    println!("cargo:rerun-if-env-changed=RLNC_OBJECT");
    let object = std::env::var("RLNC_OBJECT").expect("RLNC_OBJECT names the object of the proved code");
    println!("cargo:rerun-if-changed={object}");
    println!("cargo:rustc-link-arg={object}");
}
