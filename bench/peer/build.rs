// LIBRARIES: "NAME=PATH NAME=PATH .." of static libraries made from gimli_marks, the export of each renamed to
// gimli_marks_NAME (build.sh does so); KIT: the folder of the kit.
use std::{env, fs, path::Path};

fn main() {
    let mut text = String::from("pub type Marks = unsafe extern \"C\" fn(u64, u64, *const u8, usize, *const u8, usize) -> u64;\nextern \"C\" {\n");
    let mut table = String::from("pub const LIBRARIES: &[(&str, Marks)] = &[\n");
    for library in env::var("LIBRARIES")
        .expect("LIBRARIES: NAME=PATH ..")
        .split_whitespace()
    {
        let (name, path) = library.split_once('=').expect("NAME=PATH");
        println!("cargo:rustc-link-arg={path}");
        println!("cargo:rerun-if-changed={path}");
        text.push_str(&format!("    fn gimli_marks_{name}(task: u64, order: u64, first: *const u8, first_length: usize, second: *const u8, second_length: usize) -> u64;\n"));
        table.push_str(&format!("    (\"{name}\", gimli_marks_{name}),\n"));
    }
    text.push_str("}\n");
    table.push_str("];\n");
    let kit = env::var("KIT").expect("KIT names the folder of the kit");
    println!("cargo:rustc-link-arg={kit}/c/liblibc_c.a");
    println!("cargo:rerun-if-env-changed=LIBRARIES");
    println!("cargo:rerun-if-env-changed=KIT");
    fs::write(
        Path::new(&env::var("OUT_DIR").unwrap()).join("libraries.rs"),
        text + &table,
    )
    .unwrap();
}
