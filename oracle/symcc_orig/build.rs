//! Copies the original files byte for byte from $SYMCC_SRC, the folder that holds err.rs and symcc/, into a module
//! tree in OUT_DIR, and writes tree.rs, which declares the modules. compile_app1 is private, so compiler.rs alone gets
//! text after its end, a public function that calls it.
use std::{env, fs, path::PathBuf};

/// Each file below $SYMCC_SRC, and the text after its end.
const FILES: &[(&str, &str)] = &[
    ("err.rs", ""),
    ("symcc/bitvec.rs", ""),
    ("symcc/compiler.rs", APPEND),
    ("symcc/entity_tag.rs", ""),
    ("symcc/env.rs", ""),
    ("symcc/ext.rs", ""),
    ("symcc/extension_types/mod.rs", ""),
    ("symcc/extension_types/datetime.rs", ""),
    ("symcc/extension_types/decimal.rs", ""),
    ("symcc/extension_types/ipaddr.rs", ""),
    ("symcc/extfun.rs", ""),
    ("symcc/factory.rs", ""),
    ("symcc/function.rs", ""),
    ("symcc/interpretation.rs", ""),
    ("symcc/op.rs", ""),
    ("symcc/result.rs", ""),
    ("symcc/tags.rs", ""),
    ("symcc/term.rs", ""),
    ("symcc/term_type.rs", ""),
    ("symcc/type_abbrevs.rs", ""),
];

const APPEND: &str = "\npub fn oracle_compile_app1(op1: UnaryOp, t: Term) -> Result<Term> {\n    compile_app1(op1, t)\n}\n";

fn main() {
    println!("cargo:rerun-if-changed=build.rs");
    println!("cargo:rerun-if-env-changed=SYMCC_SRC");
    let beside = concat!(env!("CARGO_MANIFEST_DIR"), "/../../../shared/docs/src/src");
    let src = PathBuf::from(env::var("SYMCC_SRC").unwrap_or_else(|_| beside.to_string()));
    let out = PathBuf::from(env::var("OUT_DIR").unwrap());
    for (path, append) in FILES {
        let flat = src.join(path);
        println!("cargo:rerun-if-changed={}", flat.display());
        let original = fs::read(&flat).unwrap_or_else(|e| panic!("{}: {e}", flat.display()));
        let dest = out.join(path);
        fs::create_dir_all(dest.parent().unwrap()).unwrap();
        let mut bytes = original.clone();
        bytes.extend_from_slice(append.as_bytes());
        fs::write(&dest, &bytes).unwrap();
        let back = fs::read(&dest).unwrap();
        assert!(back.starts_with(&original) && back.len() == original.len() + append.len());
    }
    let o = out.display();
    let m = |name: &str| format!("    #[path = \"{o}/symcc/{name}.rs\"] pub mod {name};\n");
    let mut t = format!("#[path = \"{o}/err.rs\"] pub mod err;\n/// Stands for src/symcc.rs (see src/root.rs).\npub mod symcc {{\n");
    for n in [
        "bitvec", "compiler", "entity_tag", "env", "ext", "extfun", "factory", "function",
        "interpretation", "op", "result", "tags", "term", "term_type", "type_abbrevs",
    ] {
        t += &m(n);
    }
    t += &format!("    #[path = \"{o}/symcc/extension_types/mod.rs\"] pub mod extension_types;\n");
    t += "    pub use crate::root::*;\n}\n";
    fs::write(out.join("tree.rs"), t).unwrap();
}
