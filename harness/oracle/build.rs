//! Stages the original's files byte for byte beside the stubs of the modules that
//! aren't published, and writes the root that names them. Two of the copies get
//! one line after their last byte, a child module that hands private answers out.

use std::fs;
use std::path::{Path, PathBuf};

const ORIGINALS: [(&str, Option<&str>); 8] = [
    ("model/mod.rs", None),
    ("model/dc.rs", None),
    ("problem/mod.rs", None),
    ("problem/dc.rs", Some("problem.rs")),
    ("sens/mod.rs", None),
    ("sens/interface.rs", None),
    ("sens/dc.rs", Some("sens.rs")),
    ("solve.rs", None),
];

const STUBS: [&str; 10] = [
    "api.rs",
    "formulation.rs",
    "ir.rs",
    "ratings.rs",
    "model/ac.rs",
    "model/islands.rs",
    "model/load_voltage.rs",
    "problem/pf_ac.rs",
    "problem/pf_dc.rs",
    "sens/ac.rs",
];

const ROOT: [&str; 8] = [
    "api.rs",
    "formulation.rs",
    "ir.rs",
    "model/mod.rs",
    "problem/mod.rs",
    "ratings.rs",
    "sens/mod.rs",
    "solve.rs",
];

fn read(path: &Path) -> Vec<u8> {
    println!("cargo:rerun-if-changed={}", path.display());
    fs::read(path).unwrap_or_else(|error| panic!("{}: {error}", path.display()))
}

fn main() {
    println!("cargo:rerun-if-changed=build.rs");
    let home = PathBuf::from(std::env::var("CARGO_MANIFEST_DIR").unwrap());
    let out = PathBuf::from(std::env::var("OUT_DIR").unwrap());
    let docs = home.join("../../docs/src/crates/tellegen/src");
    let staged = out.join("tellegen");
    for part in ["model", "problem", "sens"] {
        fs::create_dir_all(staged.join(part)).unwrap();
    }

    for (name, access) in ORIGINALS {
        let original = read(&docs.join(name));
        let line = access.map_or(String::new(), |file| {
            let path = home.join("src/access").join(file);
            format!("\n#[path = {path:?}] mod oracle_access;\n")
        });
        let mut copy = original.clone();
        copy.extend_from_slice(line.as_bytes());
        fs::write(staged.join(name), copy).unwrap();

        let copy = fs::read(staged.join(name)).unwrap();
        assert!(copy.starts_with(&original), "{name} isn't the original's");
        assert_eq!(&copy[original.len()..], line.as_bytes(), "{name}");
    }
    for name in STUBS {
        fs::write(staged.join(name), read(&home.join("stubs").join(name))).unwrap();
    }

    let mut root = String::new();
    for name in ROOT {
        let module = name.trim_end_matches("/mod.rs").trim_end_matches(".rs");
        root += &format!("#[path = {:?}] mod {module};\n", staged.join(name));
    }
    fs::write(out.join("root.rs"), root).unwrap();
}
