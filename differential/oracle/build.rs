//! Copies the Rust's three files byte for byte, appends the probes, and names the copies as modules.
//! For `oracle_saturating` it makes the saturations that document 01 marks "(added)", and no other change.
use std::path::{Path, PathBuf};
use std::{env, fs};

/// (file, text of the Rust, text of the saturating copy). Each text must stand in its file exactly once.
const SATURATIONS: [(&str, &str, &str); 4] = [
    ("raster", "let x1 = (max_x + 1).min(cx1);", "let x1 = max_x.saturating_add(1).min(cx1);"),
    ("raster", "let y1 = (max_y + 1).min(cy1);", "let y1 = max_y.saturating_add(1).min(cy1);"),
    (
        "texture",
        "let (c00, c10) = (texel(x0, y0), texel(x0 + 1, y0));",
        "let (c00, c10) = (texel(x0, y0), texel(x0.saturating_add(1), y0));",
    ),
    (
        "texture",
        "let (c01, c11) = (texel(x0, y0 + 1), texel(x0 + 1, y0 + 1));",
        "let (c01, c11) = (texel(x0, y0.saturating_add(1)), texel(x0.saturating_add(1), y0.saturating_add(1)));",
    ),
];

fn main() {
    let here = PathBuf::from(env::var("CARGO_MANIFEST_DIR").unwrap());
    let out = PathBuf::from(env::var("OUT_DIR").unwrap());
    let saturating = env::var("CARGO_PKG_NAME").unwrap() == "oracle_saturating";
    let source = source(&here);
    let mut mods = String::new();
    for name in ["consts", "raster", "texture"] {
        let mut text = read(&source.join(format!("{name}.rs")));
        if saturating {
            text = saturated(name, text);
        }
        text.push_str(&read(&here.join(format!("../oracle/probes/{name}.rs"))));
        let copy = out.join(format!("{name}.rs"));
        fs::write(&copy, text).unwrap_or_else(|e| panic!("{}: {e}", copy.display()));
        mods.push_str(&format!("#[path = {:?}]\npub mod {name};\n", copy.display().to_string()));
    }
    fs::write(out.join("mods.rs"), mods).expect("mods.rs is written");
    println!("cargo:rerun-if-env-changed=POCKETHLE_SRC");
    println!("cargo:rerun-if-changed={}", here.join("../oracle/build.rs").display());
}

/// The folder that POCKETHLE_SRC names, or the one beside the repository.
fn source(here: &Path) -> PathBuf {
    match env::var_os("POCKETHLE_SRC") {
        Some(folder) if !folder.is_empty() => PathBuf::from(folder),
        _ => here.join("../../../shared/docs/src/crates/pocket-gles/src"),
    }
}

fn read(path: &Path) -> String {
    println!("cargo:rerun-if-changed={}", path.display());
    fs::read_to_string(path).unwrap_or_else(|e| panic!("{}: {e}", path.display()))
}

fn saturated(name: &str, mut text: String) -> String {
    for (file, old, new) in SATURATIONS {
        if file == name {
            let found = text.matches(old).count();
            assert!(found == 1, "{name}.rs has {found} times, and not once, the text to saturate: {old}");
            text = text.replace(old, new);
        }
    }
    text
}
