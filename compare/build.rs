//! Writes the module tree that reaches the plain path of pxfm.
//!
//! The sources of pxfm are read where they lie (PXFM_SRC), unmodified, by
//! `include!`; nothing of them is copied. Each of the six files is included
//! inside a module of its own together with one function more, which can
//! call the private function of that file.

use std::env;
use std::fmt::Write as _;
use std::fs;
use std::path::{Path, PathBuf};

/// Module path, file below PXFM_SRC, the private function reached.
const REACHED: [(&str, &str, &str, &str); 6] = [
    ("sin_cosf", "sinf", "sin_cosf/sinf.rs", "sinf_gen_impl"),
    ("sin_cosf", "cosf", "sin_cosf/cosf.rs", "cosf_gen_impl"),
    (
        "sin_cosf",
        "sinpif",
        "sin_cosf/sinpif.rs",
        "sinpif_gen_impl",
    ),
    (
        "sin_cosf",
        "cospif",
        "sin_cosf/cospif.rs",
        "cospif_gen_impl",
    ),
    ("tangent", "tanf", "tangent/tanf.rs", "tanf_gen_impl"),
    ("tangent", "tanpif", "tangent/tanpif.rs", "tanpif_gen_impl"),
];

/// Modules that are included as they are.
const PLAIN: [(&str, &str, &str); 6] = [
    ("", "bits", "bits.rs"),
    ("", "common", "common.rs"),
    ("", "polyeval", "polyeval.rs"),
    (
        "sin_cosf",
        "argument_reduction",
        "sin_cosf/argument_reduction.rs",
    ),
    (
        "sin_cosf",
        "argument_reduction_pi",
        "sin_cosf/argument_reduction_pi.rs",
    ),
    ("sin_cosf", "sincosf_eval", "sin_cosf/sincosf_eval.rs"),
];

/// The rest of the tree, with the names the files expect to find re-exported.
const EVALF: &str = "tangent/evalf.rs";
const ROUND: &str = "rounding/round.rs";

fn main() {
    println!("cargo:rerun-if-changed=build.rs");
    println!("cargo:rerun-if-env-changed=PXFM_SRC");
    println!("cargo:rerun-if-env-changed=LUHVEND_LIB");

    plain_target();
    let tree = module_tree(&folder_of_pxfm());
    let out = PathBuf::from(env::var_os("OUT_DIR").expect("cargo sets OUT_DIR"));
    fs::write(out.join("pxfm.rs"), tree).expect("OUT_DIR can be written");

    if env::var_os("CARGO_FEATURE_OURS").is_some() {
        let library = library_of_ours();
        println!("cargo:rerun-if-changed={}", library.display());
        println!("cargo:rustc-link-arg={}", library.display());
    }
}

/// The oracle is the path without fused multiply-add and without SSE4.1;
/// the sources choose it by the features of the target.
fn plain_target() {
    let arch = env::var("CARGO_CFG_TARGET_ARCH").unwrap_or_default();
    assert!(
        arch == "x86_64",
        "the oracle is the plain path of x86_64, the target is {arch}"
    );
    let features = env::var("CARGO_CFG_TARGET_FEATURE").unwrap_or_default();
    for refused in ["fma", "sse4.1"] {
        assert!(
            !features.split(',').any(|feature| feature == refused),
            "the target feature {refused} must be off (is target-cpu or target-feature set in RUSTFLAGS?)"
        );
    }
}

fn folder_of_pxfm() -> PathBuf {
    let given = env::var_os("PXFM_SRC").expect("PXFM_SRC must name the folder src of pxfm 0.1.30");
    fs::canonicalize(&given).unwrap_or_else(|e| panic!("PXFM_SRC {given:?}: {e}"))
}

fn library_of_ours() -> PathBuf {
    let given = env::var_os("LUHVEND_LIB")
        .expect("LUHVEND_LIB must name our static library, a file lib*.a");
    let library = fs::canonicalize(&given).unwrap_or_else(|e| panic!("LUHVEND_LIB {given:?}: {e}"));
    assert!(library.is_file(), "LUHVEND_LIB {given:?} is no file");
    library
}

fn included(src: &Path, file: &str) -> String {
    let path = src.join(file);
    assert!(path.is_file(), "{} is missing", path.display());
    println!("cargo:rerun-if-changed={}", path.display());
    format!(
        "include!({:?});",
        path.to_str().expect("the path of PXFM_SRC is UTF-8")
    )
}

fn module_tree(src: &Path) -> String {
    let mut tree = String::from("// Written by build.rs.\n");
    for (parent, name, file) in PLAIN {
        if parent.is_empty() {
            module(&mut tree, "", name, &included(src, file));
        }
    }
    let round = included(src, ROUND);
    module(&mut tree, "", "rounding", &round);
    for parent in ["sin_cosf", "tangent"] {
        let mut inside = String::new();
        for (of, name, file) in PLAIN {
            if of == parent {
                module(&mut inside, "    ", name, &included(src, file));
            }
        }
        match parent {
            "sin_cosf" => inside.push_str(
                "    pub(crate) use argument_reduction::ArgumentReducer;\n    \
                 pub(crate) use argument_reduction_pi::ArgumentReducerPi;\n",
            ),
            _ => module(&mut inside, "    ", "evalf", &included(src, EVALF)),
        }
        for (of, name, file, function) in REACHED {
            if of == parent {
                let reaching = format!(
                    "{} #[inline(never)] pub fn plain(word: u32) -> u32 {{ {function}(f32::from_bits(word)).to_bits() }}",
                    included(src, file)
                );
                module(&mut inside, "    ", name, &reaching);
            }
        }
        writeln!(
            tree,
            "#[allow(warnings, clippy::all)]\npub mod {parent} {{\n{inside}}}"
        )
        .unwrap();
    }
    tree
}

fn module(tree: &mut String, indent: &str, name: &str, inside: &str) {
    writeln!(
        tree,
        "{indent}#[allow(warnings, clippy::all)]\n{indent}pub mod {name} {{ {inside} }}"
    )
    .unwrap();
}
