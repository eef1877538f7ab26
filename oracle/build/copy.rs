// Shared by the build scripts of motor_core and damiao: copies files of the original into OUT_DIR,
// with counted replacements, and writes modules.rs, which declares them as modules.

use std::fs;
use std::path::{Path, PathBuf};

/// A text that is replaced, what stands in its place, and how often it must occur.
pub struct Replaced {
    pub text: &'static str,
    pub by: &'static str,
    pub count: usize,
}

/// One file of the original, the module it becomes, and what is changed in it.
pub struct Copied<'a> {
    pub module: &'static str,
    pub replaced: &'a [Replaced],
    pub appended: &'a str,
}

/// The folder of the original's sources: MOTORBRIDGE_SRC, or ../shared/docs/src beside the
/// repository. A relative MOTORBRIDGE_SRC counts from the repository's root.
fn original() -> PathBuf {
    println!("cargo:rerun-if-env-changed=MOTORBRIDGE_SRC");
    let manifest = std::env::var("CARGO_MANIFEST_DIR").expect("CARGO_MANIFEST_DIR");
    let root = Path::new(&manifest).join("../..");
    match std::env::var("MOTORBRIDGE_SRC") {
        Ok(folder) if !folder.is_empty() => root.join(folder),
        _ => root.join("../shared/docs/src"),
    }
}

/// Copies `folder/MODULE.rs` for each module and writes modules.rs.
pub fn copy(folder: &str, files: &[Copied]) {
    let out = PathBuf::from(std::env::var("OUT_DIR").expect("OUT_DIR"));
    let mut modules = String::new();
    for file in files {
        let name = format!("{}.rs", file.module);
        let from = original().join(folder).join(&name);
        println!("cargo:rerun-if-changed={}", from.display());
        let mut text = fs::read_to_string(&from).unwrap_or_else(|error| {
            panic!(
                "cannot read {}: {error}; set MOTORBRIDGE_SRC to the folder of the original",
                from.display()
            )
        });
        for replaced in file.replaced {
            let found = text.matches(replaced.text).count();
            assert_eq!(
                found, replaced.count,
                "{name}: '{}' occurs {found} times, not {}",
                replaced.text, replaced.count
            );
            text = text.replace(replaced.text, replaced.by);
        }
        for left in ["std::time::Instant", "SystemTime", "thread::"] {
            assert!(!text.contains(left), "{name}: '{left}' is left in the copy");
        }
        text.push_str(file.appended);
        let to = out.join(&name);
        fs::write(&to, text).expect("write the copy");
        modules.push_str(&format!(
            "#[path = {:?}]\npub mod {};\n",
            to.display().to_string(),
            file.module
        ));
    }
    fs::write(out.join("modules.rs"), modules).expect("write modules.rs");
    println!("cargo:rerun-if-changed=build.rs");
    println!("cargo:rerun-if-changed=../build/copy.rs");
}
