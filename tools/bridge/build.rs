//! Links the static library of the proved queues, which `tools/bridge/build` makes where it is missing, and refuses to
//! build where the library and the bridge don't lay out alike what they hand over. A library for another machine than
//! this one stands in a folder of that machine's name.
use std::fs::read_to_string;
use std::path::{Path, PathBuf};

/// Debian's names of machines by the compiler's.
const MACHINES: [(&str, &str); 2] = [("x86_64-unknown-linux-gnu", "amd64"), ("aarch64-unknown-linux-gnu", "arm64")];

fn main() {
    let folder = std::env::var_os("DOWNLINK").map_or_else(folder_of_library, PathBuf::from);
    println!("cargo:rerun-if-env-changed=DOWNLINK");
    look_for("downlink_c", &folder);
    // By names alone: before a library is first built, its folder isn't there to step out of.
    let out = folder.ancestors().find(|it| it.ends_with("out"));
    let crates = out.and_then(|it| it.ancestors().nth(2)).expect("the library's folder stands in that of a crate");
    for record in ["FrameTold", "Taken", "Chosen", "Added", "Changed"] {
        let of_library = fields(&crates.join("downlink_c/src/numbers.rt"), &format!("pub struct {record} {{"));
        let of_bridge = fields(Path::new("src/outbound/air/proved_queues.rs"), &format!("struct {record} {{"));
        assert_eq!(of_library, of_bridge, "the library and the bridge lay {record} out differently");
    }
}

/// Where `.ci/library` puts the library.
fn folder_of_library() -> PathBuf {
    let of_cargo = |name| std::env::var(name).unwrap_or_else(|fault| panic!("{name}: {fault}"));
    let out = Path::new(&of_cargo("CARGO_MANIFEST_DIR")).join("../../crates/downlink_c/out");
    let target = of_cargo("TARGET");
    if target == of_cargo("HOST") {
        return out;
    }
    let machine = MACHINES.iter().find(|(name, _)| *name == target);
    out.join(machine.unwrap_or_else(|| panic!("no library is built for {target}")).1)
}

/// In this folder a static library is looked for.
fn look_for(library: &str, folder: &Path) {
    println!("cargo:rerun-if-changed={}", folder.join(format!("lib{library}.a")).display());
    println!("cargo:rustc-link-search=native={}", folder.display());
}

/// The fields of a record that is laid out as C does it: their names and types, in order.
fn fields(source: &Path, record: &str) -> Vec<String> {
    println!("cargo:rerun-if-changed={}", source.display());
    let text = read_to_string(source).unwrap_or_else(|fault| panic!("{}: {fault}", source.display()));
    let lines: Vec<&str> = text.lines().map(str::trim).collect();
    let begin = lines.iter().position(|line| *line == record).unwrap_or_else(|| panic!("no {record}"));
    let attributes = lines[..begin].iter().rev().take_while(|line| line.starts_with("#["));
    assert!(attributes.into_iter().any(|line| *line == "#[repr(C)]"), "{record} isn't laid out as C does it");
    let inside = lines[begin + 1..].iter().take_while(|line| **line != "}").filter(|line| !line.starts_with("///"));
    inside.map(|line| line.trim_start_matches("pub ").to_owned()).collect()
}
