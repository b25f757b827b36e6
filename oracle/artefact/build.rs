//! Copies the published files byte for byte into ../target/artefact, and the stand-ins beside them, so that every `mod` line
//! finds its file. ARTEFACT_SRC names the folder docs/src. For the crate `artefact_once` the files go to ../target/artefact_once, and one has a line more.
use std::{
    env,
    fs::{self, File},
    io::Write,
    path::{Path, PathBuf},
};

/// The file that `artefact_once` has changed, a line of it that stands once, and the line that is put before that one: the loop over the blocks ends there, and the reordering is
/// a block of its own after it (M-102: "dequantises and transforms all blocks, then reorders once").
const ONCE: (&str, &str, &str) = ("pipeline/scalar/coef.rs", "            // 8x8 -> 64x1\n", "        } {\n");

fn files(folder: &Path) -> Vec<PathBuf> {
    let entries = fs::read_dir(folder).unwrap_or_else(|e| panic!("{}: {e}; set ARTEFACT_SRC", folder.display()));
    let paths = entries.map(|entry| entry.expect("an entry of the folder").path());
    paths.flat_map(|path| if path.is_dir() { files(&path) } else { vec![path] }).collect()
}

fn with_line(text: Vec<u8>) -> Vec<u8> {
    let (_, before, line) = ONCE;
    let text = String::from_utf8(text).expect("a text");
    assert_eq!(text.matches(before).count(), 1, "{before:?} stands once");
    text.replace(before, &[line, before].concat()).into_bytes()
}

/// The copy has the file's time, so that cargo sees a later change of either and has them copied anew.
fn copy(from: &Path, to: &Path, edit: fn(Vec<u8>) -> Vec<u8>) -> std::io::Result<()> {
    fs::create_dir_all(to.parent().expect("a folder"))?;
    let mut file = File::create_new(to)?;
    file.write_all(&edit(fs::read(from)?))?;
    file.set_modified(fs::metadata(from)?.modified()?)
}

fn main() {
    let here = PathBuf::from(env::var("CARGO_MANIFEST_DIR").expect("set by cargo"));
    let docs = env::var("ARTEFACT_SRC").unwrap_or_else(|_| "../../shared/docs/src".into());
    let source = here.join("..").join(docs).join("backend/artefact-core");
    let name = env::var("CARGO_PKG_NAME").expect("set by cargo");
    let tree = here.join("../target").join(&name);
    let _ = fs::remove_dir_all(&tree);
    println!("cargo::rerun-if-env-changed=ARTEFACT_SRC");
    for root in [source, here.join("../stand-ins")] {
        for file in files(&root) {
            let path = file.strip_prefix(&root).expect("a file of this folder");
            let edited = name == "artefact_once" && path == Path::new(ONCE.0);
            let to = tree.join(path);
            copy(&file, &to, if edited { with_line } else { |text| text })
                .unwrap_or_else(|e| panic!("{}: {e}", file.display()));
            println!("cargo::rerun-if-changed={}", file.display());
            println!("cargo::rerun-if-changed={}", to.display());
        }
    }
}
