//! Finds the archive that the crate links, and links a copy of it.

use std::path::{Path, PathBuf};
use std::{env, fs};

/// An archive, and what is known of its proof.
struct Archive {
    path: PathBuf,
    proof: String,
}

/// The archive of a release, which says in a file beside it whether it is proved.
fn released(path: PathBuf) -> Archive {
    let said = fs::read_to_string(path.with_file_name("PROOF"));
    let proof = match &said {
        Ok(text) => text.trim(),
        Err(_) => "whether the archive is proved is not known",
    };
    Archive {
        proof: proof.to_string(),
        path,
    }
}

/// Where the archive may be, the first that is there: in the file that KIOSKBASIL_ARCHIVE names, in
/// `lib/` of this crate, as a release has it, or where `rt lib` or `./quick` of the repository
/// leaves it.
fn archive(here: &Path) -> Result<Archive, String> {
    let of = |path: PathBuf, proof: &str| Archive {
        path,
        proof: proof.to_string(),
    };
    if let Some(path) = env::var_os("KIOSKBASIL_ARCHIVE") {
        let unknown = "of KIOSKBASIL_ARCHIVE: whether the archive is proved is not known";
        return Ok(of(PathBuf::from(path), unknown));
    }
    let built = here.join("../../crates/bus_c/out");
    let given = here.join("lib/libbus_c.a");
    if given.is_file() {
        return Ok(released(given));
    }
    let proved = built.join("libbus_c.a");
    if proved.is_file() {
        return Ok(of(proved, "proved, by `rt lib` of a clone"));
    }
    let quick = built.join("libbus_c.quick.a");
    if quick.is_file() {
        return Ok(of(quick, "NOT PROVED, by `./quick` of a clone"));
    }
    Err(
        "there is no libbus_c.a. `rt lib` in crates/bus_c proves and builds it, which takes 20 \
         minutes or more; `./quick bus_c` builds it without a proof in half a minute, longer \
         beside other work; or set KIOSKBASIL_ARCHIVE to the file, of any name"
            .to_string(),
    )
}

/// Has the archive linked from a copy in the folder of this build, under the name that the linker
/// looks for. `VERSION` says what is known of its proof.
fn link() -> Result<(), String> {
    let here = env::var_os("CARGO_MANIFEST_DIR").ok_or("CARGO_MANIFEST_DIR is not set")?;
    let out = PathBuf::from(env::var_os("OUT_DIR").ok_or("OUT_DIR is not set")?);
    let Archive { path, proof } = archive(Path::new(&here))?;
    println!("cargo:rerun-if-changed={}", path.display());
    println!("cargo:rustc-env=KIOSKBASIL_PROOF={proof}");
    if proof.starts_with("NOT PROVED") {
        println!("cargo:warning=linking {}: {proof}", path.display());
    }
    fs::copy(&path, out.join("libbus_c.a")).map_err(|e| format!("{}: {e}", path.display()))?;
    println!("cargo:rustc-link-search=native={}", out.display());
    println!("cargo:rustc-link-lib=static=bus_c");
    Ok(())
}

fn main() {
    println!("cargo:rerun-if-env-changed=KIOSKBASIL_ARCHIVE");
    if let Err(why) = link() {
        eprintln!("kioskbasil: {why}");
        std::process::exit(1);
    }
}
