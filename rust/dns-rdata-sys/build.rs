//! Links the library, an archive that was proved and built before: this script compiles nothing of it but two files in C.
//!
//! - `DNS_RDATA_LIB` names the folder with the archive. Without it the script looks into `lib/` of the package. In the
//!   repository it then takes the ready-made archive in `dist/`, if `tools/ready.sh` says that it was made from the sources
//!   that are here, and otherwise the one that `rt lib` made.
//! - `DNS_RDATA_HEAP` names an archive that defines `rattle_alloc`, `rattle_realloc` and `rattle_dealloc`. Without it, and
//!   unless the library's archive has them, `heap.c` is compiled, which takes them from malloc.
//! - `texts.c`, the texts of statuses, is compiled unless the library's archive has it.

use std::env;
use std::fs;
use std::path::{Path, PathBuf};
use std::process::Command;

fn main() {
    for name in ["DNS_RDATA_LIB", "DNS_RDATA_HEAP", "DOCS_RS", "CC"] {
        println!("cargo:rerun-if-env-changed={name}");
    }
    println!("cargo:include={}", in_c("include").display());
    // docs.rs builds no program, so nothing has to be linked there.
    if env::var_os("DOCS_RS").is_some() {
        return;
    }
    let archive = library();
    link(&archive);
    if let Some(heap) = env::var_os("DNS_RDATA_HEAP") {
        link(Path::new(&heap));
    } else if !defines(&archive, "rattle_alloc") {
        link(&compiled("heap"));
    }
    if !defines(&archive, "dns_rdata_strerror") {
        link(&compiled("texts"));
    }
}

fn package() -> PathBuf {
    PathBuf::from(env::var_os("CARGO_MANIFEST_DIR").expect("cargo sets CARGO_MANIFEST_DIR"))
}

/// A file or folder that a package has, and that is in the folder `c` of the repository.
fn in_c(name: &str) -> PathBuf {
    let packaged = package().join(name);
    if packaged.exists() {
        return packaged;
    }
    package().join("../../c").join(name)
}

/// The first archive of the library in the folders where it may be.
fn library() -> PathBuf {
    let folders = folders();
    let archives = folders
        .iter()
        .flat_map(|folder| ["libdns_rdata.a", "libdns_rdata_c.a"].map(|name| folder.join(name)));
    let Some(archive) = archives.into_iter().find(|archive| archive.is_file()) else {
        panic!(
            "no libdns_rdata.a or libdns_rdata_c.a in {folders:?}: set DNS_RDATA_LIB to the folder that has one, \
             or make one with `make -C c` in the repository"
        );
    };
    archive
}

fn folders() -> Vec<PathBuf> {
    if let Some(folder) = env::var_os("DNS_RDATA_LIB").filter(|it| !it.is_empty()) {
        return vec![PathBuf::from(folder)];
    }
    let platform = of_cargo("CARGO_CFG_TARGET_ARCH") + "-" + &of_cargo("CARGO_CFG_TARGET_OS");
    let repository = package().join("../..");
    let mut folders = vec![package().join("lib").join(&platform)];
    if repository.join("crates.txt").is_file() && !folders[0].is_dir() {
        println!(
            "cargo:rerun-if-changed={}",
            repository.join("crates").display()
        );
        folders.extend(ready_made(&repository));
        if platform == "x86_64-linux" {
            folders.push(repository.join("crates/dns_rdata_c/out"));
        }
    }
    folders
}

/// The folder of the ready-made archive for the target, if there is one that was made from the sources that are here.
fn ready_made(repository: &Path) -> Option<PathBuf> {
    let script = repository.join("tools/ready.sh");
    let output = Command::new(script)
        .args(["libdns_rdata_c.a", &of_cargo("TARGET")])
        .output()
        .ok()?;
    if !output.status.success() {
        // Says why the archive that was built here is taken instead.
        println!(
            "cargo:warning={}",
            String::from_utf8_lossy(&output.stderr).trim()
        );
        return None;
    }
    let path = PathBuf::from(String::from_utf8(output.stdout).ok()?.trim());
    path.parent().map(Path::to_path_buf)
}

fn of_cargo(name: &str) -> String {
    env::var(name).unwrap_or_else(|_| panic!("cargo sets {name}"))
}

/// Links an archive whose file is named libNAME.a.
fn link(archive: &Path) {
    let name = archive
        .file_stem()
        .and_then(|stem| stem.to_str())
        .and_then(|stem| stem.strip_prefix("lib"));
    let (Some(name), Some(folder)) = (name, archive.parent()) else {
        panic!("{} is not named libNAME.a", archive.display());
    };
    println!("cargo:rerun-if-changed={}", archive.display());
    println!("cargo:rustc-link-search=native={}", folder.display());
    println!("cargo:rustc-link-lib=static={name}");
}

/// Whether an archive defines a function: the first member of an archive lists what all its members define.
fn defines(archive: &Path, function: &str) -> bool {
    let octets = fs::read(archive).unwrap_or_else(|error| panic!("{}: {error}", archive.display()));
    defined_names(&octets).is_some_and(|names| {
        names
            .split(|&octet| octet == 0)
            .any(|name| name == function.as_bytes())
    })
}

/// The names in the first member, each with a 0 after it. The member comes after the 8 octets of the magic and a header of
/// 60, which says its size in decimal digits; before the names are their number and an offset for each, of 4 octets.
fn defined_names(octets: &[u8]) -> Option<&[u8]> {
    let size: usize = std::str::from_utf8(octets.get(56..66)?)
        .ok()?
        .trim()
        .parse()
        .ok()?;
    let member = octets.get(68..68 + size)?;
    let many = u32::from_be_bytes(member.get(..4)?.try_into().ok()?) as usize;
    member.get(4 + 4 * many..)
}

/// A file in C of the package as an archive.
fn compiled(name: &str) -> PathBuf {
    let source = in_c(&format!("{name}.c"));
    let out = PathBuf::from(env::var_os("OUT_DIR").expect("cargo sets OUT_DIR"));
    let object = out.join(name).with_extension("o");
    let archive = out.join(format!("libdns_rdata_{name}.a"));
    println!("cargo:rerun-if-changed={}", source.display());
    run(Command::new(compiler())
        .args(["-O2", "-fPIC", "-c", "-I"])
        .arg(in_c("include"))
        .arg("-o")
        .arg(&object)
        .arg(source));
    run(Command::new("ar").arg("crs").arg(&archive).arg(&object));
    archive
}

/// The C compiler: `CC`, or the one that Debian has for the target.
fn compiler() -> String {
    let (host, target) = (env::var("HOST"), env::var("TARGET"));
    env::var("CC").unwrap_or_else(|_| match target {
        Ok(target) if Ok(&target) != host.as_ref() => target.replace("-unknown", "") + "-gcc",
        _ => "cc".to_owned(),
    })
}

fn run(command: &mut Command) {
    match command.status() {
        Ok(status) if status.success() => {}
        Ok(status) => panic!("{command:?}: {status}"),
        Err(error) => panic!("{command:?}: {error}: is a C compiler installed?"),
    }
}
