//! What `make package` makes and `make install` puts, used as the README says.
//! Where the machine lacks something a test says so in one line and passes.

mod compiling;
mod machine;

use compiling::library;
use host::programs::built::built;
use host::second::listing::listing;
use host::second::replay::replay;
use machine::{has, repository, text};
use std::fs::{self, File};
use std::os::unix::fs::symlink;
use std::path::{Path, PathBuf};
use std::process::{Command, Output};

/// Runs a command that ends well.
fn ends_well(command: &mut Command) -> Output {
    let output = command.output().expect("it runs");
    let errors = String::from_utf8_lossy(&output.stderr);
    assert!(output.status.success(), "{command:?}: {errors}");
    output
}

/// A folder for a test, empty.
fn emptied(name: &str) -> PathBuf {
    let folder = Path::new(env!("CARGO_TARGET_TMPDIR")).join(name);
    let _ = fs::remove_dir_all(&folder);
    fs::create_dir_all(&folder).expect("a folder");
    folder
}

/// Runs make on what is built already, which stands in a folder of the test and is newer than every source. It answers the
/// folder of what make makes.
fn made(name: &str, words: &[&str]) -> Option<PathBuf> {
    let library = library()?;
    if !["make", "cc", "tar"].iter().all(|command| has(command)) {
        return None;
    }
    let folder = emptied(name);
    let dist = folder.join("dist");
    fs::create_dir(&dist).expect("a folder");
    let archive = folder.join("libin656.a");
    ends_well(Command::new("cp").arg(library).arg(&archive));
    for program in ["listing", "replay", "scenes"] {
        ends_well(Command::new("cp").arg(built(program)).arg(&dist));
    }
    let make = Command::new("make")
        .args(words)
        .arg(format!("DIST={}", dist.display()))
        .arg(format!("ARCHIVE={}", archive.display()))
        .current_dir(repository(""))
        .env_remove("MAKEFLAGS")
        .env_remove("MAKELEVEL")
        .output();
    let make = make.expect("make runs");
    let errors = String::from_utf8_lossy(&make.stderr);
    assert!(make.status.success(), "{errors}");
    let said = String::from_utf8_lossy(&make.stdout);
    assert!(!said.contains("proving"), "{said}");
    Some(dist)
}

/// The file in a folder with this end of its name.
fn with_end(folder: &Path, end: &str) -> PathBuf {
    let entries = fs::read_dir(folder).expect("a folder");
    let mut paths = entries.map(|entry| entry.expect("an entry").path());
    paths
        .find(|path| path.to_string_lossy().ends_with(end))
        .expect(end)
}

/// The listing and the replay of a prefix print what they should of the samples, and each page of the manual is there.
fn programs_run(prefix: &Path) {
    let prints = |program: &str, sample: &str| {
        let file = File::open(repository("samples").join(sample)).expect("a sample");
        let mut command = Command::new(prefix.join("bin").join(program));
        ends_well(command.stdin(file)).stdout
    };
    for sample in ["line1.cap", "line2.cap", "line3.cap", "noise.cap"] {
        let bytes = fs::read(repository("samples").join(sample)).expect("a sample");
        assert!(prints("listing", sample) == listing(&bytes).as_bytes());
    }
    let log = fs::read(repository("samples/school.log")).expect("a sample");
    assert!(prints("replay", "school.log") == replay(&log).as_bytes());
    let man = prefix.join("share/man");
    for page in fs::read_dir(repository("man")).expect("the manual") {
        let page = page.expect("an entry").file_name().into_string();
        let page = page.expect("a name");
        let section = page.rsplit('.').next().unwrap_or("");
        assert!(man.join(format!("man{section}")).join(&page).is_file());
    }
    let docs = prefix.join("share/doc/in656");
    for file in ["README.md", "docs/REPLAY.md", "examples/panel.c"] {
        assert_eq!(fs::read_to_string(docs.join(file)).expect(file), text(file));
    }
}

/// The README's line for an installed library, and the one that runs the program, as they are printed.
fn readme_lines_work(folder: &Path, environment: &[(&str, &Path)]) {
    symlink(repository("examples"), folder.join("examples")).expect("a link");
    let readme = text("README.md");
    let printed = |begin: &str| {
        let mut lines = readme.lines().filter_map(|line| line.strip_prefix("    "));
        lines
            .find(|line| line.starts_with(begin))
            .expect(begin)
            .to_string()
    };
    let shell = |line: &str| {
        let mut command = Command::new("sh");
        command.args(["-ec", line]).current_dir(folder);
        command.envs(environment.iter().copied());
        String::from_utf8_lossy(&ends_well(&mut command).stdout).into_owned()
    };
    shell(&printed("cc -o read examples/read.c $(pkg-config "));
    assert_eq!(
        shell(&printed("printf '\\n08A0AAA5\\r' | ./read")),
        "ok A 0\n"
    );
}

/// The Debian package, unpacked into a folder.
#[test]
fn the_debian_package() {
    if !has("dpkg-deb") {
        return;
    }
    let Some(dist) = made("packages-deb", &["package"]) else {
        return;
    };
    let package = with_end(&dist, ".deb");
    let root = emptied("packages-deb-root");
    ends_well(Command::new("dpkg-deb").arg("-x").args([&package, &root]));
    let mut fields = Command::new("dpkg-deb");
    let depends = ends_well(fields.arg("-f").arg(&package).arg("Depends")).stdout;
    let depends = String::from_utf8_lossy(&depends).trim().to_string();
    assert!(
        depends.starts_with("libc6 (>= 2.") && !depends.contains(','),
        "{depends}"
    );
    let usr = root.join("usr");
    programs_run(&usr);
    assert!(usr.join("share/doc/in656/copyright").is_file());
    let read = root.join("read");
    let mut compiler = Command::new("cc");
    compiler.arg("-I").arg(usr.join("include"));
    compiler
        .arg("-o")
        .args([&read, &repository("examples/read.c")]);
    ends_well(compiler.arg("-L").arg(usr.join("lib")).arg("-lin656"));
    let mut program = Command::new("sh");
    program
        .args(["-c", "printf '\\n08A0AAA5\\r' | \"$0\""])
        .arg(&read);
    program.env("LD_LIBRARY_PATH", usr.join("lib"));
    assert_eq!(ends_well(&mut program).stdout, b"ok A 0\n");
}

/// The archive, unpacked at some place.
#[test]
fn the_archive() {
    let Some(dist) = made("packages-tar", &["package"]) else {
        return;
    };
    let folder = emptied("packages-tar-place");
    let mut tar = Command::new("tar");
    ends_well(
        tar.arg("-xzf")
            .arg(with_end(&dist, ".tar.gz"))
            .arg("-C")
            .arg(&folder),
    );
    let prefix = with_end(&folder, "");
    programs_run(&prefix);
    if has("pkg-config") {
        let configured = prefix.join("lib/pkgconfig");
        readme_lines_work(&folder, &[("PKG_CONFIG_PATH", &configured)]);
    }
}

/// An installation with a prefix of one's own.
#[test]
fn an_installation() {
    let prefix = emptied("packages-own");
    let words = format!("PREFIX={}", prefix.display());
    if made("packages-install", &["install", &words]).is_none() {
        return;
    }
    programs_run(&prefix);
    if has("pkg-config") {
        let configured = prefix.join("lib/pkgconfig");
        let folder = emptied("packages-own-place");
        readme_lines_work(&folder, &[("PKG_CONFIG_PATH", &configured)]);
    }
}
