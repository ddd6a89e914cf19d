//! The script `nahokipe` at the repository's root, with stand-ins for the toolchain and for cargo: what it builds when, and what it says.

use crate::folder::{assert_has, command, programs_behind, start, Folder, Ran};
use std::env;
use std::fs;
use std::os::unix::fs::symlink;
use std::path::Path;
use std::process::{Command, Stdio};

/// A toolchain that proves at once, unless it is told to fail, and writes down that it ran.
const TOOLCHAIN: &str = r#"#!/bin/sh
case $1 in
version) echo "kit ${KIT:-1}" ;;
lib)
    echo "${PWD##*/}" >>"$RUNS"
    for crate in base middle; do echo "crate $crate: modules loaded=1 checked=1"; done
    [ -z "${FAULT:-}" ] || { echo "logic=not-proved"; exit 1; }
    echo "crate base: modules loaded=2 checked=0" >&2
    echo "crate nahokipe: modules loaded=1 checked=1" ;;
esac
"#;

/// A cargo that makes a program that prints its words and its folder.
const CARGO: &str = r#"#!/bin/sh
cat >/dev/null
mkdir -p "$CARGO_TARGET_DIR/release"
printf '%s\n' '#!/bin/sh' 'echo "$PWD: $*"; cat' >"$CARGO_TARGET_DIR/release/nahokipe"
chmod +x "$CARGO_TARGET_DIR/release/nahokipe"
"#;

/// A small repository with a blank in its path, and the stand-ins beside it.
struct Repository {
    folder: Folder,
}

impl Repository {
    fn new() -> Repository {
        let folder = Folder::new();
        for path in [
            "a tree/crates/base/src",
            "a tree/crates/base/specs",
            "a tree/crates/base/proofs",
            "a tree/crates/nahokipe/src",
            "a tree/host/src",
            "a tree/host/desk",
            "tools",
        ] {
            fs::create_dir_all(folder.file(path)).expect("a folder");
        }
        folder.write(
            "a tree/crates.txt",
            "# crates\nbase:\nmiddle: base io\nother: base\nnahokipe staticlib: base middle # the library\n",
        );
        for file in [
            "crates/base/src/lib.rt",
            "crates/nahokipe/src/lib.rt",
            "host/src/lib.rs",
            "host/desk/main.rs",
        ] {
            folder.write(&format!("a tree/{file}"), "source");
        }
        for file in ["host/Cargo.toml", "host/Cargo.lock", "host/build.rs"] {
            folder.write(&format!("a tree/{file}"), "source");
        }
        let script = Path::new(env!("CARGO_MANIFEST_DIR")).join("../nahokipe");
        let script = fs::read(script).expect("the script");
        folder.write_program("a tree/nahokipe", script);
        folder.write_program("tools/rt", TOOLCHAIN);
        folder.write_program("tools/cargo", CARGO);
        Repository { folder }
    }

    /// The script by one of its names, or the shell by its path, in the folder beside the tree; the stand-ins come before the system's
    /// programs.
    fn command(&self, script: &str, words: &[&str]) -> Command {
        let tools = self.folder.file("tools");
        let mut command = command(self.folder.file(script), &tools);
        command.args(words);
        command.env("PATH", programs_behind(&tools));
        command.env("RUNS", self.folder.file("runs"));
        command
    }

    fn run(&self, words: &[&str]) -> Ran {
        Ran::of(self.command("a tree/nahokipe", words))
    }

    /// How often the toolchain has proved.
    fn proved(&self) -> usize {
        let runs = fs::read_to_string(self.folder.file("runs"));
        runs.unwrap_or_default().lines().count()
    }
}

/// The first run builds and says how far it is; later ones pass their words on, in the caller's folder, with standard input.
#[test]
fn the_first_run_builds() {
    let repository = Repository::new();
    let ran = repository.run(&["show", "a file"]);
    let tools = repository.folder.file("tools");
    assert_eq!(
        (ran.status, ran.text()),
        (
            Some(0),
            format!("{}: show a file\n", tools.display()).as_str()
        )
    );
    let log = repository.folder.file("a tree/built/log");
    assert_has(
        &ran.error,
        &[
            "building the program",
            "3 of 3 crates proved",
            &log.display().to_string(),
        ],
    );
    assert_eq!(repository.folder.read("runs"), b"nahokipe\n");
    let mut command = repository.command("a tree/nahokipe", &["show", "-"]);
    let input = fs::File::open(repository.folder.file("runs")).expect("a file");
    command.stdin(input);
    let text = Ran::of(command).done();
    assert!(text.ends_with(": show -\nnahokipe\n"), "{text}");
    assert_eq!(repository.proved(), 1);
}

/// What was built stays until a source, the list of crates, the toolchain or the script itself is another.
#[test]
fn sources_that_changed() {
    let repository = Repository::new();
    repository.run(&["x"]);
    let sources = [
        "crates.txt",
        "crates/base/src/lib.rt",
        "crates/nahokipe/src/new.rt",
        "crates/base/specs/new.rt",
        "crates/base/proofs/new.rt",
        "nahokipe",
        "host/desk/main.rs",
        "host/src/lib.rs",
        "host/Cargo.toml",
        "host/Cargo.lock",
        "host/build.rs",
    ];
    for (index, source) in sources.iter().enumerate() {
        let source = format!("a tree/{source}");
        let before = fs::read(repository.folder.file(&source)).unwrap_or_default();
        // The script is one of them, so all are written as programs.
        repository
            .folder
            .write_program(&source, [&before[..], b"\n# more"].concat());
        assert_has(&repository.run(&["x"]).error, &["3 of 3 crates proved"]);
        assert_eq!(repository.run(&["x"]).error, "", "{source}");
        assert_eq!(repository.proved(), index + 2);
    }
    let mut other = repository.command("a tree/nahokipe", &["x"]);
    other.env("KIT", "2");
    assert_has(&Ran::of(other).error, &["building the program"]);
    repository.folder.write("a tree/README.md", "no source");
    let mut other = repository.command("a tree/nahokipe", &["x"]);
    other.env("KIT", "2");
    assert_eq!(Ran::of(other).error, "");
}

#[test]
fn by_symbolic_links() {
    let repository = Repository::new();
    symlink("a tree/nahokipe", repository.folder.file("first")).expect("a link");
    symlink(
        repository.folder.file("first"),
        repository.folder.file("second"),
    )
    .expect("a link");
    for link in ["first", "second"] {
        let ran = Ran::of(repository.command(link, &["x"]));
        assert_eq!(ran.status, Some(0), "{ran:?}");
    }
    assert_eq!(repository.proved(), 1);
    assert!(repository.folder.file("a tree/built/nahokipe").exists());
}

/// What is not proved, or does not compile: the end of the log, its name and status 2, and the next run tries again.
#[test]
fn builds_that_fail() {
    let repository = Repository::new();
    let mut command = repository.command("a tree/nahokipe", &["x"]);
    command.env("FAULT", "1");
    let ran = Ran::of(command);
    assert_eq!((ran.status, ran.text()), (Some(2), ""));
    assert_has(
        &ran.error,
        &["the library is not proved", "built/log", "logic=not-proved"],
    );
    let cargo = repository.folder.read("tools/cargo");
    repository.folder.write_program(
        "tools/cargo",
        "#!/bin/sh\necho 'error: no such thing'\nexit 101\n",
    );
    let ran = repository.run(&["x"]);
    assert_eq!((ran.status, ran.text()), (Some(2), ""));
    assert_has(
        &ran.error,
        &[
            "the program does not compile",
            "built/log",
            "error: no such thing",
        ],
    );
    repository.folder.write_program("tools/cargo", cargo);
    assert_eq!(repository.run(&["x"]).status, Some(0));
    assert_eq!(repository.proved(), 3);
}

/// The script as the shell's word, by its name alone, in the repository's folder.
#[test]
fn by_the_shell() {
    let repository = Repository::new();
    let tree = repository.folder.file("a tree");
    let mut command = repository.command("/bin/sh", &["nahokipe", "show", "a file"]);
    command.current_dir(&tree);
    let ran = Ran::of(command);
    let printed = format!("{}: show a file\n", tree.display());
    assert_eq!((ran.status, ran.text()), (Some(0), printed.as_str()));
}

/// Without the list of crates nothing is known to be proved, so nothing is compiled.
#[test]
fn without_the_list_of_crates() {
    let repository = Repository::new();
    fs::remove_file(repository.folder.file("a tree/crates.txt")).expect("the list removed");
    let ran = repository.run(&["x"]);
    assert_eq!((ran.status, ran.text()), (Some(2), ""), "{ran:?}");
    assert_has(&ran.error, &["crates.txt"]);
    assert!(!repository.folder.file("a tree/built/cargo").exists());
    assert!(!repository.folder.file("a tree/built/nahokipe").exists());
}

/// A file stands where the folder for what is built belongs.
#[test]
fn without_a_folder_for_what_is_built() {
    let repository = Repository::new();
    repository.folder.write("a tree/built", "no folder");
    let ran = repository.run(&["x"]);
    assert_eq!((ran.status, ran.text()), (Some(2), ""), "{ran:?}");
    assert_has(&ran.error, &["nahokipe: ", "built"]);
    assert_eq!(repository.proved(), 0);
}

/// Of two runs at once one builds, and the other waits for it.
#[test]
fn two_runs_at_once() {
    let repository = Repository::new();
    let started = |_| {
        let mut command = repository.command("a tree/nahokipe", &["x"]);
        start(command.stdout(Stdio::null()).stderr(Stdio::null())).expect("a run")
    };
    let runs: Vec<_> = (0..4).map(started).collect();
    for mut run in runs {
        assert!(run.wait().expect("the run's end").success());
    }
    assert_eq!(repository.proved(), 1);
}

/// Links all programs into a folder, but not the toolchain; of two with one name the one that is found first.
fn link_programs_but_the_toolchain(tools: &Path) {
    let folders = env::var_os("PATH").expect("the folders with programs");
    let entries = env::split_paths(&folders).filter_map(|folder| fs::read_dir(folder).ok());
    for entry in entries.flatten() {
        let path = entry.expect("an entry").path();
        let link = tools.join(path.file_name().expect("a name"));
        if !link.ends_with("rt") && fs::symlink_metadata(&link).is_err() {
            symlink(&path, link).expect("a link");
        }
    }
}

/// Without the toolchain a program that is built from these sources will do; another is not to be had.
#[test]
fn without_the_toolchain() {
    let repository = Repository::new();
    repository.run(&["x"]);
    let tools = repository.folder.file("others");
    fs::create_dir(&tools).expect("a folder");
    link_programs_but_the_toolchain(&tools);
    let run = || {
        let mut command = repository.command("a tree/nahokipe", &["x"]);
        command.env("PATH", &tools);
        Ran::of(command)
    };
    run().done();
    repository
        .folder
        .write("a tree/host/src/lib.rs", "another source");
    let error = run().failed();
    assert_has(&error, &["needs the Rattle toolchain (rt)"]);
}
