//! Words of the command line: wrong use, help and version.

use crate::folder::{assert_has, Folder, PUMPS};

/// All commands.
pub const COMMANDS: [&str; 20] = [
    "enter", "new", "show", "cuts", "idle", "drawing", "report", "figures", "shares", "joint",
    "save", "sheet", "blocks", "add-part", "add-set", "take-out", "edition", "diff", "page",
    "explain",
];

#[test]
fn help_and_version() {
    let folder = Folder::new();
    let help = folder.run(&["--help"]).done();
    assert_eq!(folder.run(&["-h"]).done(), help);
    assert_eq!(folder.run(&["help"]).done(), help);
    for command in COMMANDS {
        assert_has(&help, &[&format!("\n  {command} ")]);
        let own = folder.run(&[command, "--help"]).done();
        assert!(
            own.starts_with(&format!("usage: nahokipe {command} ")),
            "{own}"
        );
        assert_has(&own, &[&format!("\n    nahokipe {command} ")]);
        assert_eq!(folder.run(&[command, "a", "--help", "b"]).done(), own);
        assert!(own.lines().all(|line| line.chars().count() <= 100), "{own}");
    }
    assert!(
        help.lines().all(|line| line.chars().count() <= 100),
        "{help}"
    );
    let version = format!("nahokipe {}\n", env!("CARGO_PKG_VERSION"));
    assert_eq!(folder.run(&["--version"]).done(), version);
}

/// Each example of the help is a command line that is taken: it fails for want of its files alone.
#[test]
fn examples_of_the_help() {
    let folder = Folder::new();
    for command in COMMANDS {
        let help = folder.run(&[command, "--help"]).done();
        let example = help.lines().find(|line| line.starts_with("    nahokipe "));
        let ran = folder.shell(example.expect("an example").trim());
        match command {
            "explain" => drop(ran.done()),
            _ => assert_has(&ran.failed(), &[": No such file or directory\n"]),
        }
    }
}

/// Words that are no commands, and the nearest that is one.
const MISTYPED: [(&str, &str); 18] = [
    ("takeout", "take-out"),
    ("pge", "page"),
    ("Enter", "enter"),
    ("figure", "figures"),
    ("add-prat", "add-part"),
    ("cut", "cuts"),
    ("Idle", "idle"),
    ("idel", "idle"),
    ("join", "joint"),
    ("Joint", "joint"),
    ("news", "new"),
    ("editions", "edition"),
    ("sheets", "sheet"),
    ("shet", "sheet"),
    ("Save", "save"),
    ("saved", "save"),
    ("block", "blocks"),
    ("Blocks", "blocks"),
];

#[test]
fn no_command_and_unknown_commands() {
    let folder = Folder::new();
    let error = folder.run(&[]).failed();
    assert_has(
        &error,
        &[
            "no command is given",
            "usage: nahokipe COMMAND",
            "  take-out RECORD",
        ],
    );
    for (word, nearest) in MISTYPED {
        let error = folder.run(&[word, "record"]).failed();
        assert_has(
            &error,
            &[&format!(
                "there is no command `{word}`; the nearest is `{nearest}`"
            )],
        );
    }
    let error = folder.run(&["\u{1b}[2J"]).failed();
    assert!(!error.contains('\u{1b}'), "{error:?}");
}

/// Words that are wrong, and what is said of them.
const WRONG_USES: [(&[&str], &str); 92] = [
    (&["enter", "text"], "a word is missing"),
    (
        &["enter", "text", "record", "more"],
        "`more` is a word too many",
    ),
    (&["new"], "a word is missing"),
    (&["new", "row"], "a word is missing"),
    (
        &["new", "drawing", "record", "more"],
        "a drawing takes two words, and a pattern four",
    ),
    (
        &["new", "row", "2", "5"],
        "a word is missing: K, N and RECORD belong behind `row`",
    ),
    (
        &["new", "at-least", "2", "record"],
        "a word is missing: K, N and RECORD belong behind `at-least`",
    ),
    (
        &["new", "ring", "2", "6", "record", "more"],
        "`more` is a word too many",
    ),
    (
        &["new", "rng", "2", "6", "record"],
        "there is no pattern `rng`; the nearest is `ring`\nthe patterns are `at-least`, `row` and `ring`\n",
    ),
    (
        &["new", "tree", "2", "6", "record"],
        "there is no pattern `tree`\nthe patterns are `at-least`, `row` and `ring`\n",
    ),
    (
        &["new", "ring", "record", "2", "6"],
        "`record` is no number K, in digits without a leading zero",
    ),
    (
        &["new", "ring", "02", "6", "record"],
        "`02` is no number K, in digits without a leading zero",
    ),
    (
        &["new", "ring", "2", "", "record"],
        "`` is no number N, in digits without a leading zero",
    ),
    (
        &["new", "ring", "2", "-6", "record"],
        "there is no option `-6`",
    ),
    (
        &["new", "ring", "--", "2", "+6", "record"],
        "`+6` is no number N, in digits without a leading zero",
    ),
    (&["show"], "a word is missing"),
    (&["show", "pumps", "pumps"], "`pumps` is a word too many"),
    (
        &["report", "pumps", "--names", "names"],
        "there is no option `--names`",
    ),
    (
        &["show", "pumps", "--names"],
        "a file belongs behind `--names`",
    ),
    (
        &["show", "pumps", "--names", "a", "--names", "b"],
        "`--names` stands twice",
    ),
    (&["show", "pumps", "-o", "new"], "there is no option `-o`"),
    (&["cuts"], "a word is missing"),
    (&["cuts", "pumps", "3"], "`3` is a word too many"),
    (&["cuts", "pumps", "-o", "new"], "there is no option `-o`"),
    (&["idle"], "a word is missing"),
    (&["idle", "pumps", "16"], "`16` is a word too many"),
    (&["idle", "pumps", "-o", "new"], "there is no option `-o`"),
    (
        &["idle", "pumps", "--names=names"],
        "there is no option `--names=names`; write `--names FILE`",
    ),
    (
        &["idle", "pumps", "--names"],
        "a file belongs behind `--names`",
    ),
    (
        &["idle", "-", "--names", "-"],
        "standard input cannot be read twice",
    ),
    (&["add-part", "pumps", "16"], "`16` is a word too many"),
    (&["add-part", "pumps", "-o"], "a file belongs behind `-o`"),
    (
        &["add-part", "pumps", "-o", "a", "-o", "b"],
        "`-o` stands twice",
    ),
    (&["add-set", "pumps"], "a word is missing"),
    (&["take-out", "pumps"], "a word is missing"),
    (
        &["take-out", "pumps", "7", "12", "7"],
        "number 7 stands twice",
    ),
    (&["take-out", "pumps", "seven"], "`seven` is no part number"),
    (&["take-out", "pumps", "07"], "`07` is no part number"),
    (&["take-out", "pumps", ""], "`` is no part number"),
    (&["take-out", "pumps", "-7"], "there is no option `-7`"),
    (&["take-out", "pumps", "--", "-7"], "`-7` is no part number"),
    (&["edition"], "a word is missing"),
    (&["edition", "pumps", "2", "3"], "`3` is a word too many"),
    (
        &["edition", "pumps", "3"],
        "there is no edition `3`; there are 1 and 2",
    ),
    (&["edition", "pumps", "0"], "there is no edition `0`"),
    (&["edition", "pumps", "02"], "there is no edition `02`"),
    (&["edition", "pumps", "two"], "there is no edition `two`"),
    (&["edition", "pumps", "-2"], "there is no option `-2`"),
    (
        &["edition", "pumps", "-o", "new"],
        "a word is missing: with -o, EDITION is 1 or 2",
    ),
    (
        &["edition", "pumps", "2", "--names", "names"],
        "`--names` goes with RECORD alone",
    ),
    (
        &["edition", "-", "--names", "-"],
        "standard input cannot be read twice",
    ),
    (&["shares", "pumps"], "a word is missing"),
    (&["shares", "pumps", "3", "3"], "number 3 stands twice"),
    (&["joint"], "a word is missing"),
    (&["joint", "pumps"], "a word is missing"),
    (
        &["joint", "pumps", "pumps", "3"],
        "`3` is a word too many",
    ),
    (&["joint", "-", "-"], "standard input cannot be read twice"),
    (
        &["joint", "pumps", "pumps", "--names", "names"],
        "there is no option `--names`",
    ),
    (
        &["joint", "pumps", "pumps", "--names=names"],
        "there is no option `--names=names`\n",
    ),
    (
        &["joint", "pumps", "pumps", "-o", "new"],
        "there is no option `-o`",
    ),
    (&["save", "pumps"], "a word is missing"),
    (&["save", "pumps", "signature"], "a word is missing"),
    (
        &["save", "pumps", "signature", "new", "more"],
        "`more` is a word too many",
    ),
    (
        &["save", "pumps", "new", "signature"],
        "there is no kind `new`\nthe kinds are `path-counts`, `tail`, `signature` and `domination`\n",
    ),
    (
        &["save", "pumps", "signatures", "new"],
        "there is no kind `signatures`; the nearest is `signature`\nthe kinds are",
    ),
    (
        &["save", "pumps", "signature", "-o", "new"],
        "there is no option `-o`",
    ),
    (
        &["save", "pumps", "signature", "new", "--names", "names"],
        "there is no option `--names`",
    ),
    (&["sheet"], "a word is missing"),
    (
        &["sheet", "stored", "tail", "more"],
        "`more` is a word too many",
    ),
    (
        &["sheet", "stored", "new"],
        "there is no kind `new`\nthe kinds are `path-counts`, `tail`, `signature` and `domination`\n",
    ),
    (
        &["sheet", "stored", "tale"],
        "there is no kind `tale`; the nearest is `tail`\nthe kinds are",
    ),
    (
        &["sheet", "stored", "2", "-o", "new"],
        "there is no kind `2`\nthe kinds are",
    ),
    (&["sheet", "stored", "-o"], "a file belongs behind `-o`"),
    (
        &["sheet", "stored", "-o", "a", "-o", "b"],
        "`-o` stands twice",
    ),
    (&["sheet", "stored", "-tail"], "there is no option `-tail`"),
    (
        &["sheet", "stored", "--names", "names"],
        "there is no option `--names`",
    ),
    (&["sheet", "-o", "new"], "a word is missing"),
    (&["blocks"], "a word is missing"),
    (&["blocks", "pumps"], "a word is missing"),
    (&["blocks", "pumps", "-o", "new"], "a word is missing"),
    (
        &["blocks", "pumps", "3"],
        "`3` is not NUMBER=BLOCK, as in `7=pump.sheet` or `7=0,0,2,1`",
    ),
    (
        &["blocks", "3=stored", "pumps"],
        "`pumps` is not NUMBER=BLOCK, as in `7=pump.sheet` or `7=0,0,2,1`",
    ),
    (
        &["blocks", "pumps", "three=stored"],
        "`three` is no part number, in digits without a leading zero",
    ),
    (
        &["blocks", "pumps", "3=stored", "7=stored", "3=stored"],
        "number 3 stands twice",
    ),
    (
        &["blocks", "pumps", "-3=stored"],
        "there is no option `-3=stored`",
    ),
    (
        &["blocks", "-", "3=-"],
        "standard input cannot be read twice",
    ),
    (
        &["blocks", "pumps", "3=stored", "-o"],
        "a file belongs behind `-o`",
    ),
    (
        &["blocks", "pumps", "3=stored", "--names=names"],
        "there is no option `--names=names`; write `--names FILE`",
    ),
    (&["diff", "pumps"], "a word is missing"),
    (&["diff", "-", "-"], "standard input cannot be read twice"),
    (
        &["show", "-", "--names", "-"],
        "standard input cannot be read twice",
    ),
    (
        &["page", "pumps", "--output", "x"],
        "there is no option `--output`",
    ),
];

#[test]
fn wrong_use() {
    let folder = Folder::with("pumps", PUMPS);
    for (words, why) in WRONG_USES {
        let error = folder.run(words).failed();
        let command = words[0];
        let usage = format!("usage: nahokipe {command} ");
        let help = format!("`nahokipe {command} --help` tells more");
        assert_has(
            &error,
            &[&format!("nahokipe: {command}: "), why, &usage, &help],
        );
    }
    assert_eq!(
        (folder.names(), folder.read("pumps")),
        (vec!["pumps".to_string()], PUMPS.to_vec())
    );
}

/// Behind `--` a word is no option, and a number that is longer than 64 bits may stand beside another such.
#[test]
fn words_behind_a_double_dash() {
    let folder = Folder::with("-o", PUMPS);
    assert_has(
        &folder.run(&["show", "--", "-o"]).done(),
        &["parts 3 7 12\n"],
    );
    let long = ["18446744073709551616", "18446744073709551617"];
    folder
        .run(&["take-out", "--", "-o", long[0], long[1]])
        .refused(17, 0);
    let error = folder
        .run(&["take-out", "--", "-o", long[0], long[0]])
        .failed();
    assert_has(&error, &[&format!("number {} stands twice", long[0])]);
    folder.run(&["take-out", "--", "-o", "7"]).done();
    assert_has(&folder.run(&["show", "./-o"]).done(), &["parts 3 12\n"]);
}
