//! Wrong command lines get the usage on standard error and status 2; right
//! ones work from any folder and through a link.

use crate::feigned_program::Folder;
use crate::script::{file_with, run_of, shell, ROOT};
use std::os::unix::fs::symlink;

/// The usage as `--help` prints it.
fn usage() -> Option<String> {
    let end = shell("./run --help")?;
    assert_eq!((end.status, &end.said[..]), (Some(0), ""));
    Some(end.printed)
}

#[test]
fn help_has_a_line_for_each_way() {
    let Some(usage) = usage() else { return };
    assert_eq!(shell("./run -h").unwrap().printed, usage);
    for way in [
        "FILE",
        "--text FILE",
        "--words FILE",
        "--made SEED COUNT",
        "--made SEED COUNT --text",
        "--version",
        "--help",
    ] {
        assert!(usage.contains(&format!("\n./run {way}")), "{way}");
    }
    assert!(usage.lines().all(|line| line.len() <= 100));
}

#[test]
fn wrong_command_lines_get_the_usage() {
    let Some(usage) = usage() else { return };
    for (arguments, problem) in [
        ("--nonsense", "unknown option '--nonsense'"),
        ("-x", "unknown option '-x'"),
        ("--", "unknown option '--'"),
        ("--text", "--text needs a file"),
        ("--words", "--words needs a file"),
        ("--text --words", "unknown option '--words'"),
        ("--text a b", "'b' is too much after '--text'"),
        ("a b", "'b' is too much after 'a'"),
        ("- -", "'-' is too much after '-'"),
        ("--help me", "'me' is too much after '--help'"),
        ("--version 1", "'1' is too much after '--version'"),
        ("''", "a file's name is empty"),
        ("--words ''", "a file's name is empty"),
        ("--made", "--made needs a seed and a count"),
        ("--made 7", "'7' needs a count"),
        ("--made 7 12 x", "'x' is too much after '12'"),
        ("--made 7 12 --words", "'--words' is too much after '12'"),
        ("--made 7 12 --text x", "'x' is too much after '--text'"),
    ] {
        let end = shell(&format!("./run {arguments}")).unwrap();
        assert_eq!((end.status, &end.printed[..]), (Some(2), ""), "{arguments}");
        assert_eq!(end.said, format!("{problem}\n{usage}"), "{arguments}");
    }
}

#[test]
fn version_tells_the_commit_and_the_kit() {
    let Some(end) = shell("./run --version") else {
        return;
    };
    assert_eq!((end.status, &end.said[..]), (Some(0), ""));
    let lines: Vec<&str> = end.printed.lines().collect();
    let [commit, kit] = lines[..] else {
        panic!("{lines:?}")
    };
    assert!(
        commit.strip_prefix("commit: ").unwrap().len() >= 7,
        "{commit}"
    );
    assert!(kit.starts_with("kit: rattle-kit-"), "{kit}");
}

#[test]
fn it_works_from_any_folder_and_through_a_link() {
    let folder = Folder::new("commands-linked");
    let link = folder.join("linked-run");
    symlink(format!("{ROOT}/run"), &link).unwrap();
    let link = link.display();
    let text = file_with("any-folder.txt", b"start 0 0\n");
    let text = text.display();
    for (line, printed) in [
        (format!("cd / && '{link}'"), run_of("listing")),
        (
            format!("cd /tmp && '{link}' --text '{text}'"),
            "0 01 0 0 1 0\nend\n".to_owned(),
        ),
        (
            "cd examples && ../run --text listing.txt".to_owned(),
            run_of("listing"),
        ),
    ] {
        let Some(end) = shell(&line) else { return };
        assert_eq!((end.status, &end.said[..]), (Some(0), ""), "{line}");
        assert_eq!(end.printed, printed, "{line}");
    }
}

/// A path with the tools that the script needs, and no cargo.
#[test]
fn a_missing_cargo_is_named() {
    let tools = Folder::new("commands-without-cargo");
    for tool in ["bash", "readlink", "dirname"] {
        symlink(format!("/usr/bin/{tool}"), tools.join(tool)).unwrap();
    }
    let tools = tools.display();
    let Some(end) = shell(&format!("PATH='{tools}' ./run")) else {
        return;
    };
    assert_eq!((end.status, &end.printed[..]), (Some(1), ""));
    let said = "./run: cargo is not installed: Rust is needed, see README.md, Prerequisites\n";
    assert_eq!(end.said, said);
}

#[test]
fn a_file_whose_name_begins_with_a_dash_can_be_named() {
    file_with("-log", &[0x01, 0, 0]);
    let folder = env!("CARGO_TARGET_TMPDIR");
    let Some(end) = shell(&format!("run=$PWD/run && cd '{folder}' && \"$run\" ./-log")) else {
        return;
    };
    assert_eq!(
        (end.status, &end.printed[..]),
        (Some(0), "0 01 0 0 1 0\nend\n")
    );
}
