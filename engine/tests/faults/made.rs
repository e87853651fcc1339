//! Made-up passes, replayed and as text, where they cannot be written or their
//! reader goes away: `./run` ends then, and the generator with it, however long
//! the pass would be.

use crate::feigned_program::{place_in, root_with, Folder};
use crate::made_up_program::MADE_UP;
use crate::peak_memory::peak_memory_kib;
use crate::program::UNWRITABLE;
use crate::proved_program::program_at;
use crate::records::full_disk;
use crate::running::Running;
use crate::script::{assert_end, shell_after};
use std::fs;
use std::io::{self, Read};
use std::path::Path;
use std::process::{Command, Stdio};

/// Said where the text cannot be written.
const FULL: &str = "standard output cannot be written: No space left on device (os error 28)\n";
const CLOSED: &str = "standard output cannot be written: Bad file descriptor (os error 9)\n";

/// A generator that leaves its process's number and then writes without end:
/// a look and parts, all of rank 12.
const ENDLESS: &str = "echo $$ >\"$0.number\"\nexec yes \"$(printf '\\014\\014')\"";

/// A pass of that generator, with these lines of shell in the place of the
/// program that prints a run: the repository's root, and the request.
fn endless(name: &str, replay: &str, form: &[&str]) -> (Folder, Command) {
    let programs = [("made_up", ENDLESS), ("replay", replay)];
    let root = root_with(&format!("faults-{name}"), &programs);
    let mut command = Command::new(env!("CARGO_BIN_EXE_command-line"));
    command.arg(&*root).args(["--made", "1", "2"]).args(form);
    (root, command)
}

/// Fails where the generator is still there.
fn assert_no_generator(root: &Path) {
    let place = place_in(root, "made_up").with_extension("number");
    let number = fs::read_to_string(place).unwrap();
    let process = Path::new("/proc").join(number.trim());
    assert!(!process.exists(), "{} is left", process.display());
}

const REPLAYED: &[&str] = &[];
const AS_TEXT: &[&str] = &["--text"];

#[test]
fn a_reader_that_goes_away_ends_the_generator() {
    for (name, form) in [("reader", REPLAYED), ("reader-text", AS_TEXT)] {
        let (root, mut command) = endless(name, "exec cat", form);
        let mut running = Running::start_piped(&mut command);
        assert!(running.printed_to(1).contains('\n'));
        running.stop_reading();
        assert_end(&running.end(), 0, "", "");
        assert_no_generator(&root);
    }
}

#[test]
fn a_full_disk_ends_the_generator() {
    let tells = format!("printf '{UNWRITABLE}' >&2");
    for (name, form, said) in [("full", REPLAYED, UNWRITABLE), ("full-text", AS_TEXT, FULL)] {
        let (root, mut command) = endless(name, &tells, form);
        let end = Running::start(command.stdout(full_disk())).end();
        assert_end(&end, 1, "", said);
        assert_no_generator(&root);
    }
}

/// As after a 2 or 3.
#[test]
fn a_run_that_ends_before_the_pass_ends_the_generator() {
    let (root, mut command) = endless("run-ended", "head -c 2 | od -An -tx1", REPLAYED);
    let end = Running::start_piped(&mut command).end();
    assert_end(&end, 0, " 0c 0c\n", "");
    assert_no_generator(&root);
}

#[test]
fn a_long_pass_takes_little_memory() {
    const READ_BYTES: u64 = 64 << 20;
    const MOST_MEMORY_KIB: u64 = 16 * 1_024;
    for (name, form) in [("memory", REPLAYED), ("memory-text", AS_TEXT)] {
        let (_root, mut command) = endless(name, "exec cat", form);
        let mut child = command.stdout(Stdio::piped()).spawn().unwrap();
        let mut part = child.stdout.take().unwrap().take(READ_BYTES);
        assert_eq!(io::copy(&mut part, &mut io::sink()).unwrap(), READ_BYTES);
        let peak = peak_memory_kib(&child).unwrap();
        drop(part);
        assert!(child.wait().unwrap().success());
        assert!((1..MOST_MEMORY_KIB).contains(&peak), "{peak} KiB");
    }
}

/// A line of shell that makes up passes with the proved programs.
fn making_passes(line: &str) -> Option<Command> {
    program_at(MADE_UP)?;
    shell_after(&["--made", "1", "0"], line)
}

#[test]
fn a_full_disk_and_a_closed_output_end_with_1() {
    for (form, full, closed) in [("", UNWRITABLE, UNWRITABLE), (" --text", FULL, CLOSED)] {
        for count in ["12", "18446744073709551615"] {
            let line = format!("exec ./run --made 7 {count}{form}");
            let Some(mut command) = making_passes(&line) else {
                return;
            };
            let end = Running::start(command.stdout(full_disk())).end();
            assert_end(&end, 1, "", full);
            let mut command = making_passes(&format!("{line} >&-")).unwrap();
            assert_end(&Running::start(&mut command).end(), 1, "", closed);
        }
    }
}

#[test]
fn a_reader_of_a_pass_that_goes_away_is_no_error() {
    for (form, first) in [("", "0 0A 7 0 0 0\n"), (" --text", "part 1 5\n")] {
        let line = format!(
            "./run --made 1 18446744073709551615{form} | head -n 1; exit ${{PIPESTATUS[0]}}"
        );
        let Some(mut command) = making_passes(&line) else {
            return;
        };
        let end = Running::start(command.stdout(Stdio::piped())).end();
        assert_end(&end, 0, first, "");
    }
}
