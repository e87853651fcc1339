//! A program in the proved one's place that does not print the whole run: what
//! it printed is told, there is no summary, and the status is 1.

use crate::feigned_program::root_with;
use crate::program::{file_with, log_of};
use std::process::Command;

const TOLD: &str = "\
0 01 0 0 1 0
    start 0 0: rank 0 starts on host 0; its vmid is 0.1: host 0, number 1.
";

const NO_END: &str = "the program stopped before the run's end\n";
const MISFIT: &str = "the program printed what does not fit the log: ";

#[test]
fn a_run_that_is_not_whole_ends_with_1() {
    let log = file_with("broken.log", &log_of("start 0 0, look 0"));
    for (index, (program, printed, said)) in [
        ("echo 0 01 0 0 1 0", TOLD, NO_END.to_owned()),
        ("true", "", NO_END.to_owned()),
        ("echo broken >&2", "", "broken\n".to_owned()),
        ("echo 0 0C 0 0 0 0", "", format!("{MISFIT}0 0C 0 0 0 0\n")),
        ("echo 3 01 0 0 0 0", "", format!("{MISFIT}3 01 0 0 0 0\n")),
        ("echo 0 01 99 0 0 0", "", format!("{MISFIT}0 01 99 0 0 0\n")),
        ("echo 0 01 0 0 1 0; echo no", TOLD, format!("{MISFIT}no\n")),
    ]
    .into_iter()
    .enumerate()
    {
        let mut command = Command::new(env!("CARGO_BIN_EXE_command-line"));
        let root = root_with(&format!("words-broken-{index}"), &[("replay", program)]);
        command.arg(&*root);
        let output = command.arg("--words").arg(&log).output().unwrap();
        assert_eq!(output.status.code(), Some(1), "{program}");
        assert_eq!(String::from_utf8_lossy(&output.stdout), printed);
        assert_eq!(String::from_utf8_lossy(&output.stderr), said);
    }
}
