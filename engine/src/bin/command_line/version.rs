//! Which desk this is: the commit of its sources, and the kit that proves them.

use std::path::Path;
use std::process::Command;

/// The commit and the kit, a line each.
pub fn told(root: &Path) -> String {
    let mut git = Command::new("git");
    git.arg("-C")
        .arg(root)
        .args(["describe", "--always", "--dirty=, with changes"]);
    let commit = first_line(&mut git).unwrap_or("unknown".to_owned());
    let kit = first_line(Command::new("rt").arg("version"));
    let kit = kit.unwrap_or("rt is not installed".to_owned());
    format!("commit: {commit}\nkit: {kit}\n")
}

fn first_line(command: &mut Command) -> Option<String> {
    let output = command
        .output()
        .ok()
        .filter(|output| output.status.success())?;
    let text = String::from_utf8(output.stdout).ok()?;
    text.lines().next().map(str::to_owned)
}
