//! Scripts in the place of programs.

use std::ops::Deref;
use std::path::{Path, PathBuf};
use std::process::{self, Command};
use std::{env, fs};

/// A folder of a test alone, which goes with it. It lies outside of the
/// repository: the gate wants no link there and no second list of crates.
pub struct Folder {
    path: PathBuf,
}

impl Folder {
    /// An empty folder of this name.
    pub fn new(name: &str) -> Folder {
        let path = env::temp_dir().join(format!("{name}-{}", process::id()));
        let _ = fs::remove_dir_all(&path);
        fs::create_dir(&path).unwrap();
        Folder { path }
    }
}

impl Deref for Folder {
    type Target = Path;

    fn deref(&self) -> &Path {
        &self.path
    }
}

impl Drop for Folder {
    fn drop(&mut self) {
        let _ = fs::remove_dir_all(&self.path);
    }
}

/// Puts a script where a program is looked for. Another process puts it there:
/// what this one writes, a child of a test beside could hold open, and a file
/// that is open for writing can't be run.
pub fn put_program(place: &Path, script: &str) {
    let written = place.with_extension("script");
    fs::write(&written, script).unwrap();
    let mut install = Command::new("install");
    install.args(["-m", "755"]).arg(&written).arg(place);
    assert!(install.status().unwrap().success());
}

/// Where the program of this name is below a repository's root.
pub fn place_in(root: &Path, program: &str) -> PathBuf {
    root.join("crates").join(program).join("out").join(program)
}

/// A repository's root of this name in which each of these proved programs is
/// some lines of shell, and none is built anew.
pub fn root_with(name: &str, programs: &[(&str, &str)]) -> Folder {
    let root = Folder::new(name);
    fs::create_dir(root.join("target")).unwrap();
    fs::write(root.join("crates.txt"), "").unwrap();
    for (program, lines) in programs {
        let script = format!("#!/bin/sh\n{lines}\n");
        let place = place_in(&root, program);
        fs::create_dir_all(place.parent().unwrap()).unwrap();
        put_program(&place, &script);
        fs::write(root.join(format!("target/built-{program}")), "").unwrap();
    }
    root
}
