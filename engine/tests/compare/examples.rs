//! The examples of the repository: each text log, run by this engine and by
//! the program, prints the run that is stored beside it.

use crate::program::{Input, Program};
use engine::run::run_slice;
use engine::text::encode;
use std::fs;
use std::path::PathBuf;

/// The text logs under `examples/`, in order.
fn texts() -> Vec<PathBuf> {
    let folder = concat!(env!("CARGO_MANIFEST_DIR"), "/../examples");
    let mut found: Vec<PathBuf> = fs::read_dir(folder)
        .unwrap()
        .map(|entry| entry.unwrap().path())
        .filter(|path| path.extension().is_some_and(|ending| ending == "txt"))
        .collect();
    found.sort();
    found
}

#[test]
fn every_example_prints_its_stored_run() {
    let texts = texts();
    assert!(texts.len() >= 11, "only {} examples", texts.len());
    let program = Program::find();
    for text in texts {
        let name = text.display();
        let log = encode(&fs::read_to_string(&text).unwrap()).unwrap();
        let stored = fs::read(text.with_extension("run")).unwrap();
        assert_eq!(run_slice(&log), stored, "{name}, by this engine");
        if let Some(program) = &program {
            let output = program.run(Input::Pipe(&log, vec![log.len()]), stored.len() + 1);
            assert_eq!(output.unwrap().stdout, stored, "{name}, by the program");
        }
    }
}
