//! Two programs with the same arguments and input, in turns: whether their
//! outputs are equal, and what each costs; and any program on an input.

use crate::cost::Cost;
use std::fs::{self, File};
use std::io::{self, BufRead, BufReader};
use std::path::{Path, PathBuf};
use std::{env, process};

/// Each program is run so often on an input.
pub const ROUNDS: usize = 3;

/// A proved program, and the Rust program for the same work.
pub struct Counterparts {
    pub proved: PathBuf,
    pub rust: PathBuf,
}

/// What the two programs cost.
#[derive(Clone, Copy)]
pub struct Costs {
    pub proved: Cost,
    pub rust: Cost,
}

impl Costs {
    /// The costs of no runs.
    pub const OF_NONE: Costs = Costs {
        proved: Cost::OF_NONE,
        rust: Cost::OF_NONE,
    };

    /// The costs of these runs and others.
    pub fn and(self, other: Costs) -> Costs {
        Costs {
            proved: self.proved.and(other.proved),
            rust: self.rust.and(other.rust),
        }
    }
}

/// A folder for inputs and outputs, removed at the end.
pub struct Folder(PathBuf);

impl Folder {
    pub fn make() -> Result<Folder, String> {
        let path = env::temp_dir().join(format!("desk-bench-{}", process::id()));
        fs::create_dir(&path)
            .map_err(|error| format!("cannot make {}: {error}", path.display()))?;
        Ok(Folder(path))
    }

    /// Runs both programs in turns with these arguments on an input. Their
    /// outputs must be equal each time.
    pub fn measure(
        &self,
        programs: &Counterparts,
        arguments: &[String],
        input: &[u8],
    ) -> Result<Costs, String> {
        let place = self.put(input)?;
        let outputs = ["proved", "rust"].map(|name| self.0.join(name));
        let mut costs = Costs::OF_NONE;
        for _ in 0..ROUNDS {
            costs = costs.and(Costs {
                proved: Cost::of_run(&programs.proved, arguments, &place, &outputs[0])?,
                rust: Cost::of_run(&programs.rust, arguments, &place, &outputs[1])?,
            });
            if !have_same_bytes(&outputs).map_err(unusable)? {
                return Err("the outputs of the two programs differ".to_owned());
            }
        }
        Ok(costs)
    }

    /// Runs a program on an input, and gives what it prints.
    pub fn run(&self, program: &Path, input: &[u8]) -> Result<(Cost, Vec<u8>), String> {
        let place = self.put(input)?;
        let output = self.0.join("output");
        let cost = Cost::of_run(program, &[], &place, &output)?;
        Ok((cost, fs::read(&output).map_err(unusable)?))
    }

    /// Where an input is after it was put there.
    fn put(&self, input: &[u8]) -> Result<PathBuf, String> {
        let place = self.0.join("input");
        fs::write(&place, input).map_err(unusable)?;
        Ok(place)
    }
}

/// Whether two files are equal. They are read piece by piece: neither has to
/// fit into memory.
fn have_same_bytes(files: &[PathBuf; 2]) -> io::Result<bool> {
    let mut first = BufReader::new(File::open(&files[0])?);
    let mut second = BufReader::new(File::open(&files[1])?);
    loop {
        let (one, other) = (first.fill_buf()?, second.fill_buf()?);
        let length = one.len().min(other.len());
        if length == 0 {
            return Ok(one.len() == other.len());
        }
        if one[..length] != other[..length] {
            return Ok(false);
        }
        first.consume(length);
        second.consume(length);
    }
}

fn unusable(error: io::Error) -> String {
    format!("cannot use the temporary folder: {error}")
}

impl Drop for Folder {
    fn drop(&mut self) {
        // What can't be removed is left to the temporary folder's owner.
        let _ = fs::remove_dir_all(&self.0);
    }
}
