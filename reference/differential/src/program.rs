//! The program: one line for a folder with the two files.

use std::fs;
use std::io;
use std::path::{Path, PathBuf};
use std::process::Command;

use cases::case::Case;

/// A program and the folder it is started in.
pub struct Program {
    path: PathBuf,
    folder: PathBuf,
}

impl Program {
    pub fn new(path: &Path, folder: &Path) -> io::Result<Program> {
        Ok(Program {
            path: path.canonicalize()?,
            folder: folder.into(),
        })
    }

    /// What the program writes for a case, and whether it ends well.
    fn line(&self, case: &Case) -> io::Result<(Vec<u8>, bool)> {
        fs::write(self.folder.join("formula.dq"), &case.text)?;
        fs::write(self.folder.join("steps.bin"), &case.records)?;
        let output = Command::new(&self.path)
            .current_dir(&self.folder)
            .output()?;
        Ok((output.stdout, output.status.success()))
    }

    /// How the program's output differs from the expected line.
    pub fn difference(&self, case: &Case) -> io::Result<Option<String>> {
        let wanted = format!("{}\n", case.expected);
        let (found, ends_well) = self.line(case)?;
        if found != wanted.as_bytes() {
            let found = String::from_utf8_lossy(&found);
            return Ok(Some(format!("prints {found:?} for {wanted:?}")));
        }
        Ok((!ends_well).then(|| "ends with another status than 0".into()))
    }
}
