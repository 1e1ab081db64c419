//! The proved program: where it is, and a run of it.

use crate::fault::{whole, Fault};
use crate::folder::{self, Folder};
use std::env;
use std::fs;
use std::path::{Path, PathBuf};
use std::process::{self, Command, Stdio};
use std::sync::atomic::{AtomicUsize, Ordering};

const NAME: &str = "workflow";
const VARIABLE: &str = "WF_PROGRAM";

/// The command that takes a folder: the variable's, the one above these tools, or one above the current folder.
pub fn find() -> Option<Vec<String>> {
    let beside_tools = Path::new(env!("CARGO_MANIFEST_DIR")).join("..");
    let here = env::current_dir().unwrap_or_default();
    let above = here.ancestors().map(Path::to_path_buf);
    let folders: Vec<PathBuf> = std::iter::once(beside_tools).chain(above).collect();
    find_in(env::var(VARIABLE).ok(), &folders)
}

/// The command that a variable's value names, else the program in the first folder that has it.
pub fn find_in(variable: Option<String>, folders: &[PathBuf]) -> Option<Vec<String>> {
    if let Some(command) = variable.filter(|command| !command.trim().is_empty()) {
        return Some(command_words(&command));
    }
    let mut paths = folders.iter().map(|folder| folder.join(NAME));
    let found = paths.find(|path| is_program(path))?;
    Some(vec![found.display().to_string()])
}

/// A file's name may have spaces; anything else is a command and its first arguments.
fn command_words(command: &str) -> Vec<String> {
    if Path::new(command).is_file() {
        return vec![command.to_string()];
    }
    command.split_whitespace().map(str::to_string).collect()
}

#[cfg(unix)]
fn is_program(path: &Path) -> bool {
    use std::os::unix::fs::PermissionsExt;
    fs::metadata(path).is_ok_and(|data| data.is_file() && data.permissions().mode() & 0o111 != 0)
}

#[cfg(not(unix))]
fn is_program(path: &Path) -> bool {
    path.is_file()
}

/// What the proved program prints for a folder; texts are assembled into a folder of their own first.
pub fn output(command: &[String], path: &Path, folder: &Folder) -> Result<String, Vec<Fault>> {
    if !folder.from_text {
        return run(command, path);
    }
    let own = Temporary::new()?;
    folder::write(&own.path.join(folder::PACK_BYTES), &folder.pack)?;
    folder::write(&own.path.join(folder::SCHEDULE_BYTES), &folder.schedule)?;
    run(command, &own.path)
}

fn run(command: &[String], folder: &Path) -> Result<String, Vec<Fault>> {
    let fault = |problem: String| vec![whole(&command.join(" "), &problem)];
    // The program may start in another folder, so it gets the whole path.
    let folder = fs::canonicalize(folder).map_err(|error| fault(error.to_string()))?;
    let mut process = Command::new(&command[0]);
    process
        .args(&command[1..])
        .arg(folder)
        .stdin(Stdio::null())
        .stderr(Stdio::inherit());
    let result = process
        .output()
        .map_err(|error| fault(format!("cannot be started: {error}")))?;
    if !result.status.success() {
        return Err(fault(format!("ended with {}", result.status)));
    }
    String::from_utf8(result.stdout)
        .map_err(|_| fault("printed bytes that are not UTF-8".to_string()))
}

/// A folder that goes when it is no longer used.
struct Temporary {
    path: PathBuf,
}

impl Temporary {
    fn new() -> Result<Temporary, Vec<Fault>> {
        static NEXT: AtomicUsize = AtomicUsize::new(0);
        let number = NEXT.fetch_add(1, Ordering::Relaxed);
        let path = env::temp_dir().join(format!("wf-{}-{number}", process::id()));
        let made = fs::create_dir_all(&path);
        made.map_err(|error| {
            vec![whole(
                &path.display().to_string(),
                &format!("cannot be made: {error}"),
            )]
        })?;
        Ok(Temporary { path })
    }
}

impl Drop for Temporary {
    fn drop(&mut self) {
        let _ = fs::remove_dir_all(&self.path);
    }
}
