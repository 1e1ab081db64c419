//! A folder with a pack and a schedule, as text or as bytes.

use crate::assemble::{self, Assembled};
use crate::fault::{whole, Fault};
use crate::plan::{self, Planned};
use crate::{disassemble, pack, schedule, show};
use std::fs;
use std::io::ErrorKind;
use std::path::{Path, PathBuf};

pub const PACK_TEXT: &str = "pack.wf";
pub const PACK_BYTES: &str = "pack.bin";
pub const SCHEDULE_TEXT: &str = "schedule.plan";
pub const SCHEDULE_BYTES: &str = "schedule.bin";

/// The bytes of both files and the names beside them.
#[derive(Clone, Debug)]
pub struct Folder {
    pub pack: Vec<u8>,
    pub schedule: Vec<u8>,
    pub workflows: Vec<String>,
    pub requests: Vec<String>,
    /// Whether a text was assembled, so that the bytes are not those in the folder.
    pub from_text: bool,
}

/// Loads a folder; a text stands before the bytes of the same part.
pub fn load(folder: &Path) -> Result<Folder, Vec<Fault>> {
    if !folder.is_dir() {
        return Err(vec![whole(
            &folder.display().to_string(),
            "is not a folder",
        )]);
    }
    let pack_text = present(folder, PACK_TEXT);
    let schedule_text = present(folder, SCHEDULE_TEXT);
    let from_text = pack_text.is_some() || schedule_text.is_some();
    let known = pack_text.is_some();
    let (pack, workflows) = load_pack(folder, pack_text)?;
    // Only a pack text gives names that a plan may use.
    let known = known.then(|| workflows.clone());
    let (schedule, requests) = load_schedule(folder, schedule_text, known)?;
    Ok(Folder {
        pack,
        schedule,
        workflows,
        requests,
        from_text,
    })
}

/// Bytes and the names that go with them.
type Part = (Vec<u8>, Vec<String>);

fn load_pack(folder: &Path, text: Option<PathBuf>) -> Result<Part, Vec<Fault>> {
    if let Some(path) = text {
        let assembled = assemble_file(&path)?;
        return Ok((assembled.bytes(), assembled.names));
    }
    let bytes = bytes_or_empty(&folder.join(PACK_BYTES))?;
    let count = pack::accepted(&bytes).map_or(0, |workflows| workflows.len());
    Ok((bytes, disassemble::workflow_names(count)))
}

fn load_schedule(
    folder: &Path,
    text: Option<PathBuf>,
    known: Option<Vec<String>>,
) -> Result<Part, Vec<Fault>> {
    if let Some(path) = text {
        let planned = plan_file(&path, known)?;
        return Ok((schedule::to_bytes(&planned.schedule), planned.names));
    }
    let bytes = bytes_or_empty(&folder.join(SCHEDULE_BYTES))?;
    let names = schedule::accepted(&bytes).map(|schedule| show::request_names(&schedule));
    Ok((bytes, names.unwrap_or_default()))
}

fn present(folder: &Path, name: &str) -> Option<PathBuf> {
    Some(folder.join(name)).filter(|path| path.exists())
}

pub fn assemble_file(path: &Path) -> Result<Assembled, Vec<Fault>> {
    let text = read_text(path)?;
    assemble::assemble(&path.display().to_string(), &text)
}

/// Reads a plan; a file its `pack` line names stands beside it.
pub fn plan_file(path: &Path, known: Option<Vec<String>>) -> Result<Planned, Vec<Fault>> {
    let text = read_text(path)?;
    let beside = path.parent().map(Path::to_path_buf).unwrap_or_default();
    let pack = |name: &str| assemble_file(&beside.join(name)).map(|assembled| assembled.names);
    plan::plan(&path.display().to_string(), &text, known, &pack)
}

fn read_text(path: &Path) -> Result<String, Vec<Fault>> {
    let file = path.display().to_string();
    let problem = "found bytes that are not UTF-8, expected text";
    let text = String::from_utf8(read_bytes(path)?).map_err(|_| vec![whole(&file, problem)])?;
    // Some editors put a byte order mark in front, which is no word.
    Ok(text.trim_start_matches('\u{feff}').to_string())
}

pub fn read_bytes(path: &Path) -> Result<Vec<u8>, Vec<Fault>> {
    fs::read(path).map_err(|error| {
        vec![whole(
            &path.display().to_string(),
            &format!("cannot be read: {error}"),
        )]
    })
}

/// The runtime's program counts a missing file as empty, and so does this.
fn bytes_or_empty(path: &Path) -> Result<Vec<u8>, Vec<Fault>> {
    match fs::metadata(path) {
        Err(error) if error.kind() == ErrorKind::NotFound => Ok(Vec::new()),
        _ => read_bytes(path),
    }
}

pub fn write(path: &Path, bytes: &[u8]) -> Result<(), Vec<Fault>> {
    fs::write(path, bytes).map_err(|error| {
        vec![whole(
            &path.display().to_string(),
            &format!("cannot be written: {error}"),
        )]
    })
}
