//! The command line: which command, its file or folder, and where the result goes.

use crate::fault::{whole, Fault, No};
use crate::folder::{assemble_file, load, plan_file, read_bytes, write};
use crate::{calls, disassemble, figures, names, pack, picture, program, schedule, show, trace};
use std::io::Write;
use std::path::{Path, PathBuf};

const USAGE: &str = "\
wf asm FILE -o pack.bin                       a pack text to a pack
wf disasm pack.bin [-o FILE]                  a pack to its text
wf plan FILE -o schedule.bin [--pack FILE]    a schedule text to a schedule
wf show schedule.bin [-o FILE] [--pack FILE]  a schedule to its text
wf run FOLDER                                 the proved program's output, with names
wf trace FOLDER -o run.svg                    a picture of a run
wf calls FILE -o calls.svg [--case N]         a picture of a list of calls, with its worklist
wf figures FOLDER                             the most turns and rows of each workflow, and the C that suffices
";

/// Exit status of a text or file with faults, and of a wrong command line.
const FAULTY: u8 = 1;
const MISUSED: u8 = 2;

#[derive(Debug, Default, PartialEq)]
struct Options {
    subject: Option<PathBuf>,
    output: Option<PathBuf>,
    pack: Option<PathBuf>,
    case: Option<PathBuf>,
}

/// Does what the arguments say and gives the exit status.
pub fn command(arguments: &[String]) -> u8 {
    let Some((word, rest)) = arguments.split_first() else {
        return misused("found no command, expected one of");
    };
    if matches!(word.as_str(), "help" | "--help" | "-h") {
        print!("{USAGE}");
        return 0;
    }
    let options = match options(word, rest) {
        Ok(options) => options,
        Err(problem) => return misused(&problem),
    };
    match perform(word, &options) {
        Ok(()) => 0,
        Err(faults) => {
            for fault in faults {
                eprintln!("{fault}");
            }
            FAULTY
        }
    }
}

fn misused(problem: &str) -> u8 {
    eprint!("wf: {problem}\n{USAGE}");
    MISUSED
}

/// Whether a command must have -o, may have -o, and may have --pack; None if there is no such command.
fn allowed(word: &str) -> Option<(bool, bool, bool)> {
    match word {
        "asm" => Some((true, true, false)),
        "disasm" => Some((false, true, false)),
        "plan" => Some((true, true, true)),
        "show" => Some((false, true, true)),
        "run" => Some((false, false, false)),
        "trace" | "calls" => Some((true, true, false)),
        "figures" => Some((false, false, false)),
        _ => None,
    }
}

fn options(word: &str, rest: &[String]) -> Result<Options, String> {
    let Some((must_output, may_output, may_pack)) = allowed(word) else {
        return Err(format!("found {word}, expected one of"));
    };
    let mut options = Options::default();
    let mut rest = rest.iter();
    while let Some(argument) = rest.next() {
        let place = match argument.as_str() {
            "-o" if may_output => &mut options.output,
            "--pack" if may_pack => &mut options.pack,
            "--case" if word == "calls" => &mut options.case,
            text if text.starts_with('-') => {
                return Err(format!("found {text}, which {word} does not take"))
            }
            text if options.subject.is_some() => {
                return Err(format!("found {text}, expected no more"))
            }
            text => {
                options.subject = Some(PathBuf::from(text));
                continue;
            }
        };
        let value = rest.next().ok_or(format!(
            "found nothing behind {argument}, expected {}",
            of(argument)
        ))?;
        *place = Some(PathBuf::from(value));
    }
    if options.subject.is_none() {
        return Err(format!(
            "found nothing behind {word}, expected a file or folder"
        ));
    }
    if must_output && options.output.is_none() {
        return Err(format!("found no -o, expected where {word} writes"));
    }
    Ok(options)
}

/// What stands behind an option.
fn of(option: &str) -> &'static str {
    match option {
        "--case" => "the number of a case",
        _ => "a file",
    }
}

fn perform(word: &str, options: &Options) -> Result<(), Vec<Fault>> {
    let subject = options.subject.as_deref().unwrap_or(Path::new(""));
    let bytes = match word {
        "asm" => assemble_file(subject)?.bytes(),
        "disasm" => disassembled(subject)?.into_bytes(),
        "plan" => {
            let planned = plan_file(subject, pack_names(options)?)?;
            for warning in &planned.warnings {
                eprintln!("{warning}");
            }
            schedule::to_bytes(&planned.schedule)
        }
        "show" => shown(subject, &pack_names(options)?.unwrap_or_default())?.into_bytes(),
        "run" => run(subject, program::find())?.into_bytes(),
        "figures" => counted(subject)?.into_bytes(),
        "calls" => called(subject, options.case.as_deref())?.into_bytes(),
        _ => traced(subject)?.into_bytes(),
    };
    deliver(options.output.as_deref(), &bytes)
}

fn pack_names(options: &Options) -> Result<Option<Vec<String>>, Vec<Fault>> {
    let pack = options.pack.as_deref();
    pack.map(|path| assemble_file(path).map(|assembled| assembled.names))
        .transpose()
}

fn disassembled(path: &Path) -> Result<String, Vec<Fault>> {
    let bytes = read_bytes(path)?;
    let workflows = pack::accepted(&bytes).map_err(|noes| bytes_faults(path, noes))?;
    Ok(disassemble::disassemble(&workflows))
}

fn shown(path: &Path, workflows: &[String]) -> Result<String, Vec<Fault>> {
    let bytes = read_bytes(path)?;
    let schedule = schedule::accepted(&bytes).map_err(|no| bytes_faults(path, vec![no]))?;
    Ok(show::show(&schedule, workflows))
}

fn bytes_faults(path: &Path, noes: Vec<No>) -> Vec<Fault> {
    let file = path.display().to_string();
    let fault = |no: No| Fault::Bytes {
        file: file.clone(),
        no,
    };
    noes.into_iter().map(fault).collect()
}

/// The output of the proved program, found as `program::find` does, with names.
pub fn run(path: &Path, program: Option<Vec<String>>) -> Result<String, Vec<Fault>> {
    let folder = load(path)?;
    let Some(command) = program else {
        let problem = "found no proved program, expected WF_PROGRAM or an executable file `workflow` in a folder above";
        return Err(vec![whole("wf run", problem)]);
    };
    let output = program::output(&command, path, &folder)?;
    Ok(names::with_names(&output, &folder))
}

fn traced(path: &Path) -> Result<String, Vec<Fault>> {
    let folder = load(path)?;
    let run = trace::trace(&folder).map_err(|noes| bytes_faults(path, noes))?;
    Ok(picture::picture(&title(path), &run))
}

/// The picture of a list of calls in a file of cases.
fn called(path: &Path, case: Option<&Path>) -> Result<String, Vec<Fault>> {
    let file = path.display().to_string();
    let number = |case: &Path| {
        let text = case.display().to_string();
        let problem = format!("found --case {text}, expected the number of a case");
        text.parse().map_err(|_| vec![whole(&file, &problem)])
    };
    let asked = case.map(number).transpose()?;
    let found = calls::find(&read_bytes(path)?, asked);
    let (number, list) = found.map_err(|problem| vec![whole(&file, &problem)])?;
    let run = calls::run(&list).map_err(|noes| bytes_faults(path, noes))?;
    let name = format!("{}, case {number}", title(path));
    Ok(picture::picture(&name, &run))
}

/// The figures of a folder; what they warn of is said, and is no fault.
fn counted(path: &Path) -> Result<String, Vec<Fault>> {
    let folder = load(path)?;
    let report = figures::report(&folder).map_err(|noes| bytes_faults(path, noes))?;
    for warning in &report.warnings {
        eprintln!("{}: warning: {warning}", path.display());
    }
    Ok(report.text)
}

/// The folder's own name, also where it is given as `.`.
fn title(path: &Path) -> String {
    let whole = path.canonicalize().unwrap_or(path.to_path_buf());
    whole.file_name().map_or("run".to_string(), |name| {
        name.to_string_lossy().into_owned()
    })
}

fn deliver(output: Option<&Path>, bytes: &[u8]) -> Result<(), Vec<Fault>> {
    match output {
        Some(path) => write(path, bytes),
        None => {
            // A reader that stops early, as in a pipe, is no fault.
            let _ = std::io::stdout().write_all(bytes);
            Ok(())
        }
    }
}
