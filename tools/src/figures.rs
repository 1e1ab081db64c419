//! How much a folder's workflows will take, and the C that certainly suffices for its schedule (W-202).

use crate::fault::No;
use crate::folder::Folder;
use crate::instruction::BEGIN;
use crate::pack::{self, Workflow};
use crate::schedule::{self, partition_name, Schedule};
use reference::pack::Pack;
use reference::store::{BOOK_ROWS, LEAST_ROWS, MOST_PARTITIONS, MOST_ROWS};
use reference::Figures;
use std::collections::BTreeMap;
use std::fmt::Write;

/// The most rows that the requests of a schedule take together from a fresh store, each id to its RETURN by any route.
#[derive(Clone, Debug, PartialEq, Eq)]
pub struct Together {
    /// How many different ids may be booked.
    pub ids: usize,
    /// By partition, the book last.
    pub rows: Vec<usize>,
}

impl Together {
    /// The least C that certainly suffices; it may be above 256, the most that a store has.
    pub fn enough(&self) -> usize {
        self.rows.iter().copied().fold(LEAST_ROWS, usize::max)
    }
}

/// The figures of each workflow of an accepted pack.
pub fn of_workflows(pack: &[u8]) -> Result<Vec<Figures>, Vec<No>> {
    pack::accepted(pack)?;
    let pack = Pack::read(pack).expect("both check a pack alike");
    Ok(pack.workflows().iter().map(Figures::of).collect())
}

/// An id is booked once: of several requests with one id the first that is accepted counts, so the greatest of their figures
/// suffices. A request that no arrival is accepted with (id 0, or a workflow that the pack has not) takes nothing.
pub fn together(workflows: &[Figures], schedule: &Schedule) -> Together {
    let mut by_id: BTreeMap<u32, [u32; MOST_PARTITIONS]> = BTreeMap::new();
    for request in schedule.requests.iter().filter(|request| request.id != 0) {
        if let Some(figures) = workflows.get(request.workflow as usize) {
            let most = by_id.entry(request.id).or_default();
            *most = std::array::from_fn(|partition| most[partition].max(figures.rows[partition]));
        }
    }
    let sum = |partition: usize| by_id.values().map(|rows| rows[partition] as usize).sum();
    let mut rows: Vec<usize> = (0..schedule.partitions.into()).map(sum).collect();
    rows.push(BOOK_ROWS * by_id.len());
    Together {
        ids: by_id.len(),
        rows,
    }
}

/// What `wf figures` prints, and what it warns of.
#[derive(Clone, Debug, PartialEq, Eq)]
pub struct Report {
    pub text: String,
    pub warnings: Vec<String>,
}

/// The report on a folder; without a schedule it is on the workflows alone.
pub fn report(folder: &Folder) -> Result<Report, Vec<No>> {
    let figures = of_workflows(&folder.pack)?;
    let mut text = workflow_table(&folder.workflows, &figures);
    let mut warnings = Vec::new();
    if !folder.schedule.is_empty() {
        let schedule = schedule::accepted(&folder.schedule).map_err(|no| vec![no])?;
        let together = together(&figures, &schedule);
        text.push_str(&together_table(&together, &schedule));
        warnings.extend(missing_partition(folder, &schedule));
        warnings.extend(short_of_rows(&together, &schedule));
    }
    Ok(Report { text, warnings })
}

fn workflow_table(names: &[String], figures: &[Figures]) -> String {
    let width = names
        .iter()
        .map(String::len)
        .fold("workflow".len(), usize::max);
    let partitions: String = (0..MOST_PARTITIONS)
        .map(|partition| format!("{partition:>5}"))
        .collect();
    let mut text = format!(
        "{:width$}   most  most rows in partition\n{:width$}  turns{partitions}\n",
        "", "workflow"
    );
    for (name, figures) in names.iter().zip(figures) {
        let rows: String = figures
            .rows
            .iter()
            .map(|rows| format!("{rows:>5}"))
            .collect();
        let _ = writeln!(text, "{name:width$}{:>7}{rows}", figures.turns);
    }
    text
}

fn together_table(together: &Together, schedule: &Schedule) -> String {
    let mut text = format!(
        "\nthe schedule's requests together, different ids: {}\n{:11}  most rows    C\n",
        together.ids, ""
    );
    for (partition, rows) in together.rows.iter().enumerate() {
        let name = partition_name(partition, schedule.partitions.into());
        let _ = writeln!(text, "{name:11}{rows:>11}{:>5}", schedule.rows);
    }
    let enough = together.enough();
    let _ = match enough <= MOST_ROWS {
        true => writeln!(
            text,
            "C {enough} certainly suffices, the schedule has C {}",
            schedule.rows
        ),
        false => writeln!(
            text,
            "no C certainly suffices: {enough} rows are needed, and C is at most {MOST_ROWS}"
        ),
    };
    text
}

/// Each partition, and the book, that may need more rows than C.
fn short_of_rows(together: &Together, schedule: &Schedule) -> Vec<String> {
    let c = usize::from(schedule.rows);
    let short = together
        .rows
        .iter()
        .enumerate()
        .filter(|(_, rows)| **rows > c);
    let warn = |(partition, rows): (usize, &usize)| {
        let name = partition_name(partition, schedule.partitions.into());
        let article = if name == "book" { "the " } else { "" };
        format!("C {c} may not suffice: {article}{name} may need {rows} rows")
    };
    short.map(warn).collect()
}

/// Where a BEGIN names a partition that the store has not, each call that is given store and pack is refused, whatever C is.
fn missing_partition(folder: &Folder, schedule: &Schedule) -> Option<String> {
    let workflows = pack::accepted(&folder.pack).ok()?;
    let p = u32::from(schedule.partitions);
    let is_missing = |workflow: &Workflow| {
        let mut places = workflow.iter().enumerate();
        places
            .find(|(_, begin)| begin.operation() == BEGIN && begin.word >= p)
            .map(|(index, begin)| (index, begin.word))
    };
    let mut found = workflows.iter().zip(&folder.workflows);
    let (name, (index, word)) =
        found.find_map(|(workflow, name)| Some((name, is_missing(workflow)?)))?;
    let no = No::of(
        13,
        format!("partition {word}"),
        &format!("a partition below {p}"),
    );
    Some(format!("{no} (workflow {name}, instruction {index})"))
}
