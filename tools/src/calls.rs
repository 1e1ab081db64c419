//! A list of calls (a case of kind 3), told as a run: it has a worklist, and starts from any store and slots.

use crate::disassemble::workflow_names;
use crate::fault::No;
use crate::pack;
use crate::schedule::Request;
use crate::trace::{Machine, Named, Run, Source};
use reference::cases::{self, Case, ListCase};
use reference::store::Store;
use reference::Call;
use std::collections::BTreeMap;

/// The list of calls in a file of cases, and its number there: the one that is asked for, else the first.
pub fn find(file: &[u8], asked: Option<usize>) -> Result<(usize, ListCase), String> {
    let mut lists = None;
    for (number, case) in cases::read_all(file).into_iter().enumerate() {
        match case {
            None => return Err(format!("case {number} is malformed")),
            Some(Case::List(list)) if asked.is_none_or(|asked| asked == number) => {
                lists = lists.or(Some((number, *list)));
            }
            Some(_) => {}
        }
    }
    lists.ok_or(match asked {
        Some(asked) => format!("case {asked} is no list of calls (kind 3)"),
        None => "found no list of calls (kind 3)".to_string(),
    })
}

/// Does the calls; the noes are those of a pack or a store that has no rows to be drawn.
pub fn run(list: &ListCase) -> Result<Run, Vec<No>> {
    let workflows = workflow_names(pack::accepted(&list.pack)?.len());
    let shape = match Store::lay_out(list.store.as_slice()) {
        Ok(store) => store.shape(),
        Err(refusal) => return Err(vec![store_no(refusal.question, list.store.len())]),
    };
    let requests = requests(list, &workflows);
    let index_of = |id: u32| requests.iter().position(|named| named.request.id == id);
    let agents = list.slots.iter().enumerate();
    let agents_before = agents
        .filter(|(_, agent)| agent.is_in_use())
        .filter_map(|(slot, agent)| Some((slot, index_of(agent.id)?)))
        .collect();
    let mut machine = Machine {
        pack: &list.pack,
        store: list.store.clone(),
        slots: list.slots,
        list: list.list.clone(),
    };
    let step = |call: &Call| machine.step(*call, started(call).and_then(index_of), words(call));
    let steps = list.calls.iter().map(step).collect();
    Ok(Run {
        source: Source::Calls,
        partitions: shape.partitions,
        rows: shape.rows,
        agents_before,
        listed_before: list.list.entries.clone(),
        steps,
        most: None,
        requests,
    })
}

fn store_no(question: u8, bytes: usize) -> No {
    let expected = "the length that P 1 to 8 and C 5 to 256 give";
    No::of(
        question.into(),
        format!("a store of {bytes} bytes"),
        expected,
    )
}

/// The requests that are booked before a call or at the end, by rising id: a retired one is not booked any more, and its id is
/// never booked again.
fn requests(list: &ListCase, workflows: &[String]) -> Vec<Named> {
    let mut booked = BTreeMap::new();
    let left = list.perform_each(|_, given, _| add_booked(given, &mut booked));
    add_booked(&left.store, &mut booked);
    let booked = booked.into_values();
    let named = |(number, request): (usize, reference::store::Request)| Named {
        name: format!("q{number}"),
        workflow: match workflows.get(request.workflow as usize) {
            Some(name) => name.clone(),
            None => format!("workflow {}", request.workflow),
        },
        request: Request {
            id: request.id,
            workflow: request.workflow,
            arguments: request.arguments,
        },
    };
    booked.enumerate().map(named).collect()
}

/// Adds the requests that a store has booked.
fn add_booked(bytes: &[u8], booked: &mut BTreeMap<u32, reference::store::Request>) {
    if let Ok(store) = Store::lay_out(bytes) {
        let requests = store.booked_ids().into_iter();
        booked.extend(requests.filter_map(|id| Some((id, store.request(id)?))));
    }
}

/// The id that a call starts an agent of.
fn started(call: &Call) -> Option<u32> {
    match call {
        Call::Arrival { request, .. } => Some(request.id),
        Call::Retry { id, .. } => Some(*id),
        _ => None,
    }
}

/// A call in the documents' words.
fn words(call: &Call) -> String {
    match call {
        Call::Arrival { slot, request } => format!("arrival id {} in slot {slot}", request.id),
        Call::Retry { slot, id } => format!("retry id {id} in slot {slot}"),
        Call::Turn { slot } => format!("turn slot {slot}"),
        Call::Crash { slot } => format!("crash slot {slot}"),
        Call::Restart => "restart".to_string(),
        Call::PutInOrder => "put in order".to_string(),
        Call::Add { id } => format!("add id {id}"),
        Call::Take => "take".to_string(),
        Call::Done { id } => format!("done id {id}"),
        Call::Retire { floor } => format!("retire below {floor}"),
    }
}
