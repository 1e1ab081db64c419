//! How often each question and each kind of answer occurs in a file of cases.

use std::fmt::Write;

use crate::calls::{Answer, Call, Outcome};
use crate::cases::{read_all, CallCase, Case, ListCase, Order};
use crate::refusal::QUESTIONS;
use crate::schedule;
use crate::store::Store;

/// The things that can be called, in the order of their call bytes.
pub const ORDERS: [&str; 15] = [
    "check", "open", "create", "arrival", "retry", "turn", "crash", "restart", "figures", "order",
    "add", "take", "done", "retire", "reply",
];

#[derive(Clone, Debug, Default, PartialEq, Eq)]
pub struct Coverage {
    pub schedules: usize,
    pub calls: usize,
    /// Of these, those with a worklist.
    pub with_list: usize,
    pub lists: usize,
    pub malformed: usize,
    /// The events of schedules that ran.
    pub events: usize,
    /// By question number, in schedules and in single and listed calls; 0 is not used.
    pub schedule_refusals: [usize; QUESTIONS.len() + 1],
    pub call_refusals: [usize; QUESTIONS.len() + 1],
    pub done: usize,
    pub moved: usize,
    pub replied: usize,
    pub taken: usize,
    pub not_yet: usize,
    /// Accepted calls for figures, which are no `done`.
    pub figures: usize,
    /// Single and listed calls by what was called: accepted and refused.
    pub orders: [(usize, usize); ORDERS.len()],
    /// Calls that 11 refuses for the order of the rows alone, and stores put in order that
    /// were not.
    pub not_rising: usize,
    pub put_in_order: usize,
}

impl Coverage {
    pub fn of_file(file: &[u8]) -> Self {
        let mut coverage = Self::default();
        for case in read_all(file) {
            match case {
                Some(Case::Schedule { pack, schedule }) => {
                    coverage.count_schedule(&pack, &schedule)
                }
                Some(Case::Call(call)) => coverage.count_call(&call),
                Some(Case::List(list)) => coverage.count_list(&list),
                None => coverage.malformed += 1,
            }
        }
        coverage
    }

    /// How often a question was the first no.
    pub fn question(&self, number: usize) -> usize {
        self.schedule_refusals[number] + self.call_refusals[number]
    }

    fn count_schedule(&mut self, pack: &[u8], schedule: &[u8]) {
        self.schedules += 1;
        match schedule::run(pack, schedule) {
            Ok(run) => {
                self.events += run.calls.len();
                for (_, outcome) in &run.calls {
                    self.count(outcome, true);
                }
            }
            Err(refusal) => self.count(&Err(refusal), true),
        }
    }

    fn count_call(&mut self, case: &CallCase) {
        self.calls += 1;
        self.with_list += usize::from(case.list.is_some());
        self.count_order(&case.order, &case.store, &case.perform().outcome);
    }

    fn count_list(&mut self, list: &ListCase) {
        self.lists += 1;
        list.perform_each(|call, given, outcome| {
            self.count_order(&Order::Call(*call), given, outcome);
        });
    }

    fn count_order(&mut self, order: &Order, given: &[u8], outcome: &Outcome) {
        if is_only_unordered(given) {
            let is_11 = outcome.is_err_and(|refusal| refusal.question == 11);
            self.not_rising += usize::from(is_11);
            let orders = *order == Order::Call(Call::PutInOrder);
            self.put_in_order += usize::from(orders);
        }
        let (accepted, refused) = &mut self.orders[order_index(order)];
        match outcome {
            Ok(_) => *accepted += 1,
            Err(_) => *refused += 1,
        }
        match (order, outcome) {
            (Order::Figures { .. }, Ok(_)) => self.figures += 1,
            _ => self.count(outcome, false),
        }
    }

    fn count(&mut self, outcome: &Outcome, in_schedule: bool) {
        match outcome {
            Ok(Answer::Done) => self.done += 1,
            Ok(Answer::Moved) => self.moved += 1,
            Ok(Answer::Reply { .. }) => self.replied += 1,
            Ok(Answer::Taken { .. }) => self.taken += 1,
            Ok(Answer::NotYet) => self.not_yet += 1,
            Err(refusal) => {
                let refusals = match in_schedule {
                    true => &mut self.schedule_refusals,
                    false => &mut self.call_refusals,
                };
                refusals[usize::from(refusal.question)] += 1;
            }
        }
    }

    pub fn print(&self) -> String {
        let mut text = format!(
            "cases {}\nschedules {}\nevents {}\ncalls {}\nlists {}\nmalformed {}\n",
            self.schedules + self.calls + self.lists + self.malformed,
            self.schedules,
            self.events,
            self.calls,
            self.lists,
            self.malformed
        );
        for number in 1..=QUESTIONS.len() {
            let (events, calls) = (self.schedule_refusals[number], self.call_refusals[number]);
            // Writing to a String cannot fail, here and below.
            let _ = writeln!(
                text,
                "question {number} {} schedules {events} calls {calls}",
                self.question(number)
            );
        }
        let refused: usize = (1..=QUESTIONS.len()).map(|n| self.question(n)).sum();
        let _ = writeln!(text, "answer done {}", self.done);
        let _ = writeln!(text, "answer moved {}", self.moved);
        let _ = writeln!(text, "answer reply {}", self.replied);
        let _ = writeln!(text, "answer taken {}", self.taken);
        let _ = writeln!(text, "answer not yet {}", self.not_yet);
        let _ = writeln!(text, "answer figures {}", self.figures);
        let _ = writeln!(text, "answer refused {refused}");
        for (name, (accepted, refused)) in ORDERS.iter().zip(self.orders) {
            let _ = writeln!(text, "call {name} accepted {accepted} refused {refused}");
        }
        let _ = writeln!(text, "rows not rising, refused 11 {}", self.not_rising);
        let _ = writeln!(text, "rows not rising, put in order {}", self.put_in_order);
        let _ = writeln!(text, "single calls with a worklist {}", self.with_list);
        text
    }
}

/// Right as earlier stores were, but not by rising key.
fn is_only_unordered(store: &[u8]) -> bool {
    Store::read_earlier(store).is_ok_and(|store| !store.is_in_order())
}

fn order_index(order: &Order) -> usize {
    match order {
        Order::Check => 0,
        Order::Open { .. } => 1,
        Order::Create { .. } => 2,
        Order::Call(Call::Arrival { .. }) => 3,
        Order::Call(Call::Retry { .. }) => 4,
        Order::Call(Call::Turn { .. }) => 5,
        Order::Call(Call::Crash { .. }) => 6,
        Order::Call(Call::Restart) => 7,
        Order::Figures { .. } => 8,
        Order::Call(Call::PutInOrder) => 9,
        Order::Call(Call::Add { .. }) => 10,
        Order::Call(Call::Take) => 11,
        Order::Call(Call::Done { .. }) => 12,
        Order::Call(Call::Retire { .. }) => 13,
        Order::Reply { .. } => 14,
    }
}
