//! A small host: a stock of goods in two places, kept in one file.
//!
//!     stock FILE init P C                        a fresh stock of P partitions of C rows
//!     stock FILE move FROM TO AMOUNT --id N      takes AMOUNT from shelf FROM of partition 0 to shelf TO of partition 1;
//!                                                with --keep K behind it, then retires all but the K newest moves
//!     stock FILE accept FROM TO AMOUNT --id N    books the same move, puts it on the worklist and prints the slip at once
//!     stock FILE work                            does the moves on the worklist, one after the other, until none waits
//!     stock FILE retry ID                        has the reply of an earlier move again, by an agent
//!     stock FILE reply ID                        has the reply of an earlier move from the log, or `not yet`
//!     stock FILE retire FLOOR                    removes the book and log rows of all moves with smaller ids
//!     stock FILE retire --keep K                 the same with a floor that leaves the K newest moves
//!     stock FILE show                            the rows and log rows, the floor, the requests under way, what they come to,
//!                                                the worklist
//!
//! The file holds the store, behind it the eight slots, and behind them the worklist. After each call (of accept behind all
//! three of its calls) it is written whole to a temporary file, brought to the disk, and renamed over the old one, so store,
//! slots and list are always of one moment: a list in a file of its own could name an id that isn't booked yet. A program that
//! is killed at any place leaves a file from which the next one goes on: the slots are emptied by a restart and their agents
//! started again from the book; what was logged is not done a second time.
//!
//! A killed worker leaves an id taken. The restart has it waiting again, and the next work takes it first, since it has
//! kept its place. Agents of listed ids are left to the worker, so that no terminal waits for them.
//!
//! An earlier library left rows in the order in which they came. The first command but show and reply on such a file puts them
//! in order, writes the file back the same way, says so on the standard error, and only then goes on; show and reply never
//! write. An earlier host kept no list: its file ends behind the slots, and its list is empty.
//!
//! A book of C rows has room for C / 5 moves. Retiring makes room (W-209): the amounts that were moved stay on the shelves, and
//! a late repeat of a retired move is refused (30) and changes nothing, so ids must rise. The newest moves are those with the
//! greatest ids. A move that is listed or isn't logged through stays, and with --keep so do all with greater ids.
//!
//! A request is under way while its step 0, which takes the amount, is logged in some partition and its step 1, which
//! puts it, in none. Nothing is lost meanwhile (W-207): all data values and the amounts under way come to 0, remainder
//! by 2^32. That speaks of every file of these hosts, since they only ever run their built-in MOVE on a store that
//! their own init made: where show finds another sum, it says so on the standard error and ends with 1. A file into
//! which something else wrote data rows, or another pack, need not come to 0.

use sarthule::{
    add, arrival, crash, create, done, listed, order, question, reply, restart, retire, retry, store_bytes, take, turn, word,
    Answer, List, Request, Slots, EMPTY, FLOOR_KEY, NONE_LISTED, TAKEN, WAITING,
};
use std::error::Error;
use std::fs::{self, File};
use std::io::Write;
use std::path::{Path, PathBuf};
use std::process::ExitCode;

type Try<T> = Result<T, Box<dyn Error>>;

const USAGE: &str = "FILE init P C | move FROM TO AMOUNT --id N [--keep K] | accept FROM TO AMOUNT --id N | work | retry ID | \
                     reply ID | retire FLOOR | retire --keep K | show";

/// MOVE, arguments FROM, TO, AMOUNT, 0: takes AMOUNT off FROM in partition 0 and adds it to TO in partition 1.
const MOVE: [(u8, u32); 12] = [
    (0x14, 0),
    (0x60, 0),
    (0x85, 4),
    (0x35, 2),
    (0x94, 5),
    (0x75, 0),
    (0x60, 1),
    (0x85, 1),
    (0x25, 2),
    (0x91, 5),
    (0x75, 0),
    (0xB0, 0),
];

/// Of an id's five book rows row 0 has the workflow, rows 1 to 4 have the arguments: row 3 has AMOUNT.
const WORKFLOW_ROW: u64 = 0;
const AMOUNT_ROW: u64 = 3;

fn pack() -> Vec<u8> {
    let mut bytes = vec![1, MOVE.len() as u8, 0];
    bytes.extend(MOVE.iter().map(|(operation, _)| *operation));
    bytes.extend(MOVE.iter().flat_map(|(_, operand)| operand.to_le_bytes()));
    bytes
}

/// The state and the file that it is kept in.
struct Stock {
    path: PathBuf,
    pack: Vec<u8>,
    store: Vec<u8>,
    slots: Slots,
    list: List,
}

impl Stock {
    fn init(path: &Path, partitions: usize, rows: usize) -> Try<Self> {
        let store = vec![0; store_bytes(partitions, rows)];
        let mut stock = Self { path: path.into(), pack: pack(), store, slots: EMPTY, list: NONE_LISTED };
        said(create(&mut stock.store, partitions, rows))?;
        stock.save()?;
        Ok(stock)
    }

    /// The slots end a file that an earlier host wrote, which kept no list.
    fn load(path: &Path) -> Try<Self> {
        let mut store = fs::read(path)?;
        let has_no_list = store.len() == EMPTY.len() + store_bytes_said(&store);
        let list = if has_no_list { NONE_LISTED } else { split_last(&mut store)? };
        let slots = split_last(&mut store)?;
        Ok(Self { path: path.into(), pack: pack(), store, slots, list })
    }

    /// Puts the rows in memory in order. Whether they were not: a store in order keeps its bytes.
    fn put_in_order(&mut self) -> Try<bool> {
        let as_read = self.store.clone();
        said(order(&mut self.store))?;
        Ok(self.store != as_read)
    }

    /// For a command that goes on from the file: an older one is written back in order first.
    fn load_in_order(path: &Path) -> Try<Self> {
        let mut stock = Self::load(path)?;
        if stock.put_in_order()? {
            stock.save()?;
            eprintln!("{}: rows put in order", path.display());
        }
        Ok(stock)
    }

    /// For a command that changes the file: what it goes on from. All slots are empty then.
    fn go_on(path: &Path) -> Try<Self> {
        let mut stock = Self::load_in_order(path)?;
        stock.recover()?;
        Ok(stock)
    }

    /// For a command that only reads: the file stays as it is.
    fn load_to_show(path: &Path) -> Try<Self> {
        let mut stock = Self::load(path)?;
        if stock.put_in_order()? {
            eprintln!("{}: rows not in order yet", path.display());
        }
        Ok(stock)
    }

    /// All of it to a temporary file, to the disk, and then to the name in one step.
    fn save(&self) -> Try<()> {
        let mut temporary = self.path.clone().into_os_string();
        temporary.push(".new");
        let mut file = File::create(&temporary)?;
        file.write_all(&self.store)?;
        file.write_all(&self.slots)?;
        file.write_all(&self.list)?;
        file.sync_all()?;
        fs::rename(&temporary, &self.path)?;
        let folder = self.path.parent().filter(|p| !p.as_os_str().is_empty());
        File::open(folder.unwrap_or(Path::new(".")))?.sync_all()?;
        Ok(())
    }

    /// Turns of the agent in a slot until it replies.
    fn run(&mut self, slot: usize) -> Try<()> {
        loop {
            let answer = said(turn(&self.pack, &mut self.store, &mut self.slots, slot))?;
            self.save()?;
            if let Answer::Reply { id, value } = answer {
                println!("reply {id} {value}");
                return Ok(());
            }
        }
    }

    /// What a killed program left is begun again: the restart empties the slots and has all listed ids waiting. Agents of other
    /// ids are started again from the book; the file keeps their ids until all are started. Those of listed ids are left to the
    /// worker.
    fn recover(&mut self) -> Try<()> {
        let in_use = (0..8).filter(|slot| word(&self.slots, 12 * slot) != 0);
        let left: Vec<u32> = in_use.map(|slot| word(&self.slots, 12 * slot + 1)).collect();
        let entries = listed(&self.list);
        if left.is_empty() && !entries.iter().any(|(_, mark)| *mark == TAKEN) {
            return Ok(());
        }
        let is_listed = |id: &u32| entries.iter().any(|(listed, _)| listed == id);
        let ids: Vec<u32> = left.into_iter().filter(|id| !is_listed(id)).collect();
        said(restart(&mut self.slots, &mut self.list))?;
        for (slot, id) in ids.iter().enumerate() {
            said(retry(&self.pack, &self.store, &mut self.slots, slot, *id))?;
        }
        self.save()?;
        (0..ids.len()).try_for_each(|slot| self.run(slot))
    }

    fn arrive(&mut self, request: Request) -> Try<Answer> {
        said(arrival(&self.pack, &mut self.store, &mut self.slots, 0, request))
    }

    fn move_goods(&mut self, request: Request) -> Try<()> {
        self.arrive(request)?;
        self.save()?;
        self.run(0)
    }

    /// The older ones are retired behind the reply, so that a repeat of one of them still has its reply by this command.
    fn move_and_retire(&mut self, request: Request, keep: u32) -> Try<()> {
        self.move_goods(request)?;
        self.retire_older(keep).map(|_| ())
    }

    /// A booked id is started again and run until it replies.
    fn finish(&mut self, id: u32) -> Try<()> {
        said(retry(&self.pack, &self.store, &mut self.slots, 0, id))?;
        self.save()?;
        self.run(0)
    }

    /// Books a move and puts it on the list. The agent that the arrival started is ended at once: the worker starts its own, and
    /// needs a free slot. The three calls come into the file by one save, so that a kill leaves the request booked and listed or
    /// neither, and one that the list has no room for (26) is not booked. The slip is printed behind the save: what somebody
    /// holds a slip for is on the disk.
    fn accept(&mut self, request: Request) -> Try<()> {
        self.arrive(request)?;
        said(crash(&self.pack, &self.store, &mut self.slots, 0))?;
        said(add(&self.pack, &self.store, &self.slots, &mut self.list, request.id))?;
        self.save()?;
        println!("accepted {}", request.id);
        Ok(())
    }

    /// Takes the first id that waits, if there is one, which question 27 asks.
    fn take(&mut self) -> Try<Option<u32>> {
        match take(&self.pack, &self.store, &self.slots, &mut self.list) {
            Answer::Refused { question: 27, .. } => Ok(None),
            Answer::Taken { id } => Ok(Some(id)),
            other => said(other).map(|_| None),
        }
    }

    /// A kill behind the reply and before done leaves the id listed: the next work takes it again, and its log has the same reply.
    fn work(&mut self) -> Try<()> {
        while let Some(id) = self.take()? {
            self.save()?;
            self.finish(id)?;
            said(done(&self.pack, &self.store, &self.slots, &mut self.list, id))?;
            self.save()?;
            println!("done {id}");
        }
        Ok(())
    }

    /// Retires all requests below the floor, and says how many they were and how many rows came free by it.
    fn retire_below(&mut self, floor: u32) -> Try<()> {
        let (booked, used) = (self.booked_ids().len(), self.used_rows());
        said(retire(&self.pack, &mut self.store, &self.slots, &self.list, floor))?;
        self.save()?;
        let (retired, free_again) = (booked - self.booked_ids().len(), used - self.used_rows());
        println!("requests retired {retired}\nrows free again {free_again}");
        Ok(())
    }

    /// Whether a booked id may not be retired yet, which question 28 asks: it is listed or isn't logged through. No slot is in
    /// use here. And the greatest id is never below a floor.
    fn must_stay(&self, id: u32) -> Try<bool> {
        if id == u32::MAX || listed(&self.list).iter().any(|(listed, _)| *listed == id) {
            return Ok(true);
        }
        Ok(said(reply(&self.pack, &self.store, id))? == Answer::NotYet)
    }

    /// Retires all but the newest requests, so many as are to be kept; an id that must stay keeps all greater ones too. Whether
    /// one was retired.
    fn retire_older(&mut self, keep: u32) -> Try<bool> {
        let ids = self.booked_ids();
        let mut n = 0;
        while n < ids.len().saturating_sub(keep as usize) && !self.must_stay(ids[n])? {
            n += 1;
        }
        if n == 0 {
            return Ok(false);
        }
        self.retire_below(ids.get(n).copied().unwrap_or(ids[n - 1].wrapping_add(1)))?;
        Ok(true)
    }

    fn retire_but(&mut self, keep: u32) -> Try<()> {
        if !self.retire_older(keep)? {
            println!("nothing to retire");
        }
        Ok(())
    }

    fn show_reply(&self, id: u32) -> Try<()> {
        match said(reply(&self.pack, &self.store, id))? {
            Answer::Reply { id, value } => println!("reply {id} {value}"),
            _ => println!("not yet"),
        }
        Ok(())
    }

    fn number_at(&self, at: usize, bytes: usize) -> u64 {
        self.store[at..at + bytes].iter().rev().fold(0, |n, byte| n << 8 | u64::from(*byte))
    }

    fn partitions(&self) -> usize {
        usize::from(self.store[0])
    }

    /// The stored keys of a partition, or of the book (number P), and their values, as they stand.
    fn rows(&self, part: usize) -> impl Iterator<Item = (u64, u32)> + '_ {
        let (p, c) = (self.partitions(), self.number_at(1, 2) as usize);
        let keys = 3 + 2 * (p + 1);
        let values = keys + 8 * c * (p + 1);
        let used = self.number_at(3 + 2 * part, 2) as usize;
        let row_at = move |row| (self.number_at(keys + 8 * row, 8), self.number_at(values + 4 * row, 4) as u32);
        (part * c..part * c + used).map(row_at)
    }

    /// The booked ids, which rise. The floor's row is the last of the book, behind the five rows of each id.
    fn booked_ids(&self) -> Vec<u32> {
        let rows = self.rows(self.partitions());
        let first_rows = rows.filter(|(key, _)| key & 7 == WORKFLOW_ROW && *key != FLOOR_KEY);
        first_rows.map(|(key, _)| (key >> 3) as u32).collect()
    }

    /// The used rows of all partitions and of the book, the floor's row included.
    fn used_rows(&self) -> u64 {
        (0..=self.partitions()).map(|part| self.number_at(3 + 2 * part, 2)).sum()
    }

    /// The rows of all partitions; the book is none of them.
    fn partition_rows(&self) -> impl Iterator<Item = (u64, u32)> + '_ {
        (0..self.partitions()).flat_map(|part| self.rows(part))
    }

    /// Whether the log row of a request's step stands in some partition.
    fn is_logged(&self, id: u32, step: u64) -> bool {
        self.partition_rows().any(|(key, _)| key == u64::from(id) << 16 | step)
    }

    /// The requests under way and their amounts, in the order of the book, which is by rising id.
    fn under_way(&self) -> impl Iterator<Item = (u32, u32)> + '_ {
        let booked = self.rows(self.partitions()).filter(|(key, _)| key & 7 == AMOUNT_ROW);
        let amounts = booked.map(|(key, amount)| ((key >> 3) as u32, amount));
        amounts.filter(|(id, _)| self.is_logged(*id, 0) && !self.is_logged(*id, 1))
    }

    /// By rising key a partition's log rows stand first; data rows are printed first all the same, as the schedule program does.
    fn show_rows(&self) {
        for part in 0..self.partitions() {
            let (data, log): (Vec<_>, Vec<_>) = self.rows(part).partition(|(key, _)| is_data(*key));
            for (key, value) in data {
                println!("row {part} {} {value}", key as u32);
            }
            for (key, value) in log {
                println!("log {part} {} {} {value}", key >> 16, key & 0xFFFF);
            }
        }
    }

    fn show_floor(&self) {
        for (_, floor) in self.rows(self.partitions()).filter(|(key, _)| *key == FLOOR_KEY) {
            println!("floor {floor}");
        }
    }

    /// The list in order of entry. The mark of a list that 25 refuses may be another number.
    fn show_list(&self) {
        for (id, mark) in listed(&self.list) {
            match mark {
                WAITING => println!("list {id} waiting"),
                TAKEN => println!("list {id} taken"),
                _ => println!("list {id} {mark}"),
            }
        }
    }

    /// An error where data and amounts under way do not come to 0.
    fn show(&self) -> Try<()> {
        self.show_rows();
        self.show_floor();
        let mut amounts = 0u32;
        for (id, amount) in self.under_way() {
            println!("under way {id} {amount}");
            amounts = amounts.wrapping_add(amount);
        }
        let data = self.partition_rows().filter(|(key, _)| is_data(*key));
        let total = data.fold(0u32, |sum, (_, value)| sum.wrapping_add(value));
        let together = total.wrapping_add(amounts);
        println!("total {total}\namounts under way {amounts}\ntogether {together}");
        self.show_list();
        if together != 0 {
            let path = self.path.display();
            return Err(format!("{path}: data and amounts under way come to {together}, not to 0").into());
        }
        Ok(())
    }
}

/// How long the first three bytes of a file, P and C, say that its store is; 0 where they are not there.
fn store_bytes_said(file: &[u8]) -> usize {
    match *file {
        [p, low, high, ..] => store_bytes(p.into(), u16::from_le_bytes([low, high]).into()),
        _ => 0,
    }
}

/// The last bytes of a file, which it then has no more.
fn split_last<const N: usize>(file: &mut Vec<u8>) -> Try<[u8; N]> {
    let at = file.len().checked_sub(N).ok_or("the file is too short")?;
    Ok(file.split_off(at).try_into().expect("as many bytes as were split off"))
}

/// A row of a partition is a data row, whose key has its highest bit set, or a log row.
fn is_data(key: u64) -> bool {
    key >> 63 == 1
}

/// A refusal ends the program, and the file stays as the call before left it.
fn said(answer: Answer) -> Try<Answer> {
    match answer {
        Answer::Refused { question: q @ 4..=8, workflow, instruction } => {
            Err(format!("refused {q} {workflow} {instruction}: {}", question(q)).into())
        }
        Answer::Refused { question: q, .. } => Err(format!("refused {q}: {}", question(q)).into()),
        answer => Ok(answer),
    }
}

fn main() -> ExitCode {
    match command() {
        Ok(()) => ExitCode::SUCCESS,
        Err(problem) => {
            eprintln!("{problem}");
            ExitCode::FAILURE
        }
    }
}

/// FROM TO AMOUNT and N, the words of move and accept.
fn request([from, to, amount, id]: [&str; 4]) -> Try<Request> {
    Ok(Request { id: id.parse()?, workflow: 0, arguments: [from.parse()?, to.parse()?, amount.parse()?, 0] })
}

/// What stands behind retire: a floor, or how many are to be kept.
fn retire_command(path: &Path, words: &[&str]) -> Try<()> {
    match *words {
        ["--keep", keep] => {
            let keep = keep.parse()?;
            Stock::go_on(path)?.retire_but(keep)
        }
        [floor] => {
            let floor = floor.parse()?;
            Stock::go_on(path)?.retire_below(floor)
        }
        _ => Err(USAGE.into()),
    }
}

fn command() -> Try<()> {
    let words: Vec<String> = std::env::args().skip(1).collect();
    let words: Vec<&str> = words.iter().map(String::as_str).collect();
    let Some((path, words)) = words.split_first() else {
        return Err(USAGE.into());
    };
    let path = Path::new(path);
    match *words {
        ["init", p, c] => Stock::init(path, p.parse()?, c.parse()?).map(|_| ()),
        ["move", from, to, amount, "--id", id] => {
            let request = request([from, to, amount, id])?;
            Stock::go_on(path)?.move_goods(request)
        }
        ["move", from, to, amount, "--id", id, "--keep", keep] => {
            let (request, keep) = (request([from, to, amount, id])?, keep.parse()?);
            Stock::go_on(path)?.move_and_retire(request, keep)
        }
        ["accept", from, to, amount, "--id", id] => {
            let request = request([from, to, amount, id])?;
            Stock::go_on(path)?.accept(request)
        }
        ["work"] => Stock::go_on(path)?.work(),
        ["retry", id] => {
            let id = id.parse()?;
            Stock::go_on(path)?.finish(id)
        }
        ["reply", id] => {
            let id = id.parse()?;
            Stock::load_to_show(path)?.show_reply(id)
        }
        ["retire", ref words @ ..] => retire_command(path, words),
        ["show"] => Stock::load_to_show(path)?.show(),
        _ => Err(USAGE.into()),
    }
}
