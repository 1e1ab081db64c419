//! `reference`: the subcommands over the library. Everything goes to standard output.

use std::env;
use std::fs;
use std::io::{self, Write};
use std::path::Path;
use std::process::ExitCode;

use reference::coverage::Coverage;
use reference::plain::{check_list, Tally};
use reference::random::Random;
use reference::{cases, generate, schedule, Call};

const USAGE: &str = "usage:
  reference run FOLDER                the schedule program on pack.bin and schedule.bin
  reference cases FILE                what each case of a file comes to
  reference generate SEED COUNT FILE  writes a file of cases
  reference demand3 SEED COUNT        demand 3, W-208 and W-209 on generated lists of calls, W-207 on some
  reference coverage FILE             how often each question and answer occurs in a file
";

fn main() -> ExitCode {
    let arguments: Vec<String> = env::args().skip(1).collect();
    let arguments: Vec<&str> = arguments.iter().map(String::as_str).collect();
    let result = match arguments[..] {
        ["run", folder] => run(Path::new(folder)),
        ["cases", file] => print_cases(file),
        ["generate", seed, count, file] => write_cases(seed, count, file),
        ["demand3", seed, count] => demand3(seed, count),
        ["coverage", file] => print_coverage(file),
        _ => Err(USAGE.to_string()),
    };
    match result {
        Ok(code) => code,
        Err(message) => {
            eprint!("{message}");
            ExitCode::from(2)
        }
    }
}

type Done = Result<ExitCode, String>;

fn print(text: &str) -> Done {
    let written = io::stdout().write_all(text.as_bytes());
    written.map_err(|error| format!("standard output: {error}\n"))?;
    Ok(ExitCode::SUCCESS)
}

fn read(file: &str) -> Result<Vec<u8>, String> {
    fs::read(file).map_err(|error| format!("{file}: {error}\n"))
}

/// A missing file counts as empty.
fn read_or_empty(file: &Path) -> Result<Vec<u8>, String> {
    match fs::read(file) {
        Err(error) if error.kind() == io::ErrorKind::NotFound => Ok(Vec::new()),
        result => result.map_err(|error| format!("{}: {error}\n", file.display())),
    }
}

fn number(text: &str) -> Result<u64, String> {
    text.parse()
        .map_err(|_| format!("{text} is not a number\n{USAGE}"))
}

fn run(folder: &Path) -> Done {
    let pack = read_or_empty(&folder.join("pack.bin"))?;
    let schedule = read_or_empty(&folder.join("schedule.bin"))?;
    print(&schedule::program(&pack, &schedule))
}

fn print_cases(file: &str) -> Done {
    print(&cases::print_all(&read(file)?))
}

fn write_cases(seed: &str, count: &str, file: &str) -> Done {
    let bytes = generate::file(number(seed)?, number(count)? as usize);
    fs::write(file, &bytes).map_err(|error| format!("{file}: {error}\n"))?;
    print(&format!("cases {count} bytes {}\n", bytes.len()))
}

fn print_coverage(file: &str) -> Done {
    print(&Coverage::of_file(&read(file)?).print())
}

fn demand3(seed: &str, count: &str) -> Done {
    let (seed, count) = (number(seed)?, number(count)?);
    let makers: [(&str, ListMaker); 4] = [
        ("", generate::any_list),
        (" with MOVE", generate::move_list),
        (" with workers", generate::worked_list),
        (" that retire", generate::retiring_list),
    ];
    for (sort, make) in makers {
        match watch_lists(seed, count, make) {
            Ok(total) => print(&format!("lists{sort} {count}\n{}", tally_text(&total)))?,
            Err((list, violation)) => {
                let place = format!("seed {seed} list{sort} {list}");
                print(&format!("violation {place}: {violation}\n"))?;
                return Ok(ExitCode::FAILURE);
            }
        };
    }
    print("violations 0\n")
}

/// Pack, fresh store and calls of a list.
type ListMaker = fn(&mut Random) -> (Vec<u8>, Vec<u8>, Vec<Call>);

/// What was counted in all lists, or the first list with a violation.
fn watch_lists(seed: u64, count: u64, make: ListMaker) -> Result<Tally, (u64, String)> {
    let mut total = Tally::default();
    for list in 0..count {
        let (pack, store, calls) = make(&mut Random::of_item(seed, list));
        let tally = check_list(&pack, store, &calls);
        total.add(&tally.map_err(|violation| (list, violation))?);
    }
    Ok(total)
}

fn tally_text(tally: &Tally) -> String {
    let mut lines = vec![
        format!("calls {}", tally.calls),
        format!("accepted arrivals {}", tally.arrivals),
        format!("bookings {}", tally.bookings),
        format!("accepted retries {}", tally.retries),
        format!("accepted turns {}", tally.turns),
        format!("moves of the plain machine {}", tally.moves),
        format!("accepted crashes {}", tally.crashes),
        format!("restarts {}", tally.restarts),
        format!("accepted orders {}", tally.orders),
        format!("accepted adds {}", tally.adds),
        format!("accepted takes {}", tally.takes),
        format!("accepted dones {}", tally.dones),
        format!("times a restart found an id taken {}", tally.waiting_again),
        format!("accepted retires {}", tally.retires),
        format!("requests retired {}", tally.retired),
        format!("first replies {}", tally.first_replies),
        format!("later replies {}", tally.later_replies),
        format!(
            "agents with as many turns as instructions {}",
            tally.full_lives
        ),
        format!("data rows compared {}", tally.data_rows),
        format!("times added up {}", tally.times_added_up),
        format!(
            "times an amount other than 0 was under way {}",
            tally.times_under_way
        ),
    ];
    for (question, times) in tally.refused.iter().enumerate() {
        if *times > 0 {
            lines.push(format!("refused {question} times {times}"));
        }
    }
    lines.join("\n") + "\n"
}
