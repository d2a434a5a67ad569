//! The tables, in Markdown, and the goals under them. They are made first and printed then, since the summary stands in front.

use std::fs;

use crate::case::Case;
use crate::clock::median;
use crate::inputs::{cases, new_intents, Size, EMPTY, FULL, TYPICAL};
use crate::port::lent;
use crate::stack;
use crate::times::{boundary_call, times, Times, ROUNDS};

const SIZES: [Size; 3] = [EMPTY, TYPICAL, FULL];
/// The goals, in microseconds, times and bytes.
const TOKEN_CALL: f64 = 25.0;
const DRAIN_RATIO: f64 = 3.0;
const STACK: usize = 1 << 20;

/// Three figures.
pub fn figure(value: f64) -> String {
    match value {
        v if v < 0.1 => format!("{v:.3}"),
        v if v < 10.0 => format!("{v:.2}"),
        v if v < 100.0 => format!("{v:.1}"),
        v => format!("{v:.0}"),
    }
}

fn against(port: f64, rust: Option<f64>) -> String {
    match rust {
        Some(rust) if rust > 0.0 => format!("{} (×{})", figure(port), figure(port / rust)),
        _ => figure(port),
    }
}

fn cells(times: Times) -> String {
    let rust = times.rust.map_or("-".to_string(), figure);
    let own = times.own.map_or("-".to_string(), |own| against(own, times.rust));
    format!(" {rust} | {} | {own} |", against(times.boundary, times.rust))
}

fn processor() -> String {
    let text = fs::read_to_string("/proc/cpuinfo").unwrap_or_default();
    let model = text.lines().find_map(|line| line.strip_prefix("model name")?.split_once(": "));
    model.map_or("unknown".to_string(), |(_, name)| name.to_string())
}

fn head() -> String {
    let mut out = include_str!("head.md").replace("PROCESSOR", &processor()).replace("ROUNDS", &ROUNDS.to_string());
    if cfg!(not(feature = "rust")) {
        out += "The upstream text or cargo is not at hand, so there is no Rust side in this run.\n\n";
    }
    out += "| call |";
    SIZES.iter().for_each(|size| out += &format!(" {}: Rust | C | own |", size.name));
    out + &format!("\n|---|{}\n", "---|".repeat(9))
}

/// The name in the table; the two drains differ by their books.
pub fn row_name(cases: &[Case], row: usize) -> String {
    match cases[row].call {
        "drain" if cases[row + 1].call == "drain" => "drain, retained queued again".to_string(),
        "drain" => "drain, new intents".to_string(),
        call => call.to_string(),
    }
}

/// The slowest of the calls by token on the full book, its own part and whole.
#[derive(Default)]
struct Slowest {
    own: (f64, &'static str),
    boundary: (f64, &'static str),
}

impl Slowest {
    fn note(&mut self, call: &'static str, times: Times) {
        let own = times.own.unwrap_or(0.0);
        if call.ends_with("attempt") && own > self.own.0 {
            self.own = (own, call);
        }
        if call.ends_with("attempt") && times.boundary > self.boundary.0 {
            self.boundary = (times.boundary, call);
        }
    }

    fn text(&self) -> String {
        let ((own, slow), (boundary, call)) = (self.own, self.boundary);
        format!(
            "\nGoal: a call by token within {TOKEN_CALL} µs of its own. On the full book the slowest, `{slow}`, takes {} µs: {}. \
             With the reading of the whole book and the writing back, the slowest, `{call}`, takes {} µs.\n\n",
            figure(own),
            verdict(own <= TOKEN_CALL),
            figure(boundary),
        )
    }
}

/// What a caller through C pays on the books of one size, of all calls together.
#[derive(Default)]
struct Paid {
    micros: Vec<f64>,
    ratios: Vec<f64>,
    drain: Option<f64>,
}

impl Paid {
    fn note(&mut self, name: &str, times: Times) {
        // Archives are no part of the upstream Rust.
        let upstream = times.rust.filter(|rust| *rust > 0.0 && !matches!(name, "read" | "write"));
        let ratio = upstream.map(|rust| times.boundary / rust);
        self.micros.push(times.boundary);
        self.ratios.extend(ratio);
        if name == "drain, new intents" {
            self.drain = ratio;
        }
    }

    fn micros(&self) -> String {
        let quickest = self.micros.iter().copied().fold(f64::INFINITY, f64::min);
        let slowest = self.micros.iter().copied().fold(0.0, f64::max);
        format!("{}, {}, {}", figure(quickest), figure(median(self.micros.clone())), figure(slowest))
    }

    fn ratio(&self) -> String {
        let (low, high) = self.ratios.iter().fold((f64::INFINITY, 0.0f64), |(low, high), r| (low.min(*r), high.max(*r)));
        if self.ratios.is_empty() {
            return "-".to_string();
        }
        format!("×{}, ×{}, ×{}", figure(low), figure(median(self.ratios.clone())), figure(high))
    }

    fn drain(&self) -> String {
        self.drain.map_or("-".to_string(), |ratio| format!("×{}", figure(ratio)))
    }
}

/// What was measured of every call: the table, and what the summary takes from it.
pub struct Calls {
    pub table: String,
    paid: [Paid; 3],
}

impl Calls {
    /// The summary, with the largest stack.
    pub fn in_short(&self, largest: usize) -> String {
        let row = |what: &str, cell: fn(&Paid) -> String| {
            let cells: Vec<String> = self.paid.iter().map(cell).collect();
            format!("| {what} | {} |\n", cells.join(" | "))
        };
        let names: Vec<&str> = SIZES.iter().map(|size| size.name).collect();
        format!(
            "## In short\n\nAll calls together, through C, on the three books below: the least, the middle one and the most.\n\n\
             | | {} |\n|---|---|---|---|\n{}{}{}\nThe largest stack of any call: {largest} bytes.\n\n",
            names.join(" | "),
            row("µs of a call", Paid::micros),
            row("against the upstream Rust", Paid::ratio),
            row("a drain of new intents against it", Paid::drain),
        )
    }
}

pub fn calls() -> Calls {
    let mut table = head();
    let mut paid: [Paid; 3] = Default::default();
    let columns = SIZES.map(cases);
    let mut slowest = Slowest::default();
    for row in 0..columns[0].len() {
        let name = row_name(&columns[2], row);
        eprintln!("timing {name}");
        table += &format!("| {name} |");
        for (place, (size, column)) in SIZES.iter().zip(&columns).enumerate() {
            let case = &column[row];
            if case.call == "open" && size.name != EMPTY.name {
                table += " - | - | - |";
                continue;
            }
            let times = times(case);
            table += &cells(times);
            paid[place].note(&name, times);
            if size.name == FULL.name {
                slowest.note(case.call, times);
            }
        }
        table += "\n";
    }
    table += &slowest.text();
    Calls { table, paid }
}

fn verdict(met: bool) -> &'static str {
    if met {
        "met"
    } else {
        "MISSED"
    }
}

pub fn drain() -> String {
    let times = times(&new_intents(16, TYPICAL));
    let own = times.own.expect("a drain reads and writes its book");
    let goal = match times.rust {
        Some(rust) => {
            let ratio = own / rust;
            format!(". Measured: {} times: {}", figure(ratio), verdict(ratio <= DRAIN_RATIO))
        }
        None => ", which is not at hand".to_string(),
    };
    format!(
        "## A drain of 16 new intents of two spends and two outputs each, in µs\n\n\
         | Rust | C | own |\n|---|---|---|\n|{}\n\n\
         Goal: its own part within {DRAIN_RATIO} times the Rust{goal}.\n\n",
        cells(times)
    )
}

fn boundary_stack(case: &Case) -> usize {
    stack::on_thread(|| {
        let mut call = boundary_call(case);
        let mut book = lent(&case.book);
        stack::used(&mut || {
            call(&mut book);
        })
    })
}

/// The same call on a book whose archive is cut short by a byte, and so refused.
fn refused_stack(case: &Case) -> usize {
    let mut cut = case.clone();
    cut.book.pop();
    boundary_stack(&cut)
}

/// The table, and the largest of it.
pub fn stack() -> (String, usize) {
    let mut table = "## Stack, in bytes, on the full book\n\n\
        A thread's stack is painted before the call and looked at after it. *C, refused*: the book's archive is cut short \
        by a byte.\n\n\
        | call | C | C, refused |\n|---|---|---|\n"
        .to_string();
    let full = cases(FULL);
    let mut largest = (0, String::new());
    for (row, case) in full.iter().enumerate() {
        let name = row_name(&full, row);
        table += &format!("| {name} |");
        for (way, bytes) in [("C", boundary_stack(case)), ("C, refused", refused_stack(case))] {
            table += &format!(" {bytes} |");
            if bytes > largest.0 {
                largest = (bytes, format!("`{name}`, {way}"));
            }
        }
        table += "\n";
    }
    table += &format!(
        "\nGoal: at most {STACK} bytes. The largest is {} ({}): {}.\n\n",
        largest.0,
        largest.1,
        verdict(largest.0 <= STACK)
    );
    (table, largest.0)
}
