//! The Rust submission book as the judge of the port: see README.md.

mod archives;
mod checks;
mod compare;
mod cover;
mod driver;
mod generate;
mod labels;
mod mutants;
mod record;
mod restorable;
mod rng;
mod selftest;
mod show;
mod shrink;
mod theorems;

use std::io::{Read, Write};
use std::path::PathBuf;
use std::process::ExitCode;

use rust_book::{archive, play, script};

use driver::Driver;

const USAGE: &str = "\
oracle play < SCRIPT > ANSWERS
oracle show < SCRIPT
oracle archive-check < ARCHIVE
oracle cover   [--seed S] [--scripts N]
oracle compare --driver PATH [--driver-arg A]... [--seed S] [--scripts N] [--save FILE]
oracle archives --driver PATH [--driver-arg A]... [--seed S] [--archives N]
oracle replay  --driver PATH [--driver-arg A]... --from FOLDER
oracle record  --out FOLDER [--seed S] [--scripts N] [--pool N] [--bytes N]
oracle mutants [--only N] [--driver PATH] [--seed S] [--scripts N] [--show]
oracle restorable [--seed S] [--scripts N]
oracle theorems --out CRATES [--seed S] [--lists N] [--blocks N] [--pool N]
oracle selftest";

struct Options {
    words: Vec<String>,
}

impl Options {
    fn text(&self, name: &str) -> Option<&str> {
        let at = self.words.iter().position(|word| word == name)?;
        Some(self.words.get(at + 1).unwrap_or_else(|| panic!("{name} needs a value")))
    }

    fn number(&self, name: &str, default: u64) -> u64 {
        self.text(name).map_or(default, |text| text.parse().expect("a number"))
    }

    fn path(&self, name: &str) -> PathBuf {
        PathBuf::from(self.text(name).unwrap_or_else(|| panic!("{name} is needed\n{USAGE}")))
    }

    fn flag(&self, name: &str) -> bool {
        self.words.iter().any(|word| word == name)
    }

    fn driver(&self) -> Option<Driver> {
        let path = PathBuf::from(self.text("--driver")?);
        let arguments = self.words.windows(2).filter(|pair| pair[0] == "--driver-arg");
        Some(Driver { path, arguments: arguments.map(|pair| pair[1].clone()).collect() })
    }

    fn needed_driver(&self) -> Driver {
        self.driver().unwrap_or_else(|| panic!("--driver is needed\n{USAGE}"))
    }
}

fn stdin() -> Vec<u8> {
    let mut bytes = Vec::new();
    std::io::stdin().read_to_end(&mut bytes).expect("standard input");
    bytes
}

fn cover(seed: u64, scripts: u64) -> bool {
    let mut table = cover::Table::default();
    for number in 0..scripts {
        let script = generate::script(seed, number);
        assert_eq!(script::Script::parse(&script.bytes()).as_ref(), Some(&script));
        table.add(&script, &play::steps(&script));
    }
    table.print();
    cover::complete(&table)
}

fn show_script() -> bool {
    let Some(script) = script::Script::parse(&stdin()) else {
        println!("the opening is cut short");
        return false;
    };
    println!("opened at token {}, id {}", script.next_token, script.next_id);
    for (call, step) in script.calls.iter().zip(play::steps(&script)) {
        println!("{}\n  {}", show::call(call), show::output(call, &step.output).0);
    }
    if !script.tail.is_empty() {
        println!("no call: {}", show::hex(&script.tail));
    }
    true
}

fn archive_check() -> bool {
    match archive::read(&stdin()) {
        Ok(book) => println!("ok\n{}", show::book(&book)),
        Err(broken) => println!("13 {}", broken.place),
    }
    true
}

fn main() -> ExitCode {
    let mut words = std::env::args().skip(1);
    let command = words.next().unwrap_or_default();
    let options = Options { words: words.collect() };
    let seed = options.number("--seed", 1);
    let well = match command.as_str() {
        "play" => std::io::stdout().write_all(&play::play(&stdin())).is_ok(),
        "show" => show_script(),
        "archive-check" => archive_check(),
        "cover" => cover(seed, options.number("--scripts", 6000)),
        "compare" => {
            let save = options.text("--save").map(PathBuf::from);
            let scripts = options.number("--scripts", 6000);
            compare::compare(&options.needed_driver(), seed, scripts, save.as_deref())
        }
        "archives" => {
            let count = options.number("--archives", 10) as usize;
            archives::run(&options.needed_driver(), seed, count)
        }
        "replay" => compare::compare_files(&options.needed_driver(), &options.path("--from")),
        "record" => {
            let bounds = record::Bounds {
                scripts: options.number("--scripts", 36) as usize,
                script_bytes: options.number("--bytes", 95_000) as usize,
                call_bytes: 14_000,
                pool: options.number("--pool", 4000),
            };
            record::record(seed, &bounds, &options.path("--out"));
            true
        }
        "mutants" => mutants::run(
            options.driver().as_ref(),
            options.text("--only").map(|text| text.parse().expect("a mutant's number")),
            seed,
            options.number("--scripts", 3000),
            options.flag("--show"),
        ),
        "restorable" => {
            restorable::run(seed, options.number("--scripts", 2000));
            true
        }
        "theorems" => {
            let bounds = theorems::Bounds {
                lists: options.number("--lists", 18) as usize,
                blocks: options.number("--blocks", 13) as usize,
                pool: options.number("--pool", 20_000),
            };
            let words = options.words.join(" ");
            theorems::write(
                seed,
                &bounds,
                &options.path("--out"),
                &format!("oracle theorems {words}"),
            );
            true
        }
        "selftest" => {
            selftest::run();
            true
        }
        _ => {
            eprintln!("{USAGE}");
            false
        }
    };
    if well {
        ExitCode::SUCCESS
    } else {
        ExitCode::FAILURE
    }
}
