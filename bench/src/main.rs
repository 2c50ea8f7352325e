//! Measures the proved library beside two optimized implementations without proofs, one in document
//! 01's forms and one free of them. Options: `--quick` shorter; `--only ours`, `--only forms` or
//! `--only reference`; `--case TEXT` lines whose name has the text; `--repeat N` exactly N repeats.
//! `--agree` alone only compares what the sides answer, and times nothing.

mod agree;
mod clock;
#[cfg(test)]
mod definition;
mod dynamic;
mod fast;
mod forms;
mod inputs;
mod lifted;
mod lines;
mod measure;
mod optimum;
mod ours;
mod planner;
mod recent;
mod table;
mod turns;

use lines::Options;
use measure::{Plan, Sides};

const NONE: Sides<bool> = Sides::all(false);

const USAGE: &str = "options: --quick shorter; --only ours, --only forms or --only reference; --case TEXT lines whose name has the text;
--repeat N exactly N repeats; --agree alone only compares what the sides answer";

fn refuse(why: &str) -> ! {
    eprintln!("planner-bench: {why}\n{USAGE}");
    std::process::exit(2)
}

fn options() -> Options {
    let mut options = Options {
        plan: Plan {
            wanted: Sides::all(true),
            repeats: 0,
            seconds: 0.15,
        },
        quick: false,
        case: String::new(),
    };
    let mut arguments = std::env::args().skip(1);
    while let Some(argument) = arguments.next() {
        let mut value = || {
            arguments
                .next()
                .unwrap_or_else(|| refuse(&format!("{argument} wants a value")))
        };
        match argument.as_str() {
            "--quick" => (options.quick, options.plan.seconds) = (true, 0.02),
            "--case" => options.case = value(),
            "--repeat" => {
                options.plan.repeats = value()
                    .parse()
                    .unwrap_or_else(|_| refuse("--repeat wants a number"))
            }
            "--only" => match value().as_str() {
                "ours" => options.plan.wanted = Sides { ours: true, ..NONE },
                "forms" => {
                    options.plan.wanted = Sides {
                        forms: true,
                        ..NONE
                    }
                }
                "reference" => options.plan.wanted = Sides { free: true, ..NONE },
                other => refuse(&format!(
                    "--only wants ours, forms or reference, and not {other}"
                )),
            },
            "--help" => {
                println!("{USAGE}");
                std::process::exit(0)
            }
            _ => refuse(&format!("there is no option {argument}")),
        }
    }
    options
}

fn main() {
    if std::env::args().skip(1).eq(["--agree"]) {
        return agree::check();
    }
    let options = options();
    let Sides { ours, forms, free } = options.plan.wanted;
    if ours && forms && free {
        agree::check();
    }
    let mut tables = lines::searches(&options);
    tables.extend(lines::calls(&options));
    tables.extend(optimum::lines(&options));
    tables.extend(lifted::lines(&options));
    if ours {
        recent::lines(&options);
        turns::lines(&options);
    }
    table::print_summary(&tables);
}
