//! `load_driver`: asks a server as many clients, and prints how soon it answers. `--help` has more.

use load_driver::customers::write_opening;
use load_driver::fault::Fault;
use load_driver::frames::Frames;
use load_driver::load::{Measured, run};
use load_driver::postgres::Postgres;
use load_driver::redis::{Counters, Procedure};
use load_driver::report;
use load_driver::words::{Order, Store, Words};
use std::env;
use std::io::{self, BufWriter};
use std::process::ExitCode;

const HELP: &str = include_str!("help.txt");
const FAILED: u8 = 1;
const REFUSED: u8 = 2;

fn main() -> ExitCode {
    match Order::read(env::args().skip(1)) {
        Ok(Order::Help) => {
            print!("{HELP}");
            ExitCode::SUCCESS
        }
        Ok(Order::Opening(customers)) => {
            let mut out = BufWriter::new(io::stdout().lock());
            ended(write_opening(&mut out, customers).map_err(Fault::System))
        }
        Ok(Order::Load(words)) => ended(load(&words)),
        Err(refusal) => {
            eprintln!("load: {refusal}");
            ExitCode::from(REFUSED)
        }
    }
}

fn ended(done: Result<(), Fault>) -> ExitCode {
    match done {
        Ok(()) => ExitCode::SUCCESS,
        Err(fault) => {
            eprintln!("load: {fault}");
            ExitCode::from(FAILED)
        }
    }
}

fn load(words: &Words) -> Result<(), Fault> {
    let measured = measure(words)?;
    let told = if words.is_csv {
        report::csv(words, &measured)
    } else {
        report::table(words, &measured)
    };
    print!("{told}");
    Ok(())
}

fn measure(words: &Words) -> Result<Measured, Fault> {
    match &words.store {
        Store::Frames => run(words, &Frames),
        Store::RedisCounters => run(words, &Counters { from: words.from }),
        Store::RedisProcedure(digest) => {
            let digest = digest.clone();
            run(words, &Procedure { digest })
        }
        Store::Postgres => {
            let is_alone = words.flush == 1;
            run(words, &Postgres { is_alone })
        }
    }
}
