//! Runs the product and the plain program on the same inputs. Both must write the same bytes, and
//! one table shows the time and the memory of each. The plain program remembers requests that have a
//! key, and in a second measure every request, as the product does.
//!
//! `beside PRODUCT PLAIN FOLDER`; inputs and outputs are kept in the folder. `beside check PRODUCT
//! PLAIN FOLDER` compares both on fewer inputs, and measures nothing. `beside workload SEED CUSTOMERS
//! LINES` writes a workload to standard output, `beside row NUMBER` that of a row of the table, counted
//! from 0, `beside faulty SEED` a small input.

mod faulty;
mod measure;
mod random;
mod workload;

use measure::{Measure, run};
use std::collections::BTreeMap;
use std::error::Error;
use std::fs::File;
use std::io::{self, BufRead, BufReader, BufWriter, Write};
use std::path::{Path, PathBuf};
use std::process::{Command, Output, Stdio};
use std::{env, fs};
use workload::Workload;

const USAGE: &str = "usage: beside [check] PRODUCT PLAIN FOLDER, \
    or beside workload SEED CUSTOMERS LINES, or beside row NUMBER, or beside faulty SEED";
const RUNS: usize = 5;
const SEED: u64 = 20;
const FAULTY_INPUTS: u64 = 500;
const CHECKED_INPUTS: u64 = 50;
// How many calls a log takes.
const LOG_CALLS: usize = 1_000_000;

/// Makes a workload from a seed and its numbers of customers and lines.
type Maker = fn(u64, u32, u32) -> Workload;

// For each row of the table its calls, how they are made, and its numbers of customers and lines.
const ROWS: [(&str, Maker, u32, u32); 6] = [
    ("of five kinds", Workload::new, 20_000, 1_000),
    ("of five kinds", Workload::new, 20_000, 100_000),
    ("of five kinds", Workload::new, 20_000, 900_000),
    ("of five kinds", Workload::new, 65_536, 1_000),
    ("of one customer", Workload::one_customer, 20_000, 900_000),
    ("amalgamates", Workload::amalgamates, 1_000, 900_000),
];

type Answer<T> = Result<T, Box<dyn Error>>;

/// The places of the programs, and of their inputs and outputs.
struct Bench {
    product: PathBuf,
    plain: PathBuf,
    folder: PathBuf,
}

impl Bench {
    /// Compares both on this many small inputs, most of them at fault, and answers how often each fault came.
    fn compare_small(&self, inputs: u64) -> Answer<BTreeMap<String, u32>> {
        let mut faults: BTreeMap<String, u32> = BTreeMap::new();
        let path = self.folder.join("small.txt");
        for seed in 0..inputs {
            fs::write(&path, faulty::input(seed))?;
            let product = output(&self.product, &path)?;
            let plain = output(&self.plain, &path)?;
            if product != plain {
                let path = path.display();
                return Err(format!("they differ on {path}: {product:?} and {plain:?}").into());
            }
            if !product.status.success() {
                let told = String::from_utf8(product.stderr)?;
                let fault = told.trim_end().rsplit(": ").next().unwrap_or_default();
                *faults.entry(fault.to_owned()).or_default() += 1;
            }
        }
        Ok(faults)
    }

    /// Compares both on an input with more calls than a log takes, in which one key has two calls.
    fn compare_full(&self) -> Answer<()> {
        let input = self.write(|file| {
            file.write_all(
                b"alice 1.00 1.00\nbegin\nask 1 1 balance alice\nask 1 1 balance bob\n",
            )?;
            (0..LOG_CALLS).try_for_each(|_| file.write_all(b"balance alice\n"))
        })?;
        self.round(&input)?;
        Ok(())
    }

    /// Makes the file of an input.
    fn write(&self, text: impl FnOnce(&mut BufWriter<File>) -> io::Result<()>) -> Answer<PathBuf> {
        let input = self.folder.join("input.txt");
        let mut file = BufWriter::new(File::create(&input)?);
        text(&mut file)?;
        file.flush()?;
        Ok(input)
    }

    /// Runs the product, the plain program, and the plain program that remembers every line. All must
    /// do the same.
    fn round(&self, input: &Path) -> Answer<[Measure; 3]> {
        let written = self.folder.join("product.txt");
        let written_plain = self.folder.join("plain.txt");
        let product = run(&self.product, &[], input, &written)?;
        let beside = |words: &[&str]| -> Answer<Measure> {
            let plain = run(&self.plain, words, input, &written_plain)?;
            if product.told != plain.told || !same_bytes(&written, &written_plain)? {
                let (input, told) = (input.display(), [&product.told, &plain.told]);
                return Err(format!("they differ on {input}, and told {told:?}").into());
            }
            Ok(plain.measure)
        };
        let every_line = beside(&["every-line"])?;
        Ok([product.measure, beside(&[])?, every_line])
    }

    /// Measures both on one workload, in turn, and prints a row of the table.
    fn compare_large(&self, calls: &str, workload: &Workload) -> Answer<()> {
        let input = self.write(|file| workload.write(file))?;
        let mut product = Vec::new();
        let mut plain = Vec::new();
        let mut every_line = Vec::new();
        for _ in 0..RUNS {
            let measures = self.round(&input)?;
            product.push(measures[0]);
            plain.push(measures[1]);
            every_line.push(measures[2]);
        }
        print_row(
            calls,
            workload,
            Measure::median(&product),
            Measure::median(&plain),
            Measure::median(&every_line),
        );
        Ok(())
    }

    /// Compares both without a measurement.
    fn check(&self) -> Answer<()> {
        let refused: u32 = self.compare_small(CHECKED_INPUTS)?.values().sum();
        self.compare_full()?;
        let (_, workload, customers, lines) = ROWS[0];
        self.round(&self.write(|file| workload(SEED, customers, lines).write(file))?)?;
        println!(
            "run: the same status, output and error text on {CHECKED_INPUTS} small inputs, of which {refused} are \
            refused, on one that is too long for a log, and on {lines} lines"
        );
        Ok(())
    }

    /// Compares and measures both.
    fn measure(&self) -> Answer<()> {
        let faults = self.compare_small(FAULTY_INPUTS)?;
        self.compare_full()?;
        print_faults(&faults);
        print_head();
        for (calls, workload, customers, lines) in ROWS {
            self.compare_large(calls, &workload(SEED, customers, lines))?;
        }
        Ok(())
    }
}

/// What a program does on an input. If it refuses it, the first line of its error text alone counts:
/// beneath it the product shows the line at fault.
fn output(program: &Path, input: &Path) -> io::Result<Output> {
    let mut ended = Command::new(program)
        .stdin(Stdio::from(File::open(input)?))
        .output()?;
    let line = ended.stderr.iter().position(|byte| *byte == b'\n');
    if let (false, Some(end)) = (ended.status.success(), line) {
        ended.stderr.truncate(end + 1);
    }
    Ok(ended)
}

// In pieces: what this process holds in memory would count as the measured program's.
fn same_bytes(first: &Path, second: &Path) -> io::Result<bool> {
    let mut first = BufReader::new(File::open(first)?);
    let mut second = BufReader::new(File::open(second)?);
    loop {
        let (a, b) = (first.fill_buf()?, second.fill_buf()?);
        let count = a.len().min(b.len());
        if count == 0 {
            return Ok(a.len() == b.len());
        }
        if a[..count] != b[..count] {
            return Ok(false);
        }
        first.consume(count);
        second.consume(count);
    }
}

fn print_row(
    calls: &str,
    workload: &Workload,
    product: Measure,
    plain: Measure,
    every_line: Measure,
) {
    let milliseconds = |measure: &Measure| measure.time.as_secs_f64() * 1e3;
    let megabytes = |measure: &Measure| measure.peak_kib as f64 / 1024.0;
    println!(
        "| {calls} | {} | {} | {:.1} | {:.1} | {:.2} | {:.1} | {:.2} | {:.0} | {:.1} | {:.1} | {:.2} | {:.1} |",
        workload.customers,
        workload.lines,
        milliseconds(&product),
        milliseconds(&plain),
        milliseconds(&product) / milliseconds(&plain),
        milliseconds(&every_line),
        milliseconds(&product) / milliseconds(&every_line),
        f64::from(workload.lines) / product.time.as_secs_f64(),
        megabytes(&product),
        megabytes(&plain),
        megabytes(&product) / megabytes(&plain),
        megabytes(&every_line),
    );
}

fn print_faults(faults: &BTreeMap<String, u32>) {
    let refused: u32 = faults.values().sum();
    println!(
        "The same status, output and error text on {FAULTY_INPUTS} small inputs and on one that is too long for a log."
    );
    let counts: Vec<String> = faults
        .iter()
        .map(|(fault, count)| format!("{fault} {count}"))
        .collect();
    println!(
        "Of the small ones {refused} are refused: {}.\n",
        counts.join(", ")
    );
}

fn print_head() {
    println!(
        "| calls | customers | lines | ms | ms, plain | ratio | ms, plain that remembers every line | ratio \
        | lines a second | MiB | MiB, plain | ratio | MiB, every line |"
    );
    println!("|---|---|---|---|---|---|---|---|---|---|---|---|---|");
}

fn main() -> Answer<()> {
    let words: Vec<String> = env::args().skip(1).collect();
    let bench = |product: &str, plain: &str, folder: &str| Bench {
        product: product.into(),
        plain: plain.into(),
        folder: folder.into(),
    };
    match words.iter().map(String::as_str).collect::<Vec<_>>()[..] {
        ["check", product, plain, folder] => bench(product, plain, folder).check()?,
        ["workload", seed, customers, lines] => {
            let workload = Workload::new(seed.parse()?, customers.parse()?, lines.parse()?);
            workload.write(&mut BufWriter::new(io::stdout().lock()))?;
        }
        ["row", number] => {
            let row = ROWS.get(number.parse::<usize>()?).ok_or(USAGE)?;
            let (_, workload, customers, lines) = row;
            workload(SEED, *customers, *lines).write(&mut BufWriter::new(io::stdout().lock()))?;
        }
        ["faulty", seed] => {
            io::stdout()
                .lock()
                .write_all(&faulty::input(seed.parse()?))?;
        }
        [product, plain, folder] => bench(product, plain, folder).measure()?,
        _ => {
            return Err(USAGE.into());
        }
    }
    Ok(())
}
