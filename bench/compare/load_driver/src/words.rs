//! The words of the command line.

use crate::ask::{Client, KINDS, Kind, Request};
use crate::chooser::Choice;
use crate::customers::MOST_CUSTOMERS;
use crate::fault::Patience;
use crate::mix::Mix;
use std::fmt::Display;
use std::net::{IpAddr, Ipv4Addr, SocketAddr};
use std::ops::RangeInclusive;
use std::str::FromStr;
use std::time::Duration;

const MOST_SECONDS: f64 = 600.0;
const MOST_ASKS: u64 = 1_000_000_000;
// As many as a server of many clients takes without a flush.
const MOST_FLUSH: u64 = 65_536;
// BenchBase's.
const HOT_SIZE: u32 = 100;
const HOT_PERCENT: u32 = 25;

/// What a load is to be.
#[derive(Clone, Debug)]
pub struct Words {
    pub server: SocketAddr,
    pub store: Store,
    pub clients: u32,
    pub threads: usize,
    pub flush: u64,
    pub rate: Option<u32>,
    pub measured: Duration,
    pub warm_up: Duration,
    pub asks: u64,
    pub patience: Patience,
    pub mix: Mix,
    pub customers: u32,
    pub choice: Choice,
    pub seed: u64,
    pub from: Request,
    pub first_client: Client,
    pub is_csv: bool,
}

/// What is asked.
#[derive(Clone, Debug, PartialEq, Eq)]
pub enum Store {
    Frames,
    RedisCounters,
    /// The digest of a script that it has.
    RedisProcedure(String),
    Postgres,
}

/// What is to be done.
#[derive(Clone, Debug)]
pub enum Order {
    Help,
    /// Print the opening of so many customers.
    Opening(u32),
    Load(Box<Words>),
}

/// Why words are refused.
pub type Refusal = String;

struct Draft {
    words: Words,
    protocol: String,
    script: Option<String>,
    is_opening: bool,
}

impl Order {
    pub fn read(words: impl Iterator<Item = String>) -> Result<Order, Refusal> {
        let mut draft = Draft::new();
        let mut words = words.peekable();
        while let Some(word) = words.next() {
            let (option, joined) = match word.split_once('=') {
                Some((option, value)) => (option, Some(value.to_owned())),
                None => (&word[..], None),
            };
            match option {
                "--help" | "-h" | "help" => return Ok(Order::Help),
                "--csv" => draft.words.is_csv = true,
                "--opening" => draft.is_opening = true,
                "--uniform" => draft.words.choice = Choice::Uniform,
                _ => {
                    let value = joined
                        .or_else(|| words.next())
                        .ok_or_else(|| format!("{option}: its value is missing"))?;
                    draft.take(option, &value)?;
                }
            }
        }
        draft.finish()
    }
}

impl Draft {
    fn new() -> Draft {
        let words = Words {
            server: (Ipv4Addr::LOCALHOST, 0).into(),
            store: Store::Frames,
            clients: 1,
            threads: 1,
            flush: 1,
            rate: None,
            measured: Duration::from_secs(10),
            warm_up: Duration::from_secs(1),
            asks: MOST_ASKS,
            patience: Patience(Duration::from_secs(10)),
            mix: Mix::default(),
            customers: 20_000,
            choice: Choice::HotSpot {
                size: HOT_SIZE,
                percent: HOT_PERCENT,
            },
            seed: 20,
            from: Request(1),
            first_client: Client(1),
            is_csv: false,
        };
        Draft {
            words,
            protocol: "frames".to_owned(),
            script: None,
            is_opening: false,
        }
    }

    fn take(&mut self, option: &str, value: &str) -> Result<(), Refusal> {
        let words = &mut self.words;
        match option {
            "--host" => words.server.set_ip(loopback(option, value)?),
            "--port" => words.server.set_port(number(option, value, 1..=u16::MAX)?),
            "--clients" => words.clients = number(option, value, 1..=1_000)?,
            "--threads" => words.threads = number(option, value, 1..=16)?,
            "--flush" => words.flush = number(option, value, 1..=MOST_FLUSH)?,
            "--rate" => words.rate = Some(number(option, value, 1..=100_000_000)?),
            "--seconds" => words.measured = seconds(option, value)?,
            "--warm-up" => words.warm_up = seconds(option, value)?,
            "--asks" => words.asks = number(option, value, 1..=MOST_ASKS)?,
            "--patience" => {
                let time = number(option, value, 1..=600)?;
                words.patience = Patience(Duration::from_secs(time));
            }
            "--mix" => words.mix = mix(value).ok_or_else(|| refusal(option, MIX))?,
            "--customers" => words.customers = number(option, value, 1..=MOST_CUSTOMERS)?,
            "--zipf" => words.choice = Choice::Zipf(zipf(option, value)?),
            "--hot-spot" => {
                words.choice = hot_spot(value).ok_or_else(|| refusal(option, HOT_SPOT))?;
            }
            "--seed" => words.seed = number(option, value, 0..=u64::MAX)?,
            "--from" => words.from = Request(number(option, value, 0..=u32::MAX)?),
            "--first-client" => words.first_client = Client(number(option, value, 1..=u32::MAX)?),
            "--protocol" => value.clone_into(&mut self.protocol),
            "--script" => self.script = Some(value.to_owned()),
            _ => return Err(format!("{option}: no such option")),
        }
        Ok(())
    }

    fn finish(self) -> Result<Order, Refusal> {
        let Draft {
            mut words,
            protocol,
            script,
            is_opening,
        } = self;
        if is_opening {
            return Ok(Order::Opening(words.customers));
        }
        words.store = match (&protocol[..], script) {
            ("frames", None) => Store::Frames,
            ("redis-incr", None) => Store::RedisCounters,
            ("redis-lua", Some(digest)) => Store::RedisProcedure(digest),
            ("postgres", None) => Store::Postgres,
            _ => return Err(refusal("--protocol", PROTOCOLS)),
        };
        check(&words)?;
        Ok(Order::Load(Box::new(words)))
    }
}

// What no option alone can know.
fn check(words: &Words) -> Result<(), Refusal> {
    if words.server.port() == 0 {
        return Err("--port: it is missing".to_owned());
    }
    if words.asks < words.flush {
        return Err(refusal("--asks", "as many as --flush, or more"));
    }
    if u64::from(words.from.0) + words.asks > u64::from(u32::MAX) {
        return Err("--from and --asks: the numbers of requests end at 4294967295".to_owned());
    }
    if u64::from(words.first_client.0) + u64::from(words.clients) > u64::from(u32::MAX) {
        return Err("--first-client: the numbers of clients end at 4294967295".to_owned());
    }
    if let Choice::HotSpot { size, .. } = words.choice
        && size > words.customers.max(HOT_SIZE)
    {
        return Err("--hot-spot: it is larger than --customers".to_owned());
    }
    Ok(())
}

const MIX: &str = "words KIND:WEIGHT with commas between them; the weights together 1 to 1000000";
const HOT_SPOT: &str = "CUSTOMERS:PERCENT, at least 1 and at most 100";
const PROTOCOLS: &str = "frames, redis-incr, redis-lua with --script, or postgres";

fn refusal(option: &str, wanted: impl Display) -> Refusal {
    format!("{option}: wanted is {wanted}")
}

fn number<T>(option: &str, value: &str, range: RangeInclusive<T>) -> Result<T, Refusal>
where
    T: FromStr + PartialOrd + Display,
{
    value
        .parse()
        .ok()
        .filter(|number| range.contains(number))
        .ok_or_else(|| {
            let (least, most) = (range.start(), range.end());
            refusal(option, format!("a whole number from {least} to {most}"))
        })
}

fn seconds(option: &str, value: &str) -> Result<Duration, Refusal> {
    value
        .parse()
        .ok()
        .filter(|seconds| (0.0..=MOST_SECONDS).contains(seconds))
        .map(Duration::from_secs_f64)
        .ok_or_else(|| {
            refusal(
                option,
                format!("a number of seconds, at most {MOST_SECONDS}"),
            )
        })
}

fn zipf(option: &str, value: &str) -> Result<f64, Refusal> {
    value
        .parse()
        .ok()
        .filter(|power| (0.0..=10.0).contains(power))
        .ok_or_else(|| refusal(option, "a number from 0 to 10"))
}

fn loopback(option: &str, value: &str) -> Result<IpAddr, Refusal> {
    value
        .parse()
        .ok()
        .filter(IpAddr::is_loopback)
        .ok_or_else(|| refusal(option, "an address of this machine alone, as 127.0.0.1"))
}

fn hot_spot(value: &str) -> Option<Choice> {
    let (size, percent) = value.split_once(':')?;
    let size = size.parse().ok().filter(|size| *size > 0)?;
    let percent = percent.parse().ok().filter(|percent| *percent <= 100)?;
    Some(Choice::HotSpot { size, percent })
}

// Kinds that aren't named are never asked.
fn mix(value: &str) -> Option<Mix> {
    let mut weights = [0; KINDS];
    for word in value.split(',') {
        let (name, weight) = word.split_once(':')?;
        let place = Kind::ALL.iter().position(|kind| kind.word() == name)?;
        weights[place] = weight.parse().ok()?;
    }
    Mix::new(weights)
}
