//! Lines and words of an input.

use super::LIMIT;
use std::fmt;

/// Why an input is refused.
#[derive(Debug, Clone, Copy)]
pub enum Fault {
    BadLine,
    BadName,
    DoubleName,
    BadMoney,
    NegativeSavings,
    TooManyCustomers,
    NoBegin,
    UnknownVerb,
    WrongWords,
    BadNumber,
}

impl fmt::Display for Fault {
    fn fmt(&self, f: &mut fmt::Formatter<'_>) -> fmt::Result {
        f.write_str(match self {
            Fault::BadLine => "bad line",
            Fault::BadName => "bad name",
            Fault::DoubleName => "double name",
            Fault::BadMoney => "bad money",
            Fault::NegativeSavings => "negative savings",
            Fault::TooManyCustomers => "too many customers",
            Fault::NoBegin => "no begin",
            Fault::UnknownVerb => "unknown verb",
            Fault::WrongWords => "wrong words",
            Fault::BadNumber => "bad number",
        })
    }
}

/// The first line at fault.
pub struct LineFault {
    pub line: usize,
    pub fault: Fault,
}

/// A call: names, and an amount if the call has one.
#[derive(Clone, Copy, Debug, PartialEq, Eq)]
pub enum Call<'a> {
    Balance(&'a [u8]),
    Deposit(&'a [u8], i64),
    Savings(&'a [u8], i64),
    Check(&'a [u8], i64),
    Amalgamate(&'a [u8], &'a [u8]),
    Pay(&'a [u8], &'a [u8], i64),
}

/// A word that is a name.
#[inline]
pub fn name(word: &[u8]) -> Result<&[u8], Fault> {
    let is_valid = (1..=20).contains(&word.len())
        && word
            .iter()
            .all(|byte| matches!(byte, b'a'..=b'z' | b'0'..=b'9' | b'_'));
    if is_valid {
        Ok(word)
    } else {
        Err(Fault::BadName)
    }
}

/// The cents of a word.
#[inline]
pub fn money(word: &[u8]) -> Result<i64, Fault> {
    let (is_negative, body) = match word {
        [b'-', rest @ ..] => (true, rest),
        _ => (false, word),
    };
    // The longest text is 10000000000.00.
    let [whole @ .., b'.', tens, ones] = body else {
        return Err(Fault::BadMoney);
    };
    if whole.is_empty() || whole.len() > 11 || (whole[0] == b'0' && whole.len() > 1) {
        return Err(Fault::BadMoney);
    }
    let mut cents = 0i64;
    for digit in whole.iter().chain([tens, ones]) {
        if !digit.is_ascii_digit() {
            return Err(Fault::BadMoney);
        }
        cents = cents * 10 + i64::from(digit - b'0');
    }
    if cents > LIMIT || (is_negative && cents == 0) {
        return Err(Fault::BadMoney);
    }
    Ok(if is_negative { -cents } else { cents })
}

#[inline]
fn number(word: &[u8]) -> Result<u32, Fault> {
    if word.is_empty() || word.len() > 10 || (word[0] == b'0' && word.len() > 1) {
        return Err(Fault::BadNumber);
    }
    let mut value = 0u64;
    for digit in word {
        if !digit.is_ascii_digit() {
            return Err(Fault::BadNumber);
        }
        value = value * 10 + u64::from(digit - b'0');
    }
    u32::try_from(value).map_err(|_| Fault::BadNumber)
}

/// The words of a line.
#[inline]
pub fn words(line: &[u8]) -> impl Iterator<Item = &[u8]> {
    line.split(|byte| *byte == b' ')
}

#[inline]
fn call<'a>(verb: &[u8], words: &mut impl Iterator<Item = &'a [u8]>) -> Result<Call<'a>, Fault> {
    let mut two = || match (words.next(), words.next(), words.next()) {
        (Some(first), Some(second), None) => Ok((first, second)),
        _ => Err(Fault::WrongWords),
    };
    match verb {
        b"balance" => match (words.next(), words.next()) {
            (Some(word), None) => Ok(Call::Balance(name(word)?)),
            _ => Err(Fault::WrongWords),
        },
        b"deposit" => two().and_then(|(a, v)| Ok(Call::Deposit(name(a)?, money(v)?))),
        b"savings" => two().and_then(|(a, v)| Ok(Call::Savings(name(a)?, money(v)?))),
        b"check" => two().and_then(|(a, v)| Ok(Call::Check(name(a)?, money(v)?))),
        b"amalgamate" => two().and_then(|(a, b)| Ok(Call::Amalgamate(name(a)?, name(b)?))),
        b"pay" => match (words.next(), words.next(), words.next(), words.next()) {
            (Some(a), Some(b), Some(v), None) => Ok(Call::Pay(name(a)?, name(b)?, money(v)?)),
            _ => Err(Fault::WrongWords),
        },
        _ => Err(Fault::UnknownVerb),
    }
}

/// A client and its request.
pub type Key = (u32, u32);

/// The call of an asking line, and its key if it has one.
#[inline]
pub fn asking(line: &[u8]) -> Result<(Option<Key>, Call<'_>), Fault> {
    let mut words = words(line);
    let verb = words.next().unwrap_or_default();
    if verb != b"ask" {
        return Ok((None, call(verb, &mut words)?));
    }
    let (Some(client), Some(request)) = (words.next(), words.next()) else {
        return Err(Fault::WrongWords);
    };
    let client = number(client)?;
    let request = number(request)?;
    if client == 0 {
        return Err(Fault::BadNumber);
    }
    let verb = words.next().unwrap_or_default();
    Ok((Some((client, request)), call(verb, &mut words)?))
}

/// The lines of a text.
#[inline]
pub fn lines(text: &[u8]) -> impl Iterator<Item = &[u8]> {
    text.split_inclusive(|byte| *byte == b'\n')
        .map(|line| line.strip_suffix(b"\n").unwrap_or(line))
}
