//! The words of a line: names, numbers, amounts, calls.

use crate::bank::{Call, LIMIT};
use crate::fault::Fault;

/// The lines of a text, without their line feeds.
pub fn lines(text: &[u8]) -> impl Iterator<Item = &[u8]> {
    text.split_inclusive(|byte| *byte == b'\n')
        .map(|line| line.strip_suffix(b"\n").unwrap_or(line))
}

/// The words of a line.
pub fn words(line: &[u8]) -> impl Iterator<Item = &[u8]> {
    line.split(|byte| *byte == b' ')
}

/// The words if there are this many, or else the fault.
pub fn exactly<'a, const N: usize>(
    mut words: impl Iterator<Item = &'a [u8]>,
    fault: Fault,
) -> Result<[&'a [u8]; N], Fault> {
    let mut all = [&b""[..]; N];
    for word in &mut all {
        *word = words.next().ok_or(fault)?;
    }
    match words.next() {
        None => Ok(all),
        Some(_) => Err(fault),
    }
}

pub fn name(word: &[u8]) -> Result<&[u8], Fault> {
    let is_valid = (1..=20).contains(&word.len())
        && word
            .iter()
            .all(|byte| matches!(byte, b'a'..=b'z' | b'0'..=b'9' | b'_'));
    if is_valid {
        Ok(word)
    } else {
        Err(Fault::BadName)
    }
}

pub fn money(word: &[u8]) -> Result<i64, Fault> {
    let (is_negative, body) = match word {
        [b'-', rest @ ..] => (true, rest),
        _ => (false, word),
    };
    // The longest text is 10000000000.00.
    let [whole @ .., b'.', tens, ones] = body else {
        return Err(Fault::BadMoney);
    };
    if whole.is_empty() || whole.len() > 11 || (whole[0] == b'0' && whole.len() > 1) {
        return Err(Fault::BadMoney);
    }
    let mut cents = 0i64;
    for digit in whole.iter().chain([tens, ones]) {
        if !digit.is_ascii_digit() {
            return Err(Fault::BadMoney);
        }
        cents = cents * 10 + i64::from(digit - b'0');
    }
    if cents > LIMIT || (is_negative && cents == 0) {
        return Err(Fault::BadMoney);
    }
    Ok(if is_negative { -cents } else { cents })
}

pub fn number(word: &[u8]) -> Result<u32, Fault> {
    if word.is_empty() || word.len() > 10 || (word[0] == b'0' && word.len() > 1) {
        return Err(Fault::BadNumber);
    }
    let mut value = 0u64;
    for digit in word {
        if !digit.is_ascii_digit() {
            return Err(Fault::BadNumber);
        }
        value = value * 10 + u64::from(digit - b'0');
    }
    u32::try_from(value).map_err(|_| Fault::BadNumber)
}

/// The words as numbers, if there are this many.
pub fn numbers<'a, const N: usize>(
    words: impl Iterator<Item = &'a [u8]>,
) -> Result<[u32; N], Fault> {
    let words = exactly::<N>(words, Fault::WrongWords)?;
    let mut all = [0; N];
    for (value, word) in all.iter_mut().zip(words) {
        *value = number(word)?;
    }
    Ok(all)
}

/// The call that the words spell.
pub fn call<'a>(mut words: impl Iterator<Item = &'a [u8]>) -> Result<Call<'a>, Fault> {
    let verb = words.next().unwrap_or_default();
    let amount_call = |words| {
        let [owner, amount] = exactly(words, Fault::WrongWords)?;
        Ok((name(owner)?, money(amount)?))
    };
    match verb {
        b"balance" => {
            let [owner] = exactly(words, Fault::WrongWords)?;
            Ok(Call::Balance(name(owner)?))
        }
        b"deposit" => amount_call(words).map(|(owner, amount)| Call::Deposit(owner, amount)),
        b"savings" => amount_call(words).map(|(owner, amount)| Call::Savings(owner, amount)),
        b"check" => amount_call(words).map(|(owner, amount)| Call::Check(owner, amount)),
        b"amalgamate" => {
            let [from, to] = exactly(words, Fault::WrongWords)?;
            Ok(Call::Amalgamate(name(from)?, name(to)?))
        }
        b"pay" => {
            let [from, to, amount] = exactly(words, Fault::WrongWords)?;
            Ok(Call::Pay(name(from)?, name(to)?, money(amount)?))
        }
        _ => Err(Fault::UnknownVerb),
    }
}
