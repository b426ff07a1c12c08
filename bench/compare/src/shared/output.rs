//! Lines of an output, and how its requests were answered.

#[derive(Clone, Copy, Debug, PartialEq, Eq)]
pub enum Reply {
    Shown(i64),
    Done,
    Penalised,
    NoCustomer,
    SameCustomer,
    Negative,
    WouldOverdraw,
    OverLimit,
}

#[inline]
fn push_number(out: &mut Vec<u8>, mut value: u64) {
    let mut digits = [0u8; 20];
    let mut start = digits.len();
    loop {
        start -= 1;
        digits[start] = b'0' + (value % 10) as u8;
        value /= 10;
        if value == 0 {
            break;
        }
    }
    out.extend_from_slice(&digits[start..]);
}

#[inline]
fn push_money(out: &mut Vec<u8>, cents: i64) {
    if cents < 0 {
        out.push(b'-');
    }
    let size = cents.unsigned_abs();
    push_number(out, size / 100);
    let rest = (size % 100) as u8;
    out.extend_from_slice(&[b'.', b'0' + rest / 10, b'0' + rest % 10]);
}

/// The line of a request that has a number.
#[inline]
pub fn push_reply(out: &mut Vec<u8>, number: u32, reply: Reply) {
    push_number(out, u64::from(number));
    let text: &[u8] = match reply {
        Reply::Shown(total) => {
            out.extend_from_slice(b" shown ");
            push_money(out, total);
            b"\n"
        }
        Reply::Done => b" done\n",
        Reply::Penalised => b" penalised\n",
        Reply::NoCustomer => b" no customer\n",
        Reply::SameCustomer => b" same customer\n",
        Reply::Negative => b" negative\n",
        Reply::WouldOverdraw => b" would overdraw\n",
        Reply::OverLimit => b" over limit\n",
    };
    out.extend_from_slice(text);
}

/// The line of a key that has this number with another call.
#[inline]
pub fn push_mismatch(out: &mut Vec<u8>, number: u32) {
    out.extend_from_slice(b"mismatch ");
    push_number(out, u64::from(number));
    out.push(b'\n');
}

/// How many requests were answered, and how many of them otherwise than by a reply.
#[derive(Clone, Copy, Debug, Default)]
pub struct Answers {
    pub lines: usize,
    pub log_full: usize,
    pub mismatches: usize,
}

impl Answers {
    /// Tells on standard error how many were answered otherwise than by a reply, if some were.
    pub fn tell(&self) {
        for (count, answer) in [(self.log_full, "log full"), (self.mismatches, "mismatch")] {
            if count > 0 {
                eprintln!("smallbank: {count} of {} lines: {answer}", self.lines);
            }
        }
    }
}

/// The rows of all customers, and their total.
#[inline]
pub fn push_rows<'a>(out: &mut Vec<u8>, rows: impl Iterator<Item = (&'a [u8], i64, i64)>) {
    let mut total = 0;
    for (name, savings, checking) in rows {
        out.extend_from_slice(name);
        out.push(b' ');
        push_money(out, savings);
        out.push(b' ');
        push_money(out, checking);
        out.push(b'\n');
        total += savings + checking;
    }
    out.extend_from_slice(b"total ");
    push_money(out, total);
    out.push(b'\n');
}
