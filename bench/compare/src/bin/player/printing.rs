//! Numbers, amounts and replies in words.

use crate::bank::Reply;

pub fn push_number(out: &mut Vec<u8>, mut value: u64) {
    let mut digits = [0u8; 20];
    let mut start = digits.len();
    loop {
        start -= 1;
        digits[start] = b'0' + (value % 10) as u8;
        value /= 10;
        if value == 0 {
            break;
        }
    }
    out.extend_from_slice(&digits[start..]);
}

pub fn push_money(out: &mut Vec<u8>, cents: i64) {
    if cents < 0 {
        out.push(b'-');
    }
    let size = cents.unsigned_abs();
    push_number(out, size / 100);
    let rest = (size % 100) as u8;
    out.extend_from_slice(&[b'.', b'0' + rest / 10, b'0' + rest % 10]);
}

pub fn push_reply(out: &mut Vec<u8>, reply: Reply) {
    let text: &[u8] = match reply {
        Reply::Shown(total) => {
            out.extend_from_slice(b"shown ");
            return push_money(out, total);
        }
        Reply::Done => b"done",
        Reply::Penalised => b"penalised",
        Reply::NoCustomer => b"no customer",
        Reply::SameCustomer => b"same customer",
        Reply::Negative => b"negative",
        Reply::WouldOverdraw => b"would overdraw",
        Reply::OverLimit => b"over limit",
    };
    out.extend_from_slice(text);
}
