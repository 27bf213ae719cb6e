//! The baseline of the benchmark: `translate` and `check` in plain Rust over std alone, unproved,
//! with the same rules, the same reads of 4,096 bytes and the same output. It was written from the
//! documents and definitions and not from the program's code, so it is also what the program is
//! compared with. Build it with `rustc -O`.
mod reports;
mod requests44;

use reports::Report;
use requests44::Request44;
use std::fs::File;
use std::io::{self, Read, Write};
use std::ops::Range;
use std::os::fd::AsFd;
use std::process::ExitCode;

const SOH: u8 = 1;
const CAPACITY: usize = 16_384;
const CHUNK: usize = 4_096;
const LIMIT: usize = 67_108_864;
const MAX_BODY: usize = 8_192;
const MAX_CONTENT: usize = 7_936;
const MAX_FIELDS: usize = 256;
const MAX_LINES: usize = 32;

// ---- frames

#[derive(Clone, Copy, Debug)]
#[rustfmt::skip]
enum Garble { BeginString, LengthField, TooLong, TypeField, Trailer, Sum }
use Garble::*;

/// Why no whole frame begins a text: too little is there (`None`), or a rule is broken.
type Stop = Option<Garble>;

/// The place behind these bytes, which come at a place of the text.
fn behind(text: &[u8], at: usize, expected: &[u8], rule: Garble) -> Result<usize, Stop> {
    let rest = &text[at..];
    let n = rest.len().min(expected.len());
    if rest[..n] != expected[..n] {
        Err(Some(rule))
    } else if n < expected.len() {
        Err(None)
    } else {
        Ok(at + n)
    }
}

fn sum_of(text: &[u8]) -> u8 {
    text.iter().fold(0, |sum, byte| sum.wrapping_add(*byte))
}

fn sum_digits(sum: u8) -> [u8; 3] {
    [b'0' + sum / 100, b'0' + sum / 10 % 10, b'0' + sum % 10]
}

/// The place and the length of the body of the frame that begins a text.
fn scan(text: &[u8], begin: &[u8]) -> Result<(usize, usize), Stop> {
    let at = behind(text, 0, begin, BeginString)?;
    let first = behind(text, at, b"9=", LengthField)?;
    let (mut at, mut len) = (first, 0);
    while *text.get(at).ok_or(None)? != SOH || at == first {
        if !text[at].is_ascii_digit() || at - first == 7 {
            return Err(Some(LengthField));
        }
        len = 10 * len + usize::from(text[at] - b'0');
        at += 1;
    }
    if !(5..=MAX_BODY).contains(&len) {
        return Err(Some(if len < 5 { TypeField } else { TooLong }));
    }
    let start = at + 1;
    let kind = behind(text, start, b"35=", TypeField)?;
    if *text.get(kind).ok_or(None)? == SOH {
        return Err(Some(TypeField));
    }
    let end = start + len;
    if *text.get(end - 1).ok_or(None)? != SOH {
        let typed = text[kind + 1..end].contains(&SOH);
        return Err(Some(if typed { Trailer } else { TypeField }));
    }
    let mut at = behind(text, end, b"10=", Trailer)?;
    for digit in sum_digits(sum_of(&text[..end])) {
        let byte = *text.get(at).ok_or(None)?;
        if byte != digit {
            return Err(Some(if byte.is_ascii_digit() { Sum } else { Trailer }));
        }
        at += 1;
    }
    behind(text, at, &[SOH], Trailer)?;
    Ok((start, len))
}

/// A piece of the stream: its place and length, and the range in the buffer of a frame's body.
struct Piece(u64, u64, Result<Range<usize>, Garble>);

#[derive(Default)]
struct Framer {
    begin: &'static [u8],
    buffer: Vec<u8>,
    start: usize,
    at: u64,
    /// The place, the length so far and the cause of a garbled piece that goes on.
    lost: Option<(u64, u64, Garble)>,
}

impl Framer {
    fn feed(&mut self, piece: &[u8]) {
        if self.buffer.len() + piece.len() > CAPACITY {
            self.buffer.drain(..self.start);
            self.start = 0;
        }
        self.buffer.extend_from_slice(piece);
    }

    fn pass(&mut self, count: usize) {
        self.start += count;
        self.at += count as u64;
    }

    /// Goes on with a garbled piece up to the next `8=FIX` from here on.
    fn lose(&mut self, at: u64, dropped: u64, cause: Garble, from: usize) -> Option<Piece> {
        let unread = &self.buffer[self.start..];
        let next = unread[from..].windows(5).position(|window| window == b"8=FIX");
        let kept = (unread.len() - from).min(4);
        let count = next.map_or(unread.len() - kept, |next| from + next);
        let len = dropped + count as u64;
        self.pass(count);
        self.lost = if next.is_none() { Some((at, len, cause)) } else { None };
        next.map(|_| Piece(at, len, Err(cause)))
    }

    fn next(&mut self) -> Option<Piece> {
        if let Some((at, dropped, cause)) = self.lost {
            return self.lose(at, dropped, cause, 0);
        }
        match scan(&self.buffer[self.start..], self.begin) {
            Err(None) => None,
            Err(Some(cause)) => self.lose(self.at, 0, cause, 1),
            Ok((start, body)) => {
                let first = self.start + start;
                let len = start + body + 7;
                let piece = Piece(self.at, len as u64, Ok(first..first + body));
                self.pass(len);
                Some(piece)
            }
        }
    }
}

// ---- the table of requests

/// The kinds of values. `Any` is of a header field, of which it is only asked that it has a value,
/// and `Unknown` of a tag without a row.
#[rustfmt::skip]
enum Kind {
    Id, Text, Code(&'static [u8]), ExecInst, SecurityType, Qty, Price, Stamp, Day, Month,
    DayOfMonth, Currency, Flag, Byte, Count, Any, Unknown,
}
use Kind::*;

/// A tag, the kind of its values, and what D, F, G and H say of it: `R` required, `o` optional, `-`
/// not of this message.
struct Row(u32, Kind, &'static [u8; 4]);

/// The rows in the order of writing, those of the header, the members of groups, and that of tags
/// without a row. The place of a row is its bit in the sets of fields.
#[rustfmt::skip]
static ROWS: [Row; 57] = [
    Row(11, Id, b"RRRR"), Row(41, Id, b"-RR-"), Row(37, Id, b"-ooo"), Row(109, Id, b"oooo"),
    Row(76, Id, b"oooo"), Row(439, Id, b"o-o-"), Row(1, Id, b"oooo"), Row(78, Count, b"o-o-"),
    Row(63, Code(b"0123456789"), b"o-o-"), Row(64, Day, b"o-o-"), Row(21, Code(b"123"), b"R-R-"),
    Row(18, ExecInst, b"o-o-"), Row(110, Qty, b"o-o-"), Row(111, Qty, b"o-o-"),
    Row(100, Id, b"o-o-"), Row(386, Count, b"o-o-"), Row(55, Id, b"RRRR"), Row(65, Id, b"oooo"),
    Row(48, Id, b"oooo"), Row(22, Code(b"123456789"), b"oooo"), Row(167, SecurityType, b"oooo"),
    Row(200, Month, b"oooo"), Row(205, DayOfMonth, b"oooo"), Row(207, Id, b"oooo"),
    Row(54, Code(b"123456"), b"RRRR"), Row(114, Flag, b"o-o-"), Row(60, Stamp, b"RRR-"),
    Row(38, Qty, b"RoR-"), Row(40, Code(b"12345B"), b"R-R-"), Row(44, Price, b"o-o-"),
    Row(99, Price, b"o-o-"), Row(15, Currency, b"o-o-"), Row(59, Code(b"0123456"), b"o-o-"),
    Row(168, Stamp, b"o-o-"), Row(432, Day, b"o-o-"), Row(126, Stamp, b"o-o-"),
    Row(47, Byte, b"o-o-"), Row(77, Code(b"OC"), b"o-o-"), Row(58, Text, b"ooo-"),
    Row(49, Any, b"oooo"), Row(56, Any, b"oooo"), Row(34, Any, b"oooo"), Row(43, Any, b"oooo"),
    Row(97, Flag, b"oooo"), Row(52, Any, b"oooo"), Row(122, Any, b"oooo"), Row(35, Any, b"oooo"),
    Row(50, Any, b"oooo"), Row(57, Any, b"oooo"), Row(142, Any, b"oooo"), Row(143, Any, b"oooo"),
    Row(347, Any, b"oooo"), Row(369, Any, b"oooo"), Row(79, Id, b"o-o-"), Row(80, Qty, b"o-o-"),
    Row(336, Id, b"o-o-"), Row(0, Unknown, b"----"),
];

const NONE: usize = 56;

const fn slot(tag: u32) -> usize {
    let mut i = 0;
    while ROWS[i].0 != tag {
        i += 1;
    }
    i
}

const fn bit(tag: u32) -> u64 {
    1 << slot(tag)
}

/// The places of the rows of a message by their tags, and the set of those that are required.
const fn message(column: usize) -> ([u8; 512], u64) {
    let (mut slots, mut required, mut i) = ([NONE as u8; 512], 0, 0);
    while i < NONE {
        if ROWS[i].2[column] != b'-' {
            slots[ROWS[i].0 as usize] = i as u8;
        }
        if ROWS[i].2[column] == b'R' {
            required |= 1 << i;
        }
        i += 1;
    }
    (slots, required)
}

/// The messages D, F, G and H.
static MESSAGES: [([u8; 512], u64); 4] = [message(0), message(1), message(2), message(3)];
const MEMBERS: u64 = bit(79) | bit(80) | bit(336);
const ONCE: u64 = !(MEMBERS | 1 << NONE);
const PARTIES: u64 = bit(109) | bit(76) | bit(439);
const CARRIED: u64 = bit(49) | bit(56) | bit(34) | bit(43) | bit(97) | bit(52) | bit(122);
const CONTENT: u64 = bit(49) - 1;

/// The tag of the length field of each field of raw data, and 0 for other tags.
static LENGTHS: [u32; 640] = {
    const PAIRS: [(u32, usize); 16] = [
        (93, 89), (90, 91), (95, 96), (212, 213), (348, 349), (350, 351), (352, 353), (354, 355),
        (356, 357), (358, 359), (360, 361), (362, 363), (364, 365), (445, 446), (618, 619),
        (621, 622),
    ];
    let mut lengths = [0; 640];
    let mut i = 0;
    while i < PAIRS.len() {
        lengths[PAIRS[i].1] = PAIRS[i].0;
        i += 1;
    }
    lengths
};

// ---- values

#[rustfmt::skip]
enum Mark { Good, Drops, Outside, Wrong(u32), Opens }
use Mark::*;

const EMPTY: u32 = 4;
const RANGE: u32 = 5;
const FORM: u32 = 6;

fn are_digits(bytes: &[u8]) -> bool {
    bytes.iter().all(u8::is_ascii_digit)
}

/// The number that a length or a count says.
fn number_in(bytes: &[u8]) -> Option<usize> {
    if !(1..=10).contains(&bytes.len()) || !are_digits(bytes) {
        return None;
    }
    let number = digits_value(bytes);
    (number <= 1_000_000_000).then_some(number)
}

fn digits_value(digits: &[u8]) -> usize {
    digits.iter().fold(0, |value, digit| 10 * value + usize::from(digit - b'0'))
}

fn two(bytes: &[u8], at: usize) -> usize {
    digits_value(&bytes[at..at + 2])
}

fn is_date(year: usize, month: usize, day: usize) -> bool {
    let days = match month {
        1 | 3 | 5 | 7 | 8 | 10 | 12 => 31,
        4 | 6 | 9 | 11 => 30,
        2 if year % 4 == 0 && (year % 100 != 0 || year % 400 == 0) => 29,
        2 => 28,
        _ => 0,
    };
    (1..=days).contains(&day)
}

fn is_day(bytes: &[u8]) -> bool {
    is_date(digits_value(&bytes[..4]), two(bytes, 4), two(bytes, 6))
}

fn is_month(bytes: &[u8]) -> bool {
    bytes.len() == 6 && are_digits(bytes) && (1..=12).contains(&two(bytes, 4))
}

fn is_day_of_month(bytes: &[u8]) -> bool {
    (1..=2).contains(&bytes.len()) && are_digits(bytes)
}

/// A moment, which on the venue's side may be fine: it has six or nine digits of the second.
fn judge_stamp(bytes: &[u8], fine: bool) -> Mark {
    let formed = (matches!(bytes.len(), 17 | 21) || fine && matches!(bytes.len(), 24 | 27))
        && bytes.iter().enumerate().all(|(i, byte)| match i {
            8 => *byte == b'-',
            11 | 14 => *byte == b':',
            17 => *byte == b'.',
            _ => byte.is_ascii_digit(),
        });
    if !formed {
        return Wrong(FORM);
    }
    let within = two(bytes, 9) <= 23 && two(bytes, 12) <= 59 && two(bytes, 15) <= 60;
    good_or(Wrong(RANGE), within && is_day(bytes))
}

fn good_or(bad: Mark, good: bool) -> Mark {
    if good { Good } else { bad }
}

/// The sign of a decimal number, and its whole part and fraction without needless zeros.
fn decimal(bytes: &[u8]) -> Option<(bool, &[u8], &[u8])> {
    let negative = bytes[0] == b'-';
    let number = &bytes[usize::from(negative)..];
    let point = number.iter().position(|byte| !byte.is_ascii_digit()).unwrap_or(number.len());
    let (mut whole, mut fraction) = (&number[..point], &number[(point + 1).min(number.len())..]);
    let pointed = point == number.len() || (number[point] == b'.' && are_digits(fraction));
    if !pointed || whole.len() + fraction.len() == 0 || bytes.len() > 32 {
        return None;
    }
    while let [b'0', rest @ ..] = whole {
        whole = rest;
    }
    while let [rest @ .., b'0'] = fraction {
        fraction = rest;
    }
    Some((negative && whole.len() + fraction.len() > 0, whole, fraction))
}

fn judge_decimal(bytes: &[u8], signed: bool) -> Mark {
    let Some((negative, whole, fraction)) = decimal(bytes) else { return Wrong(FORM) };
    let bounded = whole.len() + fraction.len() <= 15 && fraction.len() <= 8;
    good_or(Wrong(RANGE), bounded && (signed || !negative))
}

/// What a value is to its kind, but for a day beside its month.
fn judge(kind: &Kind, value: &[u8]) -> Mark {
    match kind {
        Count => Opens,
        _ if value.is_empty() => Wrong(EMPTY),
        Unknown => Outside,
        Any => Good,
        Id => good_or(Wrong(RANGE), value.len() <= 128),
        Text => good_or(Wrong(RANGE), value.len() <= 2_048),
        Code(codes) => good_or(Outside, value.len() == 1 && codes.contains(&value[0])),
        ExecInst => {
            let mut parts = value.split(|byte| *byte == b' ');
            if parts.clone().any(<[u8]>::is_empty) {
                return Wrong(FORM);
            }
            good_or(Outside, parts.all(|part| matches!(part, [b'1'..=b'6' | b'G'])))
        }
        SecurityType => good_or(Outside, matches!(value, b"CS" | b"PS" | b"FUT")),
        Qty => judge_decimal(value, false),
        Price => judge_decimal(value, true),
        Stamp => judge_stamp(value, false),
        Day if value.len() == 8 && are_digits(value) => good_or(Wrong(RANGE), is_day(value)),
        Month if value.len() == 6 && are_digits(value) => good_or(Wrong(RANGE), is_month(value)),
        Day | Month => Wrong(FORM),
        DayOfMonth => good_or(Wrong(FORM), is_day_of_month(value)),
        Currency if value.len() != 3 => Wrong(FORM),
        Currency => good_or(Wrong(FORM), value.iter().all(u8::is_ascii_uppercase)),
        Flag => good_or(Wrong(FORM), matches!(value, b"Y" | b"N")),
        Byte => good_or(Wrong(FORM), value.len() == 1),
    }
}

// ---- requests

/// The places in the body at which a field begins, its value begins, and its value ends. What is
/// alike in both versions is written as it stands.
#[derive(Clone, Copy, Default)]
struct Span(u16, u16, u16);

impl Span {
    fn value(self, body: &[u8]) -> &[u8] {
        &body[usize::from(self.1)..usize::from(self.2)]
    }

    fn name(self, body: &[u8]) -> &[u8] {
        &body[usize::from(self.0)..usize::from(self.1)]
    }

    fn field(self, body: &[u8]) -> &[u8] {
        &body[usize::from(self.0)..=usize::from(self.2)]
    }
}

#[derive(Clone, Copy, PartialEq)]
#[rustfmt::skip]
enum Finding { Session, Fine, Reason(u32, u32), NoCounterpart(u32), NotSupported }
use Finding::*;

#[derive(Clone, Copy, PartialEq, PartialOrd)]
#[rustfmt::skip]
enum Stage { Twice, Version, Order, Value, Missing, Counterpart, None }

/// The first fault so far, by its stage and its place in the message.
struct First(Stage, usize, Finding);

impl First {
    fn keep(&mut self, stage: Stage, place: usize, finding: Finding) {
        if (stage, place) < (self.0, self.1) {
            *self = First(stage, place, finding);
        }
    }
}

/// The tag of the field at a place, and where its value begins and ends; or what stops the fields
/// there.
fn field_at(body: &[u8], at: usize, before: (u32, &[u8])) -> Result<(u32, usize, usize), Finding> {
    let text = &body[at..];
    let (mut tag, mut digits) = (0u32, 0);
    while let Some(digit @ b'0'..=b'9') = text.get(digits) {
        tag = tag.wrapping_mul(10).wrapping_add(u32::from(digit - b'0'));
        digits += 1;
    }
    if !(1..=9).contains(&digits) || text[0] == b'0' || text.get(digits) != Some(&b'=') {
        return Err(Reason(0, 0));
    }
    let rest = &text[digits + 1..];
    let len = if LENGTHS.get(tag as usize) == Some(&before.0) {
        let said = number_in(before.1).filter(|len| rest.get(*len) == Some(&SOH));
        said.ok_or(Reason(tag, 6))?
    } else {
        rest.iter().position(|byte| *byte == SOH).ok_or(Reason(0, 6))?
    };
    let start = at + digits + 1;
    Ok((tag, start, start + len))
}

/// What the fields of one request say. It is used for one request after another.
struct Request {
    seen: u64,
    fields: [Span; ROWS.len()],
    allocs: Vec<(Span, Option<Span>)>,
    sessions: Vec<Span>,
    /// A group whose lines may go on: its tag, and the place of its count and what that says.
    open: Option<(u32, usize, Option<usize>)>,
}

impl Request {
    /// The value of a tag, which is empty where there is none.
    fn value<'a, const TAG: u32>(&self, body: &'a [u8]) -> &'a [u8] {
        let slot = const { slot(TAG) };
        if self.seen & 1 << slot == 0 { b"" } else { self.fields[slot].value(body) }
    }

    fn is_on_close(&self, body: &[u8]) -> bool {
        matches!(self.value::<40>(body), b"5" | b"B")
    }

    fn lines(&self, group: u32) -> usize {
        if group == 78 { self.allocs.len() } else { self.sessions.len() }
    }

    /// Judges the count of a group that ends.
    fn end_group(&mut self, first: &mut First) {
        if let Some((group, place, said)) = self.open.take() {
            if said != Some(self.lines(group)) {
                first.keep(Stage::Order, place, Reason(group, 16));
            }
        }
    }

    /// Takes a field where a group is open, or a member of one anywhere.
    fn take_in_group(&mut self, tag: u32, set: u64, span: Span, first: &mut First) {
        let group = match tag {
            _ if set & MEMBERS == 0 => 0,
            336 => 386,
            _ => 78,
        };
        if self.open.is_some_and(|open| open.0 != group) {
            self.end_group(first);
        }
        if group == 0 {
            return;
        }
        let place = usize::from(span.0);
        match (tag, self.allocs.last_mut()) {
            _ if self.open.is_none() => first.keep(Stage::Order, place, Reason(tag, 15)),
            (336, _) => self.sessions.push(span),
            (79, _) => self.allocs.push((span, None)),
            (_, Some((_, shares @ None))) => *shares = Some(span),
            _ => first.keep(Stage::Order, place, Reason(tag, 15)),
        }
        if self.lines(group) > MAX_LINES {
            first.keep(Stage::Order, place, Reason(group, 5));
        }
    }

    /// Reads a body as a message of this column of the table: its first fault, or `Fine`.
    fn read(&mut self, body: &[u8], column: usize) -> Finding {
        let (slots, required) = &MESSAGES[column];
        self.allocs.clear();
        self.sessions.clear();
        self.open = None;
        let mut first = First(Stage::None, 0, Fine);
        let mut before: (u32, &[u8]) = (u32::MAX, b"");
        let (mut at, mut count, mut seen) = (0, 0, 0u64);
        while at < body.len() {
            if count == MAX_FIELDS {
                return Reason(0, 5);
            }
            let (tag, start, end) = match field_at(body, at, before) {
                Ok(field) => field,
                Err(finding) => return finding,
            };
            let value = &body[start..end];
            let slot = slots.get(tag as usize).map_or(NONE, |slot| usize::from(*slot));
            let set = 1 << slot;
            let span = Span(at as u16, start as u16, end as u16);
            if self.open.is_some() || set & MEMBERS != 0 {
                self.take_in_group(tag, set, span, &mut first);
            }
            if seen & set & ONCE != 0 {
                first.keep(Stage::Twice, at, Reason(tag, 13));
            }
            seen |= set;
            self.fields[slot] = span;
            match judge(&ROWS[slot].1, value) {
                Good | Drops => {}
                Outside => first.keep(Stage::Counterpart, at, NoCounterpart(tag)),
                Wrong(reason) => first.keep(Stage::Value, at, Reason(tag, reason)),
                Opens => self.open = Some((tag, at, number_in(value))),
            }
            before = (tag, value);
            at = end + 1;
            count += 1;
        }
        self.end_group(&mut first);
        self.seen = seen;
        let (month, day) = (self.value::<200>(body), self.value::<205>(body));
        if is_month(month) && is_day_of_month(day) {
            if !is_date(digits_value(&month[..4]), two(month, 4), digits_value(day)) {
                let place = self.fields[const { slot(205) }].0;
                first.keep(Stage::Value, usize::from(place), Reason(205, RANGE));
            }
        }
        let month = if day.is_empty() { 0 } else { bit(200) };
        let missing = (required | month) & !seen;
        if missing != 0 {
            let slot = missing.trailing_zeros() as usize;
            first.keep(Stage::Missing, slot, Reason(ROWS[slot].0, 1));
        }
        match (first.2, self.value::<59>(body), self.value::<47>(body)) {
            (Fine, time, _) if self.is_on_close(body) && !matches!(time, b"" | b"0") => {
                NoCounterpart(59)
            }
            (Fine, _, b"" | b"A" | b"I" | b"P") => Fine,
            (Fine, ..) => NoCounterpart(47),
            (fault, ..) => fault,
        }
    }

    /// Writes what the fields mean as a body of FIX 5.0 SP2; `false` where that is too long.
    fn write(&self, body: &[u8], up: &mut Vec<u8>) -> bool {
        up.clear();
        up.extend_from_slice(self.fields[const { slot(35) }].field(body));
        for i in bits(self.seen & CARRIED) {
            up.extend_from_slice(self.fields[i].field(body));
        }
        let content = up.len();
        let on_close = self.is_on_close(body);
        let added = if on_close { bit(59) } else { 0 };
        for i in bits(self.seen & CONTENT | added) {
            let Row(tag, kind, _) = &ROWS[i];
            let value = if self.seen & 1 << i == 0 { b"" } else { self.fields[i].value(body) };
            match tag {
                109 | 76 | 439 => self.write_party(*tag, 1 << i, value, up),
                78 if !self.allocs.is_empty() => {
                    push_number(up, b"78=", self.allocs.len() as u64, b"\x01");
                    for (account, shares) in &self.allocs {
                        up.extend_from_slice(account.field(body));
                        if let Some(shares) = shares {
                            push_decimal(up, b"80=", shares.value(body));
                        }
                    }
                }
                386 if !self.sessions.is_empty() => {
                    push_number(up, b"386=", self.sessions.len() as u64, b"\x01");
                    for session in &self.sessions {
                        up.extend_from_slice(session.field(body));
                    }
                }
                78 | 386 => {}
                205 => {
                    up.extend_from_slice(b"541=");
                    up.extend_from_slice(self.value::<200>(body));
                    push_field(up, if value.len() == 1 { b"0" } else { b"" }, value);
                }
                40 if on_close => push_field(up, b"40=", if value == b"5" { b"1" } else { b"2" }),
                59 if on_close => push_field(up, b"59=", b"7"),
                47 => push_field(up, b"528=", value),
                111 => push_decimal(up, b"1138=", value),
                _ if matches!(kind, Qty | Price) => {
                    push_decimal(up, self.fields[i].name(body), value)
                }
                _ => up.extend_from_slice(self.fields[i].field(body)),
            }
        }
        up.len() - content <= MAX_CONTENT && up.len() <= MAX_BODY
    }

    fn write_party(&self, tag: u32, set: u64, id: &[u8], up: &mut Vec<u8>) {
        let parties = self.seen & PARTIES;
        if parties & (set - 1) == 0 {
            push_number(up, b"453=", parties.count_ones().into(), b"\x01");
        }
        push_field(up, b"448=", id);
        up.extend_from_slice(match tag {
            109 => b"447=D\x01452=3\x01",
            76 => b"447=D\x01452=1\x01",
            _ => b"447=D\x01452=4\x01",
        });
    }
}

/// The places of the bits of a set, from the lowest on.
fn bits(mut set: u64) -> impl Iterator<Item = usize> {
    std::iter::from_fn(move || {
        let place = set.trailing_zeros() as usize;
        (set != 0).then(|| {
            set &= set - 1;
            place
        })
    })
}

fn push_field(out: &mut Vec<u8>, name: &[u8], value: &[u8]) {
    out.extend_from_slice(name);
    out.extend_from_slice(value);
    out.push(SOH);
}

fn push_number(out: &mut Vec<u8>, before: &[u8], mut number: u64, after: &[u8]) {
    let mut digits = [0; 20];
    let mut at = digits.len();
    while at == digits.len() || number > 0 {
        at -= 1;
        digits[at] = b'0' + (number % 10) as u8;
        number /= 10;
    }
    out.extend_from_slice(before);
    out.extend_from_slice(&digits[at..]);
    out.extend_from_slice(after);
}

fn push_decimal(out: &mut Vec<u8>, name: &[u8], value: &[u8]) {
    let Some((negative, whole, fraction)) = decimal(value) else { return };
    out.extend_from_slice(name);
    if negative {
        out.push(b'-');
    }
    out.extend_from_slice(if whole.is_empty() { b"0" } else { whole });
    if !fraction.is_empty() {
        out.push(b'.');
        out.extend_from_slice(fraction);
    }
    out.push(SOH);
}

// ---- the commands

fn msg_type(body: &[u8]) -> &[u8] {
    body[3..].split(|byte| *byte == SOH).next().unwrap_or(b"")
}

/// The column of a request's type.
fn column_of(kind: &[u8]) -> Option<usize> {
    b"DFGH".iter().position(|letter| kind == [*letter])
}

/// What is done to a stream of frames.
#[derive(Clone, Copy, PartialEq)]
#[rustfmt::skip]
enum Task {
    TranslateUp, TranslateDown, CheckClient, CheckVenue, TranslateUp44, TranslateDown44,
    CheckClient44,
}
use Task::*;

const BEGIN_42: &[u8] = b"8=FIX.4.2\x01";
const BEGIN_44: &[u8] = b"8=FIX.4.4\x01";
const BEGIN_50: &[u8] = b"8=FIXT.1.1\x01";

/// What reads the messages of both sides, and writes their translations.
struct Reader {
    request: Request,
    request44: Request44,
    report: Report,
    written: Vec<u8>,
}

impl Reader {
    /// Appends the frame that stands for a body, where there is one.
    fn translate(&mut self, task: Task, body: &[u8], out: &mut Vec<u8>) -> bool {
        let kind = msg_type(body);
        let written = &mut self.written;
        let (begin, is_written) = if task == TranslateUp {
            let Some(column) = column_of(kind) else { return false };
            let is_good = self.request.read(body, column) == Fine;
            (BEGIN_50, is_good && self.request.write(body, written))
        } else if task == TranslateUp44 {
            let Some(column) = column_of(kind) else { return false };
            let is_good = self.request44.read(body, column) == Fine;
            (BEGIN_50, is_good && self.request44.write(body, column, written))
        } else {
            let is_44 = task == TranslateDown44;
            let column = reports::column_of(kind, true, is_44);
            let Some(column @ (0 | 1)) = column else { return false };
            let is_good = self.report.read(body, column) == Fine;
            let begin = if is_44 { BEGIN_44 } else { BEGIN_42 };
            (begin, is_good && self.report.write(body, column, is_44, written))
        };
        if is_written {
            let start = out.len();
            out.extend_from_slice(begin);
            push_number(out, b"9=", self.written.len() as u64, b"\x01");
            out.extend_from_slice(&self.written);
            let sum = sum_digits(sum_of(&out[start..]));
            push_field(out, b"10=", &sum);
        }
        is_written
    }

    fn find(&mut self, task: Task, body: &[u8]) -> Finding {
        let kind = msg_type(body);
        if matches!(kind, b"0" | b"1" | b"2" | b"4" | b"5" | b"A") {
            return Session;
        }
        let is_44 = task == CheckClient44;
        if let Some(column) = reports::column_of(kind, task == CheckVenue, is_44) {
            return self.report.read(body, column);
        }
        match column_of(kind) {
            Some(column) if task == CheckClient => self.request.read(body, column),
            Some(column) if task == CheckClient44 => self.request44.read(body, column),
            _ => NotSupported,
        }
    }

    /// Appends the line of a frame, and answers whether it is refused.
    fn check(&mut self, task: Task, at: u64, len: u64, body: &[u8], out: &mut Vec<u8>) -> bool {
        let finding = self.find(task, body);
        push_number(out, b"", at, b" frame ");
        push_number(out, b"", len, b" ");
        out.extend_from_slice(msg_type(body));
        match finding {
            Session => out.extend_from_slice(b" session\n"),
            Fine => out.extend_from_slice(b" ok\n"),
            Reason(tag, reason) => {
                push_number(out, b" tag ", tag.into(), b" reason ");
                push_number(out, b"", reason.into(), b"\n");
            }
            NoCounterpart(tag) => push_number(out, b" tag ", tag.into(), b" no counterpart\n"),
            NotSupported => out.extend_from_slice(b" not supported\n"),
        }
        !matches!(finding, Session | Fine)
    }
}

/// How a run ends that is not done: the exit code, and the line of the status.
struct End(u8, String);

fn fault(code: u8, line: &str) -> impl Fn(io::Error) -> End + '_ {
    move |_| End(code, line.into())
}

fn run(task: Task) -> Result<(), End> {
    let is_check = matches!(task, CheckClient | CheckVenue | CheckClient44);
    let (input_fault, output_fault) = (fault(4, "input fault"), fault(5, "output fault"));
    // The files themselves, since std's handles read 8,192 bytes at a time and write by lines.
    let input = io::stdin().as_fd().try_clone_to_owned().map_err(&input_fault)?;
    let output = io::stdout().as_fd().try_clone_to_owned().map_err(&output_fault)?;
    let (mut input, mut output) = (File::from(input), File::from(output));
    let begin = match task {
        TranslateUp | CheckClient => BEGIN_42,
        TranslateUp44 | CheckClient44 => BEGIN_44,
        TranslateDown | TranslateDown44 | CheckVenue => BEGIN_50,
    };
    let mut framer = Framer { begin, buffer: Vec::with_capacity(CAPACITY), ..Framer::default() };
    let fields = [Span::default(); ROWS.len()];
    let (allocs, sessions) = (Vec::new(), Vec::new());
    let request = Request { seen: 0, fields, allocs, sessions, open: None };
    let (request44, report) = (Request44::new(), Report::new());
    let mut reader = Reader { request, request44, report, written: Vec::new() };
    let mut text = Vec::new();
    let mut chunk = [0; CHUNK];
    let (mut taken, mut first_refused) = (0, None);
    loop {
        let asked = CHUNK.min(LIMIT - taken).max(1);
        let count = input.read(&mut chunk[..asked]).map_err(&input_fault)?;
        if count == 0 {
            break;
        }
        taken += count;
        if taken > LIMIT {
            return Err(End(12, "input too long".into()));
        }
        framer.feed(&chunk[..count]);
        text.clear();
        while let Some(Piece(at, len, body)) = framer.next() {
            let is_refused = match body {
                Ok(body) if is_check => {
                    reader.check(task, at, len, &framer.buffer[body], &mut text)
                }
                Ok(body) => !reader.translate(task, &framer.buffer[body], &mut text),
                Err(cause) => {
                    if is_check {
                        let _ = writeln!(text, "{at} garbled {len} {cause:?}");
                    }
                    true
                }
            };
            if is_refused {
                first_refused.get_or_insert(at);
            }
            if is_refused && !is_check {
                break;
            }
        }
        output.write_all(&text).map_err(&output_fault)?;
        if !is_check && first_refused.is_some() {
            break;
        }
    }
    let unread = (framer.buffer.len() - framer.start) as u64;
    let last = match framer.lost {
        Some((at, len, cause)) => Some((at, format!("{at} garbled {} {cause:?}\n", len + unread))),
        None if unread > 0 => Some((framer.at, format!("{} inside {unread}\n", framer.at))),
        None => None,
    };
    if let Some((at, line)) = last {
        first_refused.get_or_insert(at);
        if is_check {
            output.write_all(line.as_bytes()).map_err(&output_fault)?;
        }
    }
    first_refused.map_or(Ok(()), |at| Err(End(1, format!("refused at {at}"))))
}

fn main() -> ExitCode {
    let words: Vec<String> = std::env::args().skip(1).collect();
    let ended = match words.iter().map(String::as_str).collect::<Vec<_>>()[..] {
        ["translate", "up"] => run(TranslateUp),
        ["translate", "down"] => run(TranslateDown),
        ["check", "client"] => run(CheckClient),
        ["check", "venue"] => run(CheckVenue),
        ["translate", "up44"] => run(TranslateUp44),
        ["translate", "down44"] => run(TranslateDown44),
        ["check", "client44"] => run(CheckClient44),
        _ => Err(End(2, "usage".into())),
    };
    let Err(End(code, line)) = ended else { return ExitCode::SUCCESS };
    eprintln!("fixgate: {line}");
    ExitCode::from(code)
}
