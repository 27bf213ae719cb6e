//! The part of the baseline that reads what a venue says, and refusals: reports of FIX 5.0 SP2 and
//! what they are in FIX 4.2 and FIX 4.4, and Reject and BusinessMessageReject of all versions. It
//! was written from the documents and definitions, as the rest.
use crate::{
    Finding, First, MAX_BODY, MAX_CONTENT, MAX_FIELDS, MAX_LINES, Mark, Span, Stage, are_digits,
    decimal, digits_value, field_at, good_or, is_day, is_month, judge_decimal, judge_stamp,
    number_in, push_decimal, push_field, push_number,
};
use crate::{EMPTY, FORM, RANGE, requests44};
use crate::Finding::{Fine, NoCounterpart};
use crate::Mark::*;

/// The kinds of values. A `Code` or a word that is not listed is dropped, and a `Known` one is out
/// of range. `Beside` has a meaning beside another field alone.
#[rustfmt::skip]
enum Kind {
    Id, Text, Code(&'static [u8]), Known(&'static [u8]), Side, SecurityType, Qty, Price, Stamp, Day,
    Currency, Number, Reason, Flag, OneByte, Beside, Version, Count, Any, Passed,
}
use self::Kind::*;

/// The messages: the venue's 8, 9, 3 and j, 3 and j of the client, and j of a client of FIX 4.4.
const MESSAGES: usize = 7;

/// A tag, the kind of its values, and what each message says of it: `R` required, `o` optional, `-`
/// not of this message.
struct Row(u32, Kind, &'static [u8; MESSAGES]);

/// The rows in the order of writing, the members of a group behind its count; then those of the
/// header, and that of tags without a row, which are passed over. The place of a row is its bit in
/// the sets of fields.
#[rustfmt::skip]
static ROWS: [Row; 75] = [
    Row(37, Id, b"RR-----"), Row(198, Id, b"oo-----"), Row(11, Id, b"oR-----"),
    Row(41, Id, b"oo-----"), Row(453, Count, b"o------"), Row(448, Id, b"o------"),
    Row(447, OneByte, b"o------"), Row(452, Number, b"o------"), Row(382, Count, b"o------"),
    Row(375, Id, b"o------"), Row(337, Id, b"o------"), Row(437, Qty, b"o------"),
    Row(438, Stamp, b"o------"), Row(17, Id, b"R------"), Row(19, Id, b"o------"),
    Row(150, Known(b"03456789ABCDEFGHIJKL"), b"R------"),
    Row(39, Known(b"0123456789ABCDE"), b"RR-----"), Row(103, Reason, b"o------"),
    Row(378, Reason, b"o------"), Row(1, Id, b"oo-----"), Row(63, Code(b"0123456789"), b"o------"),
    Row(64, Day, b"o------"), Row(55, Id, b"R------"), Row(65, Id, b"o------"),
    Row(48, Id, b"o------"), Row(22, Code(b"123456789"), b"o------"),
    Row(167, SecurityType, b"o------"), Row(200, Beside, b"o------"), Row(541, Day, b"o------"),
    Row(207, Id, b"o------"), Row(54, Side, b"R------"), Row(38, Qty, b"o------"),
    Row(40, Code(b"1234"), b"o------"), Row(44, Price, b"o------"), Row(99, Price, b"o------"),
    Row(15, Currency, b"o------"), Row(59, Beside, b"o------"), Row(432, Day, b"o------"),
    Row(126, Stamp, b"o------"), Row(528, Code(b"AIP"), b"o------"), Row(32, Qty, b"o------"),
    Row(31, Price, b"o------"), Row(30, Id, b"o------"), Row(151, Qty, b"R------"),
    Row(14, Qty, b"R------"), Row(6, Price, b"R------"), Row(75, Day, b"o------"),
    Row(60, Stamp, b"oo-----"), Row(110, Qty, b"o------"), Row(1138, Qty, b"o------"),
    Row(434, Known(b"12"), b"-R-----"), Row(102, Reason, b"-o-----"), Row(45, Number, b"--RoRRo"),
    Row(371, Number, b"--o-o--"), Row(372, Id, b"--oRoRR"), Row(373, Number, b"--o-o--"),
    Row(379, Id, b"---o-oo"), Row(380, Number, b"---R-RR"), Row(58, Text, b"ooooooo"),
    Row(1128, Version, b"oooo---"),
    Row(49, Any, b"ooooooo"), Row(56, Any, b"ooooooo"), Row(34, Any, b"ooooooo"),
    Row(43, Any, b"ooooooo"), Row(97, Flag, b"ooooooo"), Row(52, Any, b"ooooooo"),
    Row(122, Any, b"ooooooo"), Row(35, Any, b"ooooooo"), Row(50, Any, b"ooooooo"),
    Row(57, Any, b"ooooooo"), Row(142, Any, b"ooooooo"), Row(143, Any, b"ooooooo"),
    Row(347, Any, b"ooooooo"), Row(369, Any, b"ooooooo"),
    Row(0, Passed, b"-------"),
];

const NONE: usize = 74;
const TAGS: usize = 1_139;

const fn slot(tag: u32) -> usize {
    let mut i = 0;
    while ROWS[i].0 != tag {
        i += 1;
    }
    i
}

const fn bit(tag: u32) -> u128 {
    1 << slot(tag)
}

/// The places of the rows of each message by their tags, and the set of those that are required.
static TABLES: [([u8; TAGS], u128); MESSAGES] = {
    let mut tables = [([NONE as u8; TAGS], 0); MESSAGES];
    let mut column = 0;
    while column < MESSAGES {
        let mut i = 0;
        while i < NONE {
            if ROWS[i].2[column] != b'-' {
                tables[column].0[ROWS[i].0 as usize] = i as u8;
            }
            if ROWS[i].2[column] == b'R' {
                tables[column].1 |= 1 << i;
            }
            i += 1;
        }
        column += 1;
    }
    tables
};

const PARTY: u128 = bit(448) | bit(447) | bit(452);
const CONTRA: u128 = bit(375) | bit(337) | bit(437) | bit(438);
const MEMBERS: u128 = PARTY | CONTRA;
const ONCE: u128 = !(MEMBERS | 1 << NONE);
const CONTENT: u128 = (bit(1128) - 1) & !MEMBERS;
const CARRIED: [usize; 7] =
    [slot(49), slot(56), slot(34), slot(43), slot(97), slot(52), slot(122)];

/// What a value is to its kind.
fn judge(kind: &Kind, value: &[u8]) -> Mark {
    match kind {
        Count => Opens,
        Version => good_or(Wrong(VERSION), value == b"9"),
        _ if value.is_empty() => Wrong(EMPTY),
        Any | Beside | Passed => Good,
        Id => good_or(Wrong(RANGE), value.len() <= 128),
        Text => good_or(Wrong(RANGE), value.len() <= 2_048),
        Code(codes) => good_or(Drops, value.len() == 1 && codes.contains(&value[0])),
        Known(codes) => good_or(Wrong(RANGE), value.len() == 1 && codes.contains(&value[0])),
        Side => good_or(Outside, matches!(value, [b'1'..=b'6'])),
        SecurityType => good_or(Drops, matches!(value, b"CS" | b"PS" | b"FUT")),
        Qty => judge_decimal(value, false),
        Price => judge_decimal(value, true),
        Stamp => judge_stamp(value, true),
        Day if value.len() == 8 && are_digits(value) => good_or(Wrong(RANGE), is_day(value)),
        Day => Wrong(FORM),
        Currency if value.len() != 3 => Wrong(FORM),
        Currency => good_or(Wrong(FORM), value.iter().all(u8::is_ascii_uppercase)),
        Number | Reason if value.len() > 10 || !are_digits(value) => Wrong(FORM),
        Number => good_or(Wrong(RANGE), digits_value(value) <= 1_000_000_000),
        Reason => good_or(Wrong(RANGE), digits_value(value) <= 9_999),
        Flag => good_or(Wrong(FORM), matches!(value, b"Y" | b"N")),
        OneByte => good_or(Wrong(FORM), value.len() == 1),
    }
}

const VERSION: u32 = 18;

/// The text of a moment to its milliseconds.
fn cut(value: &[u8]) -> &[u8] {
    &value[..value.len().min(21)]
}

/// The column of a message of a side.
pub fn column_of(kind: &[u8], of_venue: bool, is_44: bool) -> Option<usize> {
    match kind {
        b"8" if of_venue => Some(0),
        b"9" if of_venue => Some(1),
        b"3" => Some(if of_venue { 2 } else { 4 }),
        b"j" if of_venue => Some(3),
        b"j" => Some(if is_44 { 6 } else { 5 }),
        _ => None,
    }
}

/// A contra broker: its fields 375, 337, 437 and 438.
type Contra = [Option<Span>; 4];

/// What the fields of one report or refusal say. It is used for one after another.
pub struct Report {
    said: u128,
    fields: [Span; ROWS.len()],
    /// The fields 448, 447 and 452 of each party.
    parties: Vec<[Option<Span>; 3]>,
    contras: Vec<Contra>,
    /// A group whose lines may go on: its tag, and the place of its count and what that says.
    open: Option<(u32, usize, Option<usize>)>,
}

impl Report {
    pub fn new() -> Report {
        let fields = [Span::default(); ROWS.len()];
        Report { said: 0, fields, parties: Vec::new(), contras: Vec::new(), open: None }
    }

    /// The value of a tag, which is empty where there is none.
    fn value<'a, const TAG: u32>(&self, body: &'a [u8]) -> &'a [u8] {
        let slot = const { slot(TAG) };
        if self.said & 1 << slot == 0 { b"" } else { self.fields[slot].value(body) }
    }

    /// Judges the count of a group that ends.
    fn end_group(&mut self, first: &mut First) {
        if let Some((group, place, said)) = self.open.take() {
            let lines = if group == 453 { self.parties.len() } else { self.contras.len() };
            if said != Some(lines) {
                first.keep(Stage::Order, place, Finding::Reason(group, 16));
            }
        }
    }

    /// Takes a field where a group is open, or a member of one anywhere.
    fn take_in_group(&mut self, tag: u32, set: u128, span: Span, first: &mut First) {
        let (group, passed) = match tag {
            _ if set & PARTY != 0 => (453, false),
            _ if set & CONTRA != 0 => (382, false),
            802 | 523 | 803 => (453, true),
            655 => (382, true),
            _ => (0, false),
        };
        if self.open.is_some_and(|open| open.0 != group) {
            self.end_group(first);
        }
        if group == 0 || passed {
            return;
        }
        let place = usize::from(span.0);
        let is_fault = match (tag, self.parties.last_mut(), self.contras.last_mut()) {
            _ if self.open.is_none() => true,
            (448, ..) => {
                self.parties.push([Some(span), None, None]);
                self.parties.len() > MAX_LINES
            }
            (375, ..) => {
                self.contras.push([Some(span), None, None, None]);
                self.contras.len() > MAX_LINES
            }
            (447, Some(line), _) => line[1].replace(span).is_some(),
            (452, Some(line), _) => line[2].replace(span).is_some(),
            (337, _, Some(line)) => line[1].replace(span).is_some(),
            (437, _, Some(line)) => line[2].replace(span).is_some(),
            (438, _, Some(line)) => line[3].replace(span).is_some(),
            _ => true,
        };
        match tag {
            _ if !is_fault => {}
            448 | 375 if self.open.is_some() => {
                first.keep(Stage::Order, place, Finding::Reason(group, 5))
            }
            _ => first.keep(Stage::Order, place, Finding::Reason(tag, 15)),
        }
    }

    /// Reads a body as a message of this column of the table: its first fault, or `Fine`.
    pub fn read(&mut self, body: &[u8], column: usize) -> Finding {
        let (slots, required) = &TABLES[column];
        self.parties.clear();
        self.contras.clear();
        self.open = None;
        let mut first = First(Stage::None, 0, Fine);
        let mut before: (u32, &[u8]) = (u32::MAX, b"");
        let (mut at, mut count, mut seen, mut dropped) = (0, 0, 0u128, 0u128);
        while at < body.len() {
            if count == MAX_FIELDS {
                return Finding::Reason(0, 5);
            }
            let (tag, start, end) = match field_at(body, at, before) {
                Ok(field) => field,
                Err(finding) => return finding,
            };
            let value = &body[start..end];
            let slot = slots.get(tag as usize).map_or(NONE, |slot| usize::from(*slot));
            let set = 1 << slot;
            let span = Span(at as u16, start as u16, end as u16);
            if self.open.is_some() || set & MEMBERS != 0 {
                self.take_in_group(tag, set, span, &mut first);
            }
            if seen & set & ONCE != 0 {
                first.keep(Stage::Twice, at, Finding::Reason(tag, 13));
            }
            seen |= set;
            self.fields[slot] = span;
            match judge(&ROWS[slot].1, value) {
                Good => {}
                Drops => dropped |= set,
                Outside => first.keep(Stage::Counterpart, at, NoCounterpart(tag)),
                Wrong(VERSION) => first.keep(Stage::Version, at, Finding::Reason(tag, VERSION)),
                Wrong(reason) => first.keep(Stage::Value, at, Finding::Reason(tag, reason)),
                Opens => self.open = Some((tag, at, number_in(value))),
            }
            before = (tag, value);
            at = end + 1;
            count += 1;
        }
        self.end_group(&mut first);
        self.said = seen & !dropped;
        let of_type = match self.value::<150>(body) {
            b"F" => bit(32) | bit(31),
            b"G" => bit(19) | bit(32) | bit(31),
            b"H" => bit(19),
            _ => 0,
        };
        let roles = if self.parties.iter().any(|line| line[2].is_none()) { bit(452) } else { 0 };
        let missing = (required | of_type) & !seen | roles;
        if missing != 0 {
            let slot = missing.trailing_zeros() as usize;
            first.keep(Stage::Missing, slot, Finding::Reason(ROWS[slot].0, 1));
        }
        match (first.2, self.value::<150>(body)) {
            (Fine, b"J" | b"K") => NoCounterpart(150),
            (finding, _) => finding,
        }
    }

    /// Writes what the fields mean as a body of FIX 4.2, or of FIX 4.4; `false` where that is too
    /// long, or where they do not say which order could not be canceled.
    pub fn write(&self, body: &[u8], column: usize, is_44: bool, down: &mut Vec<u8>) -> bool {
        if column == 1 && self.value::<41>(body).is_empty() {
            return false;
        }
        down.clear();
        down.extend_from_slice(self.fields[const { slot(35) }].field(body));
        for i in CARRIED {
            if self.said & 1 << i != 0 {
                let value = self.fields[i].value(body);
                if matches!(ROWS[i].0, 52 | 122) && matches!(judge(&Stamp, value), Good) {
                    push_field(down, self.fields[i].name(body), cut(value));
                } else {
                    down.extend_from_slice(self.fields[i].field(body));
                }
            }
        }
        let content = down.len();
        let (exec_type, status) = (self.value::<150>(body), self.value::<39>(body));
        let time = self.value::<59>(body);
        let on_close = time == b"7" && matches!(self.value::<40>(body), b"1" | b"2");
        let date = self.value::<541>(body);
        let mut note = Vec::new();
        let mut set = self.said & CONTENT | bit(58);
        set |= if date.is_empty() { 0 } else { bit(200) };
        while set != 0 {
            let i = set.trailing_zeros() as usize;
            set &= set - 1;
            let Row(tag, kind, _) = &ROWS[i];
            let value = if self.said & 1 << i == 0 { b"" } else { self.fields[i].value(body) };
            match tag {
                453 if is_44 => requests44::write_parties(&self.parties, body, down),
                453 => self.write_parties(body, down),
                382 => self.write_contras(body, down),
                17 if is_44 => push_field(down, b"17=", value),
                17 => {
                    let is_status = matches!(exec_type, b"I" | b"L");
                    push_field(down, b"17=", if is_status { b"0" } else { value });
                    push_field(down, b"20=", match exec_type {
                        b"G" => b"2",
                        b"H" => b"1",
                        b"I" | b"L" => b"3",
                        _ => b"0",
                    });
                }
                150 if is_44 => push_field(down, b"150=", if value == b"L" { b"I" } else { value }),
                39 if is_44 => push_field(down, b"39=", if value == b"5" { b"0" } else { value }),
                150 => push_field(down, b"150=", match exec_type {
                    b"F" if self.is_filled(body) => b"2",
                    b"F" => b"1",
                    b"G" | b"H" | b"I" | b"L" => status,
                    _ => exec_type,
                }),
                39 if exec_type == b"5" && status == b"0" => push_field(down, b"39=", b"5"),
                103 => write_reason(b"103=", value, 8, 0, down, &mut note),
                378 => write_reason(b"378=", value, 5, 4, down, &mut note),
                102 => write_reason(b"102=", value, 3, 2, down, &mut note),
                200 if !date.is_empty() => push_field(down, b"200=", &date[..6]),
                200 if !is_month(value) => {}
                541 if !is_44 => push_field(down, b"205=", &date[6..]),
                40 if on_close && !is_44 => push_field(down, b"40=", if value == b"1" { b"5" } else { b"B" }),
                59 if !matches!(value, [b'0'..=b'6']) && !(is_44 && on_close) => {}
                528 if !is_44 => push_field(down, b"47=", value),
                1138 => push_decimal(down, b"111=", value),
                58 if note.is_empty() && value.is_empty() => {}
                58 if note.is_empty() => push_field(down, b"58=", value),
                58 => {
                    let kept = &value[..value.len().min(2_000)];
                    let start = usize::from(kept.is_empty());
                    down.extend_from_slice(b"58=");
                    down.extend_from_slice(kept);
                    push_field(down, b"", &note[start..]);
                }
                _ if matches!(kind, Qty | Price) => {
                    push_decimal(down, self.fields[i].name(body), value)
                }
                _ if matches!(kind, Stamp) => {
                    push_field(down, self.fields[i].name(body), cut(value))
                }
                _ => down.extend_from_slice(self.fields[i].field(body)),
            }
        }
        down.len() - content <= MAX_CONTENT && down.len() <= MAX_BODY
    }

    fn is_filled(&self, body: &[u8]) -> bool {
        let nothing_left = decimal(self.value::<151>(body))
            .is_some_and(|(_, whole, fraction)| whole.len() + fraction.len() == 0);
        match self.value::<39>(body) {
            b"2" => true,
            b"6" | b"E" => nothing_left,
            _ => false,
        }
    }

    fn write_parties(&self, body: &[u8], down: &mut Vec<u8>) {
        for (role, name) in [(3, &b"109="[..]), (1, &b"76="[..]), (4, &b"439="[..])] {
            let of_role = |line: &&[Option<Span>; 3]| {
                line[2].is_some_and(|span| digits_value(span.value(body)) == role)
            };
            if let Some([Some(id), ..]) = self.parties.iter().find(of_role) {
                push_field(down, name, id.value(body));
            }
        }
    }

    fn write_contras(&self, body: &[u8], down: &mut Vec<u8>) {
        if self.contras.is_empty() {
            return;
        }
        push_number(down, b"382=", self.contras.len() as u64, b"\x01");
        for [broker, trader, shares, time] in &self.contras {
            for span in [*broker, *trader].iter().flatten() {
                down.extend_from_slice(span.field(body));
            }
            if let Some(shares) = shares {
                push_decimal(down, b"437=", shares.value(body));
            }
            if let Some(time) = time {
                push_field(down, b"438=", cut(time.value(body)));
            }
        }
    }
}

/// Writes a reason, or another one where FIX 4.2 has none past `most`; then it is noted.
fn write_reason(
    name: &[u8],
    value: &[u8],
    most: usize,
    other: u64,
    down: &mut Vec<u8>,
    note: &mut Vec<u8>,
) {
    let reason = digits_value(value);
    if reason <= most {
        push_number(down, name, reason as u64, b"\x01");
    } else {
        push_number(down, name, other, b"\x01");
        note.extend_from_slice(b" [");
        push_number(note, name, reason as u64, b"]");
    }
}
