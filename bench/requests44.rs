//! The part of the baseline that reads the order requests of a client of FIX 4.4, and writes what
//! they are in FIX 5.0 SP2. It was written from the documents and definitions, as the rest.
use crate::{
    Finding, First, MAX_BODY, MAX_CONTENT, MAX_FIELDS, MAX_LINES, Mark, Span, Stage, are_digits,
    bits, digits_value, field_at, good_or, is_month, number_in, push_decimal, push_field,
    push_number,
};
use crate::{EMPTY, FORM, Kind as Plain, RANGE, judge as judge_plain};
use crate::Finding::{Fine, NoCounterpart, Reason};
use crate::Mark::*;

/// The kinds of values: those of FIX 4.2, and some besides. `Role` is a number, `Month` has a
/// meaning beside a date alone, and `Passed` is of tags that a group passes over.
#[rustfmt::skip]
enum Kind { Of(Plain), Role, Month, Passed }
use self::Kind::*;
use self::Plain::{Any, Byte, Code, Count, Currency, Day, ExecInst, Flag, Id, Qty, Price, SecurityType};
use self::Plain::{Stamp, Text, Unknown};

/// A tag, the kind of its values, and what D, F, G and H say of it: `R` required, `o` optional, `-`
/// not of this message.
struct Row(u32, Kind, &'static [u8; 4]);

/// The rows in the order of writing, the members of a group behind its count; then those of the
/// header, those that are passed over, and that of tags without a row. The place of a row is its
/// bit in the sets of fields.
#[rustfmt::skip]
static ROWS: [Row; 61] = [
    Row(11, Of(Id), b"RRRR"), Row(41, Of(Id), b"-RR-"), Row(37, Of(Id), b"-ooo"),
    Row(453, Of(Count), b"oooo"), Row(448, Of(Id), b"oooo"), Row(447, Of(Byte), b"oooo"),
    Row(452, Role, b"oooo"), Row(1, Of(Id), b"oooo"), Row(78, Of(Count), b"o-o-"),
    Row(79, Of(Id), b"o-o-"), Row(80, Of(Qty), b"o-o-"), Row(63, Of(Code(b"0123456789")), b"o-o-"),
    Row(64, Of(Day), b"o-o-"), Row(21, Of(Code(b"123")), b"o-o-"), Row(18, Of(ExecInst), b"o-o-"),
    Row(110, Of(Qty), b"o-o-"), Row(111, Of(Qty), b"o-o-"), Row(100, Of(Id), b"o-o-"),
    Row(386, Of(Count), b"o-o-"), Row(336, Of(Id), b"o-o-"), Row(55, Of(Id), b"RRRR"),
    Row(65, Of(Id), b"oooo"), Row(48, Of(Id), b"oooo"), Row(22, Of(Code(b"123456789")), b"oooo"),
    Row(167, Of(SecurityType), b"oooo"), Row(200, Month, b"oooo"), Row(541, Of(Day), b"oooo"),
    Row(207, Of(Id), b"oooo"), Row(54, Of(Code(b"123456")), b"RRRR"), Row(114, Of(Flag), b"o-o-"),
    Row(60, Of(Stamp), b"RRR-"), Row(38, Of(Qty), b"RoR-"), Row(40, Of(Code(b"12345B")), b"R-R-"),
    Row(44, Of(Price), b"o-o-"), Row(99, Of(Price), b"o-o-"), Row(15, Of(Currency), b"o-o-"),
    Row(59, Of(Code(b"01234567")), b"o-o-"), Row(168, Of(Stamp), b"o-o-"),
    Row(432, Of(Day), b"o-o-"), Row(126, Of(Stamp), b"o-o-"), Row(528, Of(Byte), b"o-o-"),
    Row(77, Of(Code(b"OC")), b"o-o-"), Row(58, Of(Text), b"ooo-"),
    Row(49, Of(Any), b"oooo"), Row(56, Of(Any), b"oooo"), Row(34, Of(Any), b"oooo"),
    Row(43, Of(Any), b"oooo"), Row(97, Of(Flag), b"oooo"), Row(52, Of(Any), b"oooo"),
    Row(122, Of(Any), b"oooo"), Row(35, Of(Any), b"oooo"), Row(50, Of(Any), b"oooo"),
    Row(57, Of(Any), b"oooo"), Row(142, Of(Any), b"oooo"), Row(143, Of(Any), b"oooo"),
    Row(347, Of(Any), b"oooo"), Row(369, Of(Any), b"oooo"), Row(523, Passed, b"oooo"),
    Row(802, Passed, b"oooo"), Row(803, Passed, b"oooo"), Row(0, Of(Unknown), b"----"),
];

const NONE: usize = 60;
const TAGS: usize = 804;

const fn slot(tag: u32) -> usize {
    let mut i = 0;
    while ROWS[i].0 != tag {
        i += 1;
    }
    i
}

const fn bit(tag: u32) -> u64 {
    1 << slot(tag)
}

/// The places of the rows of each message by their tags, and the set of those that are required.
static TABLES: [([u8; TAGS], u64); 4] = {
    let mut tables = [([NONE as u8; TAGS], 0); 4];
    let mut column = 0;
    while column < 4 {
        let mut i = 0;
        while i < NONE {
            if ROWS[i].2[column] != b'-' {
                tables[column].0[ROWS[i].0 as usize] = i as u8;
            }
            if ROWS[i].2[column] == b'R' {
                tables[column].1 |= 1 << i;
            }
            i += 1;
        }
        column += 1;
    }
    tables
};

const MEMBERS: u64 = bit(448) | bit(447) | bit(452) | bit(79) | bit(80) | bit(336);
const PASSED: u64 = bit(523) | bit(802) | bit(803);
const ONCE: u64 = !(MEMBERS | PASSED | 1 << NONE);
const CONTENT: u64 = (bit(49) - 1) & !MEMBERS;
const CARRIED: u64 = bit(49) | bit(56) | bit(34) | bit(43) | bit(97) | bit(52) | bit(122);

/// What a value is to its kind, but for a month beside its date.
fn judge(kind: &Kind, value: &[u8]) -> Mark {
    match kind {
        Of(kind) => judge_plain(kind, value),
        _ if value.is_empty() => Wrong(EMPTY),
        Role if value.len() > 10 || !are_digits(value) => Wrong(FORM),
        Role => good_or(Wrong(RANGE), digits_value(value) <= 1_000_000_000),
        Month | Passed => Good,
    }
}

/// What the fields of one request say. It is used for one request after another.
pub struct Request44 {
    seen: u64,
    fields: [Span; ROWS.len()],
    /// The lines of each group, each with its fields in the order of the table.
    parties: Vec<[Option<Span>; 3]>,
    allocs: Vec<[Option<Span>; 2]>,
    sessions: Vec<Span>,
    /// A group whose lines may go on: its tag, and the place of its count and what that says.
    open: Option<(u32, usize, Option<usize>)>,
}

impl Request44 {
    pub fn new() -> Request44 {
        let fields = [Span::default(); ROWS.len()];
        let (parties, allocs, sessions) = (Vec::new(), Vec::new(), Vec::new());
        Request44 { seen: 0, fields, parties, allocs, sessions, open: None }
    }

    /// The value of a tag, which is empty where there is none.
    fn value<'a, const TAG: u32>(&self, body: &'a [u8]) -> &'a [u8] {
        let slot = const { slot(TAG) };
        if self.seen & 1 << slot == 0 { b"" } else { self.fields[slot].value(body) }
    }

    fn lines(&self, group: u32) -> usize {
        match group {
            453 => self.parties.len(),
            78 => self.allocs.len(),
            _ => self.sessions.len(),
        }
    }

    /// Judges the count of a group that ends.
    fn end_group(&mut self, first: &mut First) {
        if let Some((group, place, said)) = self.open.take() {
            if said != Some(self.lines(group)) {
                first.keep(Stage::Order, place, Reason(group, 16));
            }
        }
    }

    /// Takes a field where a group is open, or a member of one anywhere.
    fn take_in_group(&mut self, tag: u32, set: u64, span: Span, first: &mut First) {
        let group = match tag {
            _ if set & (MEMBERS | PASSED) == 0 => 0,
            79 | 80 => 78,
            336 => 386,
            _ => 453,
        };
        if self.open.is_some_and(|open| open.0 != group) {
            self.end_group(first);
        }
        if group == 0 || set & PASSED != 0 {
            return;
        }
        let place = usize::from(span.0);
        if self.open.is_none() {
            return first.keep(Stage::Order, place, Reason(tag, 15));
        }
        let is_again = match (tag, self.parties.last_mut(), self.allocs.last_mut()) {
            (448, ..) => {
                self.parties.push([Some(span), None, None]);
                false
            }
            (79, ..) => {
                self.allocs.push([Some(span), None]);
                false
            }
            (336, ..) => {
                self.sessions.push(span);
                false
            }
            (447, Some(line), _) => line[1].replace(span).is_some(),
            (452, Some(line), _) => line[2].replace(span).is_some(),
            (80, _, Some(line)) => line[1].replace(span).is_some(),
            _ => true,
        };
        if is_again {
            first.keep(Stage::Order, place, Reason(tag, 15));
        } else if matches!(tag, 448 | 79 | 336) && self.lines(group) > MAX_LINES {
            first.keep(Stage::Order, place, Reason(group, 5));
        }
    }

    /// Reads a body as a message of this column of the table: its first fault, or what FIX 5.0 SP2
    /// cannot say, or `Fine`.
    pub fn read(&mut self, body: &[u8], column: usize) -> Finding {
        let (slots, required) = &TABLES[column];
        self.parties.clear();
        self.allocs.clear();
        self.sessions.clear();
        self.open = None;
        let mut first = First(Stage::None, 0, Fine);
        let mut before: (u32, &[u8]) = (u32::MAX, b"");
        let (mut at, mut count, mut seen) = (0, 0, 0u64);
        while at < body.len() {
            if count == MAX_FIELDS {
                return Reason(0, 5);
            }
            let (tag, start, end) = match field_at(body, at, before) {
                Ok(field) => field,
                Err(finding) => return finding,
            };
            let value = &body[start..end];
            let slot = slots.get(tag as usize).map_or(NONE, |slot| usize::from(*slot));
            let set = 1 << slot;
            let span = Span(at as u16, start as u16, end as u16);
            if self.open.is_some() || set & MEMBERS != 0 {
                self.take_in_group(tag, set, span, &mut first);
            }
            if seen & set & ONCE != 0 {
                first.keep(Stage::Twice, at, Reason(tag, 13));
            }
            seen |= set;
            self.fields[slot] = span;
            match judge(&ROWS[slot].1, value) {
                Good | Drops => {}
                Outside => first.keep(Stage::Counterpart, at, NoCounterpart(tag)),
                Wrong(reason) => first.keep(Stage::Value, at, Reason(tag, reason)),
                Opens => self.open = Some((tag, at, number_in(value))),
            }
            before = (tag, value);
            at = end + 1;
            count += 1;
        }
        self.end_group(&mut first);
        self.seen = seen;
        if seen & bit(541) == 0 && seen & bit(200) != 0 && !is_month(self.value::<200>(body)) {
            let place = self.fields[const { slot(200) }].0;
            first.keep(Stage::Counterpart, usize::from(place), NoCounterpart(200));
        }
        let roles = if self.parties.iter().any(|line| line[2].is_none()) { bit(452) } else { 0 };
        let missing = required & !seen | roles;
        if missing != 0 {
            let slot = missing.trailing_zeros() as usize;
            first.keep(Stage::Missing, slot, Reason(ROWS[slot].0, 1));
        }
        if first.2 == Fine { self.lack(body, column) } else { first.2 }
    }

    /// The first of the tags 40, 59, 528 and 452 that has no counterpart, or `Fine`.
    fn lack(&self, body: &[u8], column: usize) -> Finding {
        let order_type = self.value::<40>(body);
        let roles: &[usize] = if column % 2 == 0 { &[3, 1, 4] } else { &[3, 1] };
        if matches!(order_type, b"5" | b"B") {
            NoCounterpart(40)
        } else if self.value::<59>(body) == b"7" && !matches!(order_type, b"1" | b"2") {
            NoCounterpart(59)
        } else if !matches!(self.value::<528>(body), b"" | b"A" | b"I" | b"P") {
            NoCounterpart(528)
        } else if self.parties.iter().any(|line| !roles.contains(&role_of(line, body))) {
            NoCounterpart(452)
        } else {
            Fine
        }
    }

    /// Writes what the fields mean as a body of FIX 5.0 SP2; `false` where that is too long.
    pub fn write(&self, body: &[u8], column: usize, up: &mut Vec<u8>) -> bool {
        up.clear();
        up.extend_from_slice(self.fields[const { slot(35) }].field(body));
        for i in bits(self.seen & CARRIED) {
            up.extend_from_slice(self.fields[i].field(body));
        }
        let content = up.len();
        let added = if column % 2 == 0 { bit(21) } else { 0 };
        let date = self.value::<541>(body);
        let dated = if date.is_empty() { 0 } else { bit(200) };
        for i in bits(self.seen & CONTENT | added | dated) {
            let Row(tag, kind, _) = &ROWS[i];
            let value = if self.seen & 1 << i == 0 { b"" } else { self.fields[i].value(body) };
            match tag {
                453 => write_parties(&self.parties, body, up),
                78 if !self.allocs.is_empty() => {
                    push_number(up, b"78=", self.allocs.len() as u64, b"\x01");
                    for [account, shares] in &self.allocs {
                        up.extend_from_slice(account.unwrap_or_default().field(body));
                        if let Some(shares) = shares {
                            push_decimal(up, b"80=", shares.value(body));
                        }
                    }
                }
                386 if !self.sessions.is_empty() => {
                    push_number(up, b"386=", self.sessions.len() as u64, b"\x01");
                    for session in &self.sessions {
                        up.extend_from_slice(session.field(body));
                    }
                }
                78 | 386 => {}
                21 if value.is_empty() => push_field(up, b"21=", b"1"),
                200 if !date.is_empty() => push_field(up, b"200=", &date[..6]),
                111 => push_decimal(up, b"1138=", value),
                _ if matches!(kind, Of(Qty | Price)) => {
                    push_decimal(up, self.fields[i].name(body), value)
                }
                _ => up.extend_from_slice(self.fields[i].field(body)),
            }
        }
        up.len() - content <= MAX_CONTENT && up.len() <= MAX_BODY
    }
}

/// The role of a party.
fn role_of(line: &[Option<Span>; 3], body: &[u8]) -> usize {
    digits_value(line[2].unwrap_or_default().value(body))
}

/// Writes the first party of each of the roles 3, 1 and 4.
pub fn write_parties(parties: &[[Option<Span>; 3]], body: &[u8], out: &mut Vec<u8>) {
    let first = [3, 1, 4].map(|role| (role, parties.iter().find(|l| role_of(l, body) == role)));
    let count = first.iter().filter(|(_, line)| line.is_some()).count();
    if count > 0 {
        push_number(out, b"453=", count as u64, b"\x01");
    }
    for (role, line) in first {
        if let Some([Some(id), ..]) = line {
            push_field(out, b"448=", id.value(body));
            push_number(out, b"447=D\x01452=", role as u64, b"\x01");
        }
    }
}
