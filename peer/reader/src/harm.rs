//! Damage: each function makes a file wrong in one chosen way, or tries to.

use crate::books::{self, changed_by, Way, WRONG_WAYS};
use crate::descent::{read, Inside, Number};
use crate::judge;
use crate::layout::{layout, name_of, Rule, Type, CARRIED, LAYOUTS, NOT_CARRIED};
use crate::make::{characters, encode, numbered, record, set_key, sound, value, Rec, Wish};
use crate::random::Random;
use crate::routing::{self, Shape};

/// Every field that can break its type or values: all but the record type and the binary parts.
pub fn field_targets() -> Vec<(u8, u8)> {
    let mut targets = Vec::new();
    for layout in &LAYOUTS {
        targets.extend(layout.fields.iter().skip(1).map(|field| (layout.code, field.number)));
        let judged = layout.parts.iter().filter(|part| part.kind != Type::Binary);
        targets.extend(judged.map(|part| (layout.code, part.number)));
    }
    targets
}

/// The types that may follow a type (document 01, "Which record may follow", and request 2 with reading 25); 0 is the
/// start. After a 61 and its views it matters whether that 61 stands directly in a cash letter.
pub fn followers(inside: Inside, last: u8) -> &'static [u8] {
    let direct = inside == Inside::CreditInLetter;
    match last {
        0 => &[1],
        1 => &[10],
        10 | 70 => &[20, 61, 90],
        20 => &[25, 31, 61],
        25 | 26 => &[26, 27, 28, 50, 25, 61, 70],
        27 | 28 => &[28, 50, 25, 61, 70],
        31 | 32 => &[32, 33],
        33 => &[34, 35, 50, 31, 61, 70],
        34 | 35 => &[35, 50, 31, 61, 70],
        50 => &[52],
        52 if direct => &[50, 54, 61, 20, 90],
        52 => &[50, 54, 25, 31, 61, 70],
        54 if direct => &[50, 61, 20, 90],
        54 => &[50, 25, 31, 61, 70],
        61 if direct => &[61, 50, 20, 90],
        61 => &[61, 50, 25, 31, 70],
        90 => &[10, 99],
        _ => &[],
    }
}

/// What records of a type can belong to.
fn insides_of(code: u8) -> &'static [Inside] {
    use Inside::{Bundle, CreditInBundle, CreditInLetter, File, Item, Letter};
    match code {
        0 | 1 | 99 => &[File],
        10 | 90 => &[Letter],
        20 | 70 => &[Bundle],
        50 | 52 | 54 => &[Item, CreditInBundle, CreditInLetter],
        61 => &[CreditInBundle, CreditInLetter],
        _ => &[Item],
    }
}

/// What each record of a sound file, or of its beginning, belongs to, from their types alone.
pub fn insides(codes: impl IntoIterator<Item = u8>) -> Vec<Inside> {
    let mut in_bundle = false;
    let mut holder = Inside::File;
    let mut inside = |code: u8| {
        match code {
            20 => in_bundle = true,
            70 => in_bundle = false,
            25 | 31 => holder = Inside::Item,
            61 => holder = Inside::credit(in_bundle),
            _ => {}
        }
        match insides_of(code) {
            [one] => *one,
            _ => holder,
        }
    };
    codes.into_iter().map(&mut inside).collect()
}

fn insides_in(records: &[Rec]) -> Vec<Inside> {
    insides(records.iter().map(|record| record.code))
}

/// A pair of types, and what the first belongs to.
pub type Pair = (Inside, u8, u8);

fn all_pairs() -> impl Iterator<Item = Pair> {
    let starts = [0].into_iter().chain(CARRIED).filter(|last| *last != 99);
    let settled = starts.flat_map(|last| insides_of(last).iter().map(move |inside| (*inside, last)));
    settled.flat_map(|(inside, last)| CARRIED.into_iter().map(move |next| (inside, last, next)))
}

fn is_lawful((inside, last, next): Pair) -> bool {
    followers(inside, last).contains(&next)
}

/// Pairs that are lawful in a bundle of the item's kind, or of no kind yet, and else are not.
fn hangs_on_kind((inside, last, next): Pair) -> bool {
    inside != Inside::CreditInLetter && matches!((last, next), (52 | 54 | 61, 25 | 31))
}

/// Every pair that a file may hold.
pub fn lawful_pairs() -> Vec<Pair> {
    all_pairs().filter(|pair| is_lawful(*pair)).collect()
}

/// Every pair that can be refused at PLACE: the unlawful ones, and an item of the other kind after a view or a 61.
pub fn place_targets() -> Vec<Pair> {
    all_pairs().filter(|pair| hangs_on_kind(*pair) || !is_lawful(*pair)).collect()
}

/// Every control field that is added up (clauses 31, 34, 35).
pub fn total_targets() -> Vec<(u8, u8)> {
    let fields: [(u8, &[u8]); 3] = [(70, &[2, 3, 4, 5, 6, 7]), (90, &[2, 3, 4, 5, 8, 9]), (99, &[2, 3, 4, 5, 8])];
    fields.iter().flat_map(|(code, fields)| fields.iter().map(move |field| (*code, *field))).collect()
}

/// The index of some record of this type.
pub fn some(random: &mut Random, records: &[Rec], code: u8) -> Option<usize> {
    let found: Vec<usize> = (0..records.len()).filter(|at| records[*at].code == code).collect();
    if found.is_empty() {
        None
    } else {
        Some(random.pick(&found))
    }
}

/// A sound file that holds the type, and the index of one such record.
pub fn holding(random: &mut Random, wish: &Wish, code: u8) -> (Vec<Rec>, usize) {
    loop {
        let records = sound(random, wish);
        if let Some(at) = some(random, &records, code) {
            return (records, at);
        }
    }
}

/// A sound file that holds the type inside this, and the index of one such record.
fn holding_in(random: &mut Random, wish: &Wish, inside: Inside, code: u8) -> (Vec<Rec>, usize) {
    loop {
        let records = sound(random, wish);
        let insides = insides_in(&records);
        let fits = |at: &usize| records[*at].code == code && insides[*at] == inside;
        let found: Vec<usize> = (0..records.len()).filter(fits).collect();
        if !found.is_empty() {
            let at = random.pick(&found);
            return (records, at);
        }
    }
}

// ---- fields ----

/// A file with one field of one record made wrong, most often surely wrong.
pub fn field_file(random: &mut Random, (code, number): (u8, u8)) -> Vec<Rec> {
    let (mut records, at) = holding(random, &Wish::holding(code), code);
    harm_field(random, &mut records[at], number);
    records
}

/// Gives a field a wrong or doubtful value.
pub fn harm_field(random: &mut Random, record: &mut Rec, number: u8) {
    let layout = record.layout();
    match layout.fields.iter().find(|field| field.number == number) {
        Some(field) => {
            let before = field.of(&record.body).to_vec();
            let surely = random.percent(80);
            let mut wrong = doubtful(random, field.rule, &before);
            for _ in 0..40 {
                if !surely || !judge::field(field, &wrong) {
                    break;
                }
                wrong = doubtful(random, field.rule, &before);
            }
            record.set(number, &wrong);
            if layout.code == 52 && (10..=13).contains(&number) && random.percent(40) {
                clip(random, record, number);
            }
        }
        None => harm_part(random, record, number),
    }
}

/// Clipping origin 0 beside a coordinate that is not 0000 (clause 22.9).
fn clip(random: &mut Random, record: &mut Rec, number: u8) {
    for coordinate in 10..=13 {
        record.set(coordinate, b"0000");
    }
    record.set(9, b"0");
    record.set_number(number, random.between(1, 9999) as u64);
}

/// A wrong value's many sorts.
fn doubtful(random: &mut Random, rule: Rule, before: &[u8]) -> Vec<u8> {
    if rule != Rule::TypeAlone && random.percent(35) {
        return near_rule(random, rule, before);
    }
    let mut bytes = before.to_vec();
    let place = random.below(bytes.len());
    match random.below(12) {
        0 => bytes[place] = random.byte(),
        1 => bytes.fill(b' '),
        2 => bytes[place] = random.pick(&[0x00, 0x1F, 0x7F, 0x80, 0xA0, 0xFF, 0x0A]),
        3 => bytes[place] = random.pick(b"AZazOIlNnY@[`{"),
        4 => bytes[place] = b' ',
        5 => bytes[place] = random.pick(b"*?-/$#"),
        6 => bytes[place] = random.digit(),
        7 => bytes = characters(random, Type::AlphanumericSpecial, before.len()),
        8 => bytes.fill(random.pick(b"09AZ!~\x1f\x7f")),
        9 => bytes = characters(random, Type::Numeric, before.len()),
        10 => bytes[place] = random.pick(b"/:!~\x1f\x7f"),
        _ => bytes[place] = bytes[place].wrapping_add(1),
    }
    bytes
}

/// Values just outside, or just inside, a date, a time or a routing number.
fn near_rule(random: &mut Random, rule: Rule, before: &[u8]) -> Vec<u8> {
    let dates: [&[u8]; 12] = [
        b"19921231",
        b"19930100",
        b"19930001",
        b"19931301",
        b"19930132",
        b"20050230",
        b"99991231",
        b"00000000",
        b"2005123 ",
        b" 0050101",
        b"2005 101",
        b"200501??",
    ];
    match rule {
        Rule::Date if random.percent(50) => {
            let year = random.pick(&["1992", "1993", "2005", "9999", "0000"]);
            let (month, day) = (random.pick(&["00", "01", "12", "13"]), random.pick(&["00", "01", "31", "32", "99"]));
            format!("{year}{month}{day}").into_bytes()
        }
        Rule::Date => random.pick(&dates).to_vec(),
        Rule::Routing(_) => {
            let shape = random.pick(&routing::SHAPES);
            routing::of_shape(random, shape)
        }
        Rule::HourMinute => random.pick(&[b"2400", b"2360", b"2359", b"0000", b"24  "]).to_vec(),
        Rule::HourMinuteSecond => random.pick(&[b"240000", b"236000", b"235960", b"235959", b"2359  "]).to_vec(),
        Rule::OneOrTwoDigits => random.pick(&[b"0 ", b" 0", b"A0", b"0A", b"-1", b"??"]).to_vec(),
        Rule::Codes(_) => match random.below(3) {
            0 => before.to_ascii_lowercase(),
            1 => characters(random, Type::Numeric, before.len()),
            _ => (0..before.len()).map(|_| b'A' + random.below(26) as u8).collect(),
        },
        Rule::Range(low, high) => near_range(random, (low, high), before.len()),
        Rule::Ranges(ranges) => {
            let range = random.pick(ranges);
            near_range(random, range, before.len())
        }
        _ => before.to_vec(),
    }
}

fn near_range(random: &mut Random, (low, high): (u64, u64), size: usize) -> Vec<u8> {
    let near = random.pick(&[low, high, low.saturating_sub(1), high + 1]);
    let digits = format!("{near:0size$}");
    digits.as_bytes()[digits.len() - size..].to_vec()
}

/// Every routing field with every shape of contents.
pub fn routing_targets() -> Vec<(u8, u8, Shape)> {
    let of_field = |code: u8, number: u8| routing::SHAPES.map(|shape| (code, number, shape));
    routing::fields().into_iter().flat_map(|(code, field)| of_field(code, field.number)).collect()
}

/// A file with contents of this shape in a routing field, and sound beside it. The 52s repeat their header's field 4 byte by byte, so
/// where the contents pass, the header and all 52s that repeat it change together.
pub fn routing_file(random: &mut Random, (code, number, shape): (u8, u8, Shape)) -> Vec<Rec> {
    let (mut records, at) = holding(random, &Wish::holding(code), code);
    let contents = routing::of_shape(random, shape);
    records[at].set(number, &contents);
    let passes = routing::passes(layout(code).field(number), shape);
    if passes && matches!((code, number), (10, 4) | (20, 4) | (52, 2)) {
        let header = header_of(&records, at);
        records[header].set(4, &contents);
        let under: Vec<usize> = (header..records.len())
            .filter(|at| records[*at].code == 52 && header_of(&records, *at) == header)
            .collect();
        under.into_iter().for_each(|at| records[at].set(2, &contents));
    }
    records
}

/// The header whose fields the 52 at this place repeats: its bundle's, or for a 61 outside a bundle its cash letter's. A header is its own.
fn header_of(records: &[Rec], at: usize) -> usize {
    let before = |code: u8| (0..=at).rev().find(|at| records[*at].code == code);
    let (letter, bundle, closed) = (before(10), before(20), before(70));
    match records[at].code {
        10 => at,
        _ if bundle > letter && bundle > closed => bundle.expect("a bundle header"),
        _ => letter.expect("a cash letter header"),
    }
}

/// Puts a wrong byte into a variable part, giving it a length first if it has none.
fn harm_part(random: &mut Random, record: &mut Rec, number: u8) {
    let (start, length) = filled_part(random, record, number);
    let place = start + random.below(length);
    record.body[place] = match random.below(4) {
        0 => random.byte(),
        1 => random.pick(b"A?!+,.:"),
        _ => random.pick(&[0x00, 0x1F, 0x7F, 0x80, 0xFF]),
    };
}

/// Where a variable part stands and how long it is, in a record that is sound; one without a length gets one first.
pub fn filled_part(random: &mut Random, record: &mut Rec, number: u8) -> (usize, usize) {
    let layout = record.layout();
    let part = layout.parts.iter().find(|part| part.number == number).expect("a part");
    let start = judge::part_start(layout, &record.body, part);
    let mut length = judge::part_length(layout, &record.body, part) as usize;
    if length == 0 {
        length = random.between(1, 9);
        let bytes = characters(random, part.kind, length);
        record.body.splice(start..start, bytes);
        record.set_number(part.sized_by, length as u64);
    }
    (start, length)
}

// ---- order ----

/// A file in which `next` stands where it may not, right after `last`.
pub fn place_file(random: &mut Random, pair: Pair) -> Vec<Rec> {
    let (inside, last, next) = pair;
    let (mut records, at) = loop {
        let records = place_base(random, pair);
        if last == 0 {
            break (records, 0);
        }
        let insides = insides_in(&records);
        let other_kind = |at: usize| kind_before(&records, at).is_some_and(|kind| kind != next);
        let fits = |at: &usize| {
            records[*at].code == last && insides[*at] == inside && (!hangs_on_kind(pair) || other_kind(*at))
        };
        let found: Vec<usize> = (0..records.len()).filter(fits).collect();
        if !found.is_empty() {
            let at = random.pick(&found) + 1;
            break (records, at);
        }
    };
    let stranger = match some(random, &records, next) {
        Some(found) if random.percent(50) => records[found].clone(),
        _ => record(random, next, 20),
    };
    let stranger = worse(random, stranger);
    if random.percent(70) {
        records.insert(at, stranger);
    } else {
        records[at] = stranger;
    }
    records
}

/// A sound file to harm in this way; a 61 comes before its bundle's first item or behind one.
fn place_base(random: &mut Random, pair: Pair) -> Vec<Rec> {
    let (inside, last, next) = pair;
    let mut wish = if last == 0 { Wish::any() } else { Wish::inside(inside, last) };
    match next {
        25 if hangs_on_kind(pair) => wish.kinds = &[31],
        31 if hangs_on_kind(pair) => wish.kinds = &[25],
        _ => {}
    }
    sound(random, &wish)
}

/// The kind of the items that stand in the same bundle up to this place.
fn kind_before(records: &[Rec], at: usize) -> Option<u8> {
    let of_bundle = records[..=at].iter().rev().take_while(|record| record.code != 20);
    of_bundle.map(|record| record.code).find(|code| matches!(code, 25 | 31))
}

/// The record as it was, or with a wrong length or field of its own: PLACE still comes first.
fn worse(random: &mut Random, mut record: Rec) -> Rec {
    match random.below(6) {
        0 => {
            let sort = random.below(3);
            harm_length(random, &mut record, sort);
        }
        1 => {
            let field = random.between(2, record.layout().fields.len()) as u8;
            harm_field(random, &mut record, field);
        }
        2 => record.body.truncate(2),
        _ => {}
    }
    record
}

/// Drops, doubles, swaps, moves or inserts whole records.
pub fn shuffle(random: &mut Random, records: &mut Vec<Rec>) {
    if records.len() < 2 {
        return;
    }
    let at = random.below(records.len());
    match random.below(6) {
        0 => {
            records.remove(at);
        }
        1 => {
            let twin = records[at].clone();
            records.insert(at, twin);
        }
        2 => {
            let other = random.below(records.len());
            records.swap(at, other);
        }
        3 => {
            let moved = records.remove(at);
            let to = random.below(records.len() + 1);
            records.insert(to, moved);
        }
        4 => {
            let code = random.pick(&CARRIED);
            let stranger = record(random, code, 20);
            records.insert(at, stranger);
        }
        _ => {
            let other = random.between(at, (at + 4).min(records.len()));
            records.drain(at..other);
        }
    }
}

// ---- links ----

/// The LINK rules of document 01 and request 2.
#[derive(Clone, Copy, Debug)]
pub enum Link {
    RecordNumber(u8),
    Tenth(u8),
    Beyond(u8),
    OwedAt(u8),
    /// A field of a 52's key, by what the 52 belongs to.
    Key(Inside, u8),
    /// The same field as the other header has it: the cash letter's in a bundle, a bundle's outside.
    OtherHeader(Inside, u8),
    /// The sequence number of another item or 61.
    OtherSequence(Inside),
    Name(Inside, u8),
    /// Directly behind the 10, or behind a 61.
    BundleUnderN(Inside),
    ViewUnderE(Inside),
    /// Without anything in the cash letter, or with 61s.
    NoBundle(Inside, u8),
    NoView(u8, u8),
}

pub fn link_targets() -> Vec<Link> {
    use Inside::{CreditInBundle, CreditInLetter, Item, Letter};
    let mut targets = vec![Link::Tenth(26), Link::Tenth(32)];
    targets.extend([26, 28, 32, 35].map(Link::RecordNumber));
    targets.extend([26, 27, 28, 32, 33, 34, 35].map(Link::Beyond));
    targets.extend([25, 31, 50, 61, 70].map(Link::OwedAt));
    for inside in [Item, CreditInBundle, CreditInLetter] {
        targets.extend(key_fields(inside).iter().map(|field| Link::Key(inside, *field)));
        targets.extend([2, 3].map(|field| Link::OtherHeader(inside, field)));
        targets.extend([7, 8].map(|field| Link::Name(inside, field)));
        targets.extend([Link::OtherSequence(inside), Link::ViewUnderE(inside)]);
    }
    for inside in [Letter, CreditInLetter] {
        targets.extend([b'E', b'I', b'F'].map(|content| Link::NoBundle(inside, content)));
        targets.push(Link::BundleUnderN(inside));
    }
    for at in [25, 31, 61, 70] {
        targets.extend([b'I', b'F'].map(|content| Link::NoView(content, at)));
    }
    targets
}

/// The fields of a 52's key that are compared.
pub fn key_fields(inside: Inside) -> &'static [u8] {
    match inside {
        Inside::CreditInLetter => &[2, 3, 5],
        _ => &[2, 3, 4, 5],
    }
}

/// A file that breaks one link.
pub fn link_file(random: &mut Random, link: Link) -> Vec<Rec> {
    match link {
        Link::RecordNumber(code) => wrong_number(random, code),
        Link::Tenth(code) => tenth(random, code),
        Link::Beyond(code) => {
            let (mut records, at) = holding(random, &Wish::holding(code), code);
            let head = (0..at).rev().find(|at| matches!(records[*at].code, 25 | 31)).expect("the item");
            let stated = (at - head - 1) as u64;
            set_count(&mut records[head], stated);
            records
        }
        Link::OwedAt(code) => owed_at(random, code),
        Link::Key(inside, field) => {
            let (mut records, at) = holding_in(random, &Wish::inside(inside, 52), inside, 52);
            other_key(random, &mut records[at], field);
            records
        }
        Link::OtherHeader(inside, field) => other_header(random, inside, field),
        Link::OtherSequence(inside) => other_sequence(random, inside),
        Link::Name(inside, field) => {
            let (mut records, at) = holding_in(random, &Wish::inside(inside, 52), inside, 52);
            records[at - 1].set(10, b"1");
            records[at].set(7, b"AUTHENTICATOR  1");
            records[at].set(field, b"                ");
            records
        }
        Link::BundleUnderN(inside) => bundle_under_n(random, inside),
        Link::ViewUnderE(inside) => view_under_e(random, inside),
        Link::NoBundle(inside, content) => no_bundle(random, inside, content),
        Link::NoView(content, at) => no_view(random, content, at),
    }
}

fn wrong_number(random: &mut Random, code: u8) -> Vec<Rec> {
    let wish = Wish { addenda: (1, 4), ..Wish::holding(code) };
    let (mut records, at) = holding(random, &wish, code);
    let right = judge::number(records[at].get(2));
    let wrong = random.pick(&[right + 1, right.saturating_sub(1), 0, random.clone().draw() % 100]);
    records[at].set_number(2, wrong);
    records
}

fn tenth(random: &mut Random, code: u8) -> Vec<Rec> {
    let wish = Wish { addenda: (10, 11), items: (1, 1), bundles: (1, 1), ..Wish::holding(code) };
    let (mut records, at) = holding(random, &wish, code);
    let first = (0..=at).rev().find(|at| records[*at].code != code).expect("the item") + 1;
    let digit = random.digit();
    records[first + 9].set(2, &[digit]);
    records
}

/// A 52 that repeats the header of the other level: the cash letter's in a bundle, the last bundle's outside. What a wrong reader would
/// take for right.
fn other_header(random: &mut Random, inside: Inside, field: u8) -> Vec<Rec> {
    let wish = Wish { contents: b"IF", ..Wish::inside(inside, 52) };
    let other = if inside == Inside::CreditInLetter { 20 } else { 10 };
    let of_header = field + 2; // 52.2 is field 4 of either header, 52.3 field 5
    loop {
        let (mut records, at) = holding_in(random, &wish, inside, 52);
        let header = records[..at].iter().rev().find(|record| record.code == other);
        let contents = header.map(|header| header.get(of_header).to_vec());
        if let Some(contents) = contents.filter(|contents| *contents != records[at].get(field)) {
            records[at].set(field, &contents);
            return records;
        }
    }
}

/// A sequence number is field 7 of a 25 or 31, field 8 of a 61.
pub fn sequence_field(code: u8) -> u8 {
    if code == 61 {
        8
    } else {
        7
    }
}

/// A 52 that repeats the sequence number of the item or 61 before its own.
fn other_sequence(random: &mut Random, inside: Inside) -> Vec<Rec> {
    loop {
        let (mut records, at) = holding_in(random, &Wish::inside(inside, 52), inside, 52);
        let heads: Vec<usize> = (0..at).filter(|at| matches!(records[*at].code, 25 | 31 | 61)).collect();
        if heads.len() < 2 {
            continue;
        }
        let before = &records[heads[heads.len() - 2]];
        let contents = before.get(sequence_field(before.code)).to_vec();
        if contents != records[at].get(5) {
            records[at].set(5, &contents);
            return records;
        }
    }
}

/// A cash letter with a bundle directly behind its 10, or behind a 61, that says N.
fn bundle_under_n(random: &mut Random, inside: Inside) -> Vec<Rec> {
    let credits = if inside == Inside::CreditInLetter { 100 } else { 0 };
    let wish = Wish { letters: (1, 1), contents: b"EIF", credits, ..Wish::any() };
    relabelled(random, &wish, b"Nn")
}

/// A view in a cash letter of E: an item's, a 61's in a bundle, or one's outside.
fn view_under_e(random: &mut Random, inside: Inside) -> Vec<Rec> {
    if inside == Inside::Item {
        let wish = Wish { credits: 0, ..Wish::holding(50) };
        return relabelled(random, &wish, b"Ee");
    }
    let wish = Wish { contents: b"E", ..Wish::inside(inside, 61) };
    let (mut records, at) = holding_in(random, &wish, inside, 61);
    let (detail, mut data) = (record(random, 50, 0), record(random, 52, 20));
    let header = records[header_of(&records, at)].clone();
    set_key(&mut data, &header, records[at].get(8));
    records.splice(at + 1..at + 1, [detail, data]);
    records
}

/// A cash letter without a bundle that says E, I or F: empty, or with 61s directly in it.
fn no_bundle(random: &mut Random, inside: Inside, content: u8) -> Vec<Rec> {
    let credits = if inside == Inside::CreditInLetter { 100 } else { 0 };
    let credit_views = if content == b'E' { 0 } else { 40 };
    let wish = Wish { contents: b"N", letters: (1, 2), credits, credit_views, ..Wish::any() };
    let mut records = sound(random, &wish);
    let at = some(random, &records, 10).expect("a cash letter");
    records[at].set(8, &[either_case(random, content)]);
    records
}

fn set_count(head: &mut Rec, count: u64) {
    head.set_number(if head.code == 25 { 12 } else { 8 }, count);
}

fn either_case(random: &mut Random, letter: u8) -> u8 {
    if random.percent(30) {
        letter.to_ascii_lowercase()
    } else {
        letter
    }
}

/// Where the records of the item that starts here end, addenda alone or views too.
fn item_end(records: &[Rec], head: usize, views_too: bool) -> usize {
    let addendum = |code: u8| matches!(code, 26..=28 | 32..=35);
    let view = |code: u8| matches!(code, 50 | 52 | 54);
    let inside = |code: u8| addendum(code) || (views_too && view(code));
    (head + 1..records.len()).find(|at| !inside(records[*at].code)).unwrap_or(records.len())
}

/// An item that states more addenda than it has, so that the record after them is at fault.
fn owed_at(random: &mut Random, code: u8) -> Vec<Rec> {
    let mut wish = Wish { items: (1, 3), letters: (1, 1), ..Wish::any() };
    wish.contents = if code == 50 { b"IF" } else { b"E" };
    match code {
        25 => (wish.kinds, wish.items) = (&[25], (2, 3)),
        31 => (wish.kinds, wish.items) = (&[31], (2, 3)),
        61 => wish.credits = 60,
        _ => {}
    }
    loop {
        let mut records = sound(random, &wish);
        let heads: Vec<usize> = (0..records.len())
            .filter(|at| matches!(records[*at].code, 25 | 31))
            .filter(|at| records[item_end(&records, *at, false)].code == code)
            .collect();
        if heads.is_empty() {
            continue;
        }
        let head = random.pick(&heads);
        let had = (item_end(&records, head, false) - head - 1) as u64;
        let more = had + random.pick(&[1, 1, 2, 10, 99 - had]);
        set_count(&mut records[head], more.min(99));
        return records;
    }
}

/// Another sound value in a field of a 52's item reference key.
fn other_key(random: &mut Random, data: &mut Rec, number: u8) {
    let field = data.layout().field(number);
    let before = data.get(number).to_vec();
    let mut other = match random.below(3) {
        0 => before.iter().map(|byte| byte ^ if byte.is_ascii_alphabetic() { 0x20 } else { 0 }).collect(),
        1 => {
            let mut turned = before.clone();
            turned.rotate_right(1);
            turned
        }
        _ => before.clone(),
    };
    while other == before || !judge::field(field, &other) {
        other = value(random, field);
    }
    data.set(number, &other);
}

/// A sound file with another letter in some cash letter's field 8.
fn relabelled(random: &mut Random, wish: &Wish, letters: &[u8]) -> Vec<Rec> {
    let mut records = sound(random, wish);
    let at = some(random, &records, 10).expect("a cash letter");
    let letter = random.pick(letters);
    records[at].set(8, &[letter]);
    records
}

/// An item without a view in a cash letter of I or F.
fn no_view(random: &mut Random, content: u8, at: u8) -> Vec<Rec> {
    let mut wish = Wish { items: (1, 3), letters: (1, 2), contents: b"I", ..Wish::any() };
    match at {
        25 => (wish.kinds, wish.items) = (&[25], (2, 3)),
        31 => (wish.kinds, wish.items) = (&[31], (2, 3)),
        61 => wish.credits = 60,
        _ => {}
    }
    loop {
        let mut records = sound(random, &wish);
        for header in records.iter_mut().filter(|record| record.code == 10) {
            header.set(8, &[either_case(random, content)]);
        }
        let heads: Vec<usize> = (0..records.len())
            .filter(|head| matches!(records[*head].code, 25 | 31))
            .filter(|head| records[item_end(&records, *head, true)].code == at)
            .collect();
        if heads.is_empty() {
            continue;
        }
        let head = random.pick(&heads);
        let (from, to) = (item_end(&records, head, false), item_end(&records, head, true));
        records.drain(from..to);
        return records;
    }
}

// ---- totals ----

/// A file with a wrong control field.
pub fn total_file(random: &mut Random, (code, field): (u8, u8)) -> Vec<Rec> {
    let (mut records, at) = holding(random, &Wish::holding(code), code);
    harm_total(random, &mut records[at], field);
    records
}

/// Gives a control field another number.
pub fn harm_total(random: &mut Random, control: &mut Rec, field: u8) {
    let size = control.layout().field(field).size() as u32;
    let before = control.get(field);
    let right = if judge::all_digits(before) { judge::number(before) } else { 0 };
    let most = 10u64.pow(size) - 1;
    let wrong = match random.below(6) {
        0 => right + 1,
        1 => right.saturating_sub(1),
        2 => 0,
        3 => most,
        4 => right + 10u64.pow(random.below(size as usize) as u32),
        _ => random.draw() % (most + 1),
    };
    control.set_number(field, wrong.min(most));
}

/// Every control field with every wrong way of counting 61s that can change it.
pub fn slip_targets() -> Vec<(u8, u8, Way)> {
    let of_way = |way: Way| changed_by(way).iter().map(move |(code, field)| (*code, *field, way));
    WRONG_WAYS.into_iter().flat_map(of_way).collect()
}

/// A file with one control field that states what a wrong way of counting 61s comes to.
pub fn slip_file(random: &mut Random, (code, field, way): (u8, u8, Way)) -> Vec<Rec> {
    let views = matches!(field, 5) && code != 99;
    let contents: &'static [u8] = match code {
        70 if views => b"IF",
        70 => b"EIF",
        _ if views => b"NIF",
        _ => b"NEIF",
    };
    let wish = Wish { contents, credits: 60, ..Wish::any() };
    loop {
        let mut records = sound(random, &wish);
        let bodies: Vec<&[u8]> = records.iter().map(|record| record.body.as_slice()).collect();
        let wrong = |at: usize| books::stated(&bodies, at, field, way);
        let slipped =
            |at: &usize| records[*at].code == code && wrong(*at) != books::stated(&bodies, *at, field, Way::Right);
        let found: Vec<(usize, Option<u128>)> = (0..records.len()).filter(slipped).map(|at| (at, wrong(at))).collect();
        if found.is_empty() {
            continue;
        }
        let (at, number) = random.pick(&found);
        records[at].set_number(field, number.expect("a sum") as u64);
        return records;
    }
}

// ---- order of checks ----

/// Two faults in one record.
#[derive(Clone, Copy, Debug)]
pub enum Both {
    Totals(u8, u8, u8),
    Links(Inside, u8, u8),
    BeyondAndNumber(u8),
    PileOn,
}

/// Every pair of totals of a control record, every pair of links of a 52, and whatever else falls together.
pub fn both_targets() -> Vec<Both> {
    let mut targets = Vec::new();
    for (code, low) in total_targets() {
        let higher = total_targets().into_iter().filter(|(of, high)| *of == code && *high > low);
        targets.extend(higher.map(|(_, high)| Both::Totals(code, low, high)));
    }
    // Field 4 of a 52 outside a bundle is no link: the other field answers.
    let links = [2, 3, 4, 5, 7, 8];
    for inside in [Inside::Item, Inside::CreditInBundle, Inside::CreditInLetter] {
        for low in links {
            targets.extend(links.into_iter().filter(|high| *high > low).map(|high| Both::Links(inside, low, high)));
        }
    }
    targets.extend([26, 28, 32, 35].map(Both::BeyondAndNumber));
    let found = targets.len();
    targets.extend(std::iter::repeat_n(Both::PileOn, found));
    targets
}

/// A file with two faults in one record.
pub fn both_file(random: &mut Random, both: Both) -> Vec<Rec> {
    match both {
        Both::Totals(code, low, high) => {
            let (mut records, at) = holding(random, &Wish::holding(code), code);
            for field in [low, high] {
                surely_wrong_total(&mut records[at], field);
            }
            records
        }
        Both::Links(inside, low, high) => {
            let (mut records, at) = holding_in(random, &Wish::inside(inside, 52), inside, 52);
            for field in [low, high] {
                wrong_link(random, &mut records, at, field);
            }
            records
        }
        Both::BeyondAndNumber(code) => {
            let mut records = link_file(random, Link::Beyond(code));
            if let Some(at) = at_fault(&records) {
                let wrong = judge::number(records[at].get(2)) + 1;
                records[at].set_number(2, wrong);
            }
            records
        }
        Both::PileOn => pile_on(random),
    }
}

fn surely_wrong_total(control: &mut Rec, field: u8) {
    let before = control.get(field);
    let size = before.len() as u32;
    let wrong = if judge::all_digits(before) { judge::number(before) + 1 } else { 10u64.pow(size) - 1 };
    control.set_number(field, wrong);
}

/// Breaks one link of the 52 at this place.
fn wrong_link(random: &mut Random, records: &mut [Rec], at: usize, field: u8) {
    if field == 7 || field == 8 {
        records[at - 1].set(10, b"1");
        records[at].set(field, b"                ");
    } else {
        other_key(random, &mut records[at], field);
    }
}

/// The index of the record at fault, by the reader.
fn at_fault(records: &[Rec]) -> Option<usize> {
    let answer = read(&encode(records)).answer;
    let found = (answer.record as usize).checked_sub(1)?;
    (answer.number != Number::Accepted && found < records.len()).then_some(found)
}

/// A wrong file, and more damage to the very record at fault.
fn pile_on(random: &mut Random) -> Vec<Rec> {
    let turn = random.below(10_000);
    let mut records = match random.below(5) {
        0 => field_file(random, pick(&field_targets(), turn)),
        1 => total_file(random, pick(&total_targets(), turn)),
        2 => length_file(random, CARRIED[turn % CARRIED.len()], turn % 3),
        _ => link_file(random, pick(&link_targets(), turn)),
    };
    for _ in 0..random.between(1, 2) {
        let Some(at) = at_fault(&records) else {
            return records;
        };
        let code = records[at].code;
        let whole = records[at].told.is_none() && records[at].body.len() >= records[at].layout().fixed;
        let totals: Vec<u8> = total_targets().iter().filter(|(of, _)| *of == code).map(|(_, field)| *field).collect();
        if whole && !totals.is_empty() && random.percent(60) {
            surely_wrong_total(&mut records[at], random.pick(&totals));
        } else if whole && code == 52 && at > 0 && records[at - 1].code == 50 && random.percent(60) {
            let field = random.pick(&[2, 3, 4, 5, 7, 8]);
            wrong_link(random, &mut records, at, field);
        } else {
            one_record(random, &mut records, at);
        }
    }
    records
}

fn pick<T: Copy>(targets: &[T], turn: usize) -> T {
    targets[turn % targets.len()]
}

// ---- lengths and types ----

/// A file with a wrong length at some record of this type.
pub fn length_file(random: &mut Random, code: u8, sort: usize) -> Vec<Rec> {
    let (mut records, at) = holding(random, &Wish::holding(code), code);
    harm_length(random, &mut records[at], sort);
    records
}

/// The sorts of wrong lengths.
pub const LENGTH_SORTS: usize = 9;

pub fn harm_length(random: &mut Random, record: &mut Rec, sort: usize) {
    let length = record.body.len();
    let fixed = record.layout().fixed;
    match sort {
        0 => record.body.truncate(random.between(2, fixed - 1)),
        1 => {
            let more = random.between(1, 6);
            let fill = random.pick(b" 0A\0");
            record.body.extend(std::iter::repeat_n(fill, more));
        }
        2 => record.body.truncate(fixed - 1),
        3 => record.body.truncate(random.below(2)),
        4 => record.told = Some(length as u32 + random.between(1, 90) as u32),
        5 => record.told = Some((length - random.between(1, length)) as u32),
        6 => harm_part_length(random, record),
        7 => record.told = Some((length as u32).swap_bytes()),
        _ => record.told = Some(hostile(random)),
    }
}

/// A stated part length that does not fit, or a part that is longer than stated.
fn harm_part_length(random: &mut Random, record: &mut Rec) {
    let layout = record.layout();
    if layout.parts.is_empty() {
        record.body.push(b' ');
        return;
    }
    let part = &layout.parts[random.below(layout.parts.len())];
    let sizing = layout.field(part.sized_by);
    let most = 10u64.pow(sizing.size() as u32) - 1;
    let stated = sizing.of(&record.body);
    let right = if judge::all_digits(stated) { judge::number(stated) } else { 0 };
    let wrong = random.pick(&[right + 1, right.saturating_sub(1), most, 0, right + 10]);
    record.set_number(part.sized_by, wrong.min(most));
}

/// Length fields that invite overflow.
pub fn hostile(random: &mut Random) -> u32 {
    let chosen = [
        0xFFFF_FFFF,
        0xFFFF_FFFE,
        0xFFFF_FFFC,
        0xFFFF_FFFB,
        0x8000_0000,
        0x7FFF_FFFF,
        0x7FFF_FFFC,
        0x1000_0000,
        0x0FFF_FFFF,
        0x0100_0000,
        0x5000_0000,
        0x0001_0000,
        0x0000_8000,
        1,
        0,
    ];
    random.pick(&chosen)
}

/// Two characters that name no carried type.
pub fn strange_type(random: &mut Random, turn: usize) -> [u8; 2] {
    if turn.is_multiple_of(2) {
        return name_of(NOT_CARRIED[turn / 2 % NOT_CARRIED.len()]);
    }
    match random.below(4) {
        0 => name_of(random.below(100) as u8),
        1 => [random.byte(), random.byte()],
        2 => random.pick(&[*b"2 ", *b" 1", *b"1\0", *b"O1", *b"5O", *b"00", *b"  ", [0xF0, 0xF1]]),
        _ => {
            let mut near = name_of(random.pick(&CARRIED));
            near[random.below(2)] = random.byte();
            near
        }
    }
}

// ---- several at once ----

/// Any damage to any record.
pub fn anything(random: &mut Random, records: &mut Vec<Rec>) {
    if records.is_empty() {
        return;
    }
    let at = random.below(records.len());
    one_record(random, records, at);
}

/// Damage to the record at this place.
pub fn one_record(random: &mut Random, records: &mut Vec<Rec>, at: usize) {
    let code = records[at].code;
    let whole = records[at].body.len() >= records[at].layout().fixed;
    match random.below(10) {
        0..=3 if whole => {
            let count = layout(code).fields.len();
            let field = random.between(2, count) as u8;
            harm_field(random, &mut records[at], field);
        }
        4 if whole && code == 52 => {
            let field = random.pick(&[2, 3, 4, 5]);
            other_key(random, &mut records[at], field);
        }
        4 | 5 if whole && matches!(code, 70 | 90 | 99) => {
            let fields: Vec<u8> =
                total_targets().iter().filter(|(of, _)| *of == code).map(|(_, field)| *field).collect();
            let field = random.pick(&fields);
            harm_total(random, &mut records[at], field);
        }
        4 | 5 if whole && matches!(code, 10 | 25 | 26 | 28 | 31 | 32 | 35 | 50 | 61) => {
            loosen(random, &mut records[at]);
        }
        6 => {
            let sort = random.below(LENGTH_SORTS);
            if whole {
                harm_length(random, &mut records[at], sort);
            }
        }
        7 => {
            let strange = strange_type(random, at);
            let named = records[at].body.len().min(2);
            records[at].body.splice(0..named, strange);
        }
        _ => shuffle(random, records),
    }
}

/// Another sound value where others hang on it: counts, record numbers, the content of a cash letter, a signature, a 61's usage.
fn loosen(random: &mut Random, record: &mut Rec) {
    match record.code {
        25 | 31 => set_count(record, random.below(5) as u64),
        26 | 28 | 32 | 35 => record.set_number(2, random.below(5) as u64),
        10 => record.set(8, &[random.pick(b"NEIFneif")]),
        61 => record.set(2, &[random.pick(b"123456789 9")]),
        _ => record.set(10, b"1"),
    }
}

/// Ten of a one-digit numbered addendum, or a hundred addenda: edges of the counts.
pub fn long_run(random: &mut Random, kind: u8, first: usize, second: usize, stated: u64, content: u8) -> Vec<Rec> {
    let contents: &'static [u8] = if content == b'E' { b"E" } else { b"I" };
    let kinds: &'static [u8] = if kind == 25 { &[25] } else { &[31] };
    let wish = Wish {
        letters: (1, 1),
        bundles: (1, 1),
        items: (1, 1),
        addenda: (0, 0),
        extras: 0,
        contents,
        kinds,
        ..Wish::no_credits()
    };
    let mut records = sound(random, &wish);
    let head = records.iter().position(|record| record.code == kind).expect("the item");
    let mut leading = Vec::new();
    numbered(random, &mut leading, kind + 1, first);
    let mut trailing = Vec::new();
    numbered(random, &mut trailing, if kind == 25 { 28 } else { 35 }, second);
    let middle = if kind == 25 { head + 1 } else { head + 2 };
    let added = leading.len() + trailing.len();
    records.splice(middle..middle, trailing);
    records.splice(head + 1..head + 1, leading);
    set_count(&mut records[head], stated);
    let control = records.len() - 1;
    let count = judge::number(records[control].get(3)) + added as u64;
    records[control].set_number(3, count);
    records
}
