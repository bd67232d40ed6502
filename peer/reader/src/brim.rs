//! Files whose 61s fill a control field to the brim, or pass it, or pass 64 bits. Control fields have 12, 14 and 16 digits, a 61's amount
//! has 14; a sum past them cannot be stated, so that the answer is TOTAL whatever stands there (readings 29 and 32). What is
//! stated is what a reader would take for right that cuts its sums, stops them at all nines, or lets them wrap.

use crate::make::{record, Rec};
use crate::random::Random;

/// The largest amount of a 61.
const MOST: u128 = 99_999_999_999_999;

/// What is stated of a sum.
#[derive(Clone, Copy, Debug, PartialEq, Eq)]
pub enum Stated {
    /// Its last digits, as many as the field has.
    Cut,
    /// All nines.
    Nines,
    /// What 64 bits leave of it.
    Wrapped,
}

/// A file in the making: bodies with their lengths, and how many.
struct Maker {
    out: Vec<u8>,
    records: u64,
}

impl Maker {
    fn begin(random: &mut Random) -> Maker {
        let mut maker = Maker { out: Vec::new(), records: 0 };
        maker.put(&record(random, 1, 0).body);
        maker
    }

    fn put(&mut self, body: &[u8]) {
        self.out.extend((body.len() as u32).to_be_bytes());
        self.out.extend(body);
        self.records += 1;
    }

    /// A record with these contents in some of its fields.
    fn control(&mut self, random: &mut Random, code: u8, fields: &[(u8, u128)]) {
        let mut control = record(random, code, 0);
        fields.iter().for_each(|(field, number)| set(&mut control, *field, *number));
        self.put(&control.body);
    }

    fn letter_header(&mut self, random: &mut Random, content: u8) {
        let mut header = record(random, 10, 0);
        header.set(8, &[content]);
        self.put(&header.body);
    }

    /// 61s of these amounts, all debits or all credits.
    fn credits(&mut self, random: &mut Random, debit: bool, amounts: &[u128]) {
        let mut credit = credit(random, debit);
        for amount in amounts {
            set(&mut credit, 7, *amount);
            self.put(&credit.body);
        }
    }

    /// So many 61s of the same amount, and one of another.
    fn many_credits(&mut self, random: &mut Random, debit: bool, count: usize, amount: u128, last: u128) {
        let mut credit = credit(random, debit);
        set(&mut credit, 7, amount);
        let start = self.out.len();
        self.put(&credit.body);
        let one = self.out.split_off(start);
        self.out.extend(one.repeat(count));
        self.records += count as u64 - 1;
        set(&mut credit, 7, last);
        self.put(&credit.body);
    }

    /// The 90 of a cash letter without views; which side, how many, and what is stated of their cents.
    fn letter_control(&mut self, random: &mut Random, bundles: u128, debit: bool, count: usize, cents: u128) {
        let (items, amount) = on_side(debit, (3, 4), (8, 9));
        let mut fields = vec![(2, bundles), (3, 0), (4, 0), (5, 0), (8, 0), (9, 0)];
        fields.extend([(items, count as u128), (amount, cents)]);
        self.control(random, 90, &fields);
    }

    fn file_control(mut self, random: &mut Random, letters: usize, debit: bool, count: usize, cents: u128) -> Vec<u8> {
        let records = u128::from(self.records + 1);
        let (amount, _) = on_side(debit, (5, 0), (8, 0));
        let fields = [(2, letters as u128), (3, records), (4, count as u128), (5, 0), (8, 0), (amount, cents)];
        self.control(random, 99, &fields);
        self.out
    }
}

fn on_side<T>(debit: bool, of_debit: T, of_credit: T) -> T {
    if debit {
        of_debit
    } else {
        of_credit
    }
}

/// A 61 without a view: usage 9 for a debit, any other or none for a credit.
fn credit(random: &mut Random, debit: bool) -> Rec {
    let mut credit = record(random, 61, 0);
    let usage = random.pick(b"12345678 ");
    credit.set(2, &[if debit { b'9' } else { usage }]);
    credit
}

/// Puts a number into a field; one too long for it loses its high digits.
fn set(record: &mut Rec, field: u8, number: u128) {
    let size = record.layout().field(field).size() as u32;
    record.set_number(field, (number % 10u128.pow(size)) as u64);
}

/// What is stated of a sum in a field of so many digits.
fn stated(sum: u128, digits: u32, how: Stated) -> u128 {
    let beyond = 10u128.pow(digits);
    match how {
        Stated::Cut => sum % beyond,
        Stated::Nines => beyond - 1,
        Stated::Wrapped => sum % (1 << 64),
    }
}

/// Amounts that add up to a sum, none above what a 61 can have.
fn split(random: &mut Random, sum: u128) -> Vec<u128> {
    let mut amounts = Vec::new();
    let mut left = sum;
    while left > MOST || (left > 0 && random.percent(60)) {
        let part = match random.below(3) {
            0 => left / 10,
            1 => left.min(MOST),
            _ => u128::from(random.draw()) % (left + 1),
        };
        amounts.push(part.min(MOST));
        left -= part.min(MOST);
    }
    amounts.push(left);
    amounts
}

/// The small files: the cents of a 70, a 90 or a 99, debits or credits, exactly all nines (sound), or more and stated wrong.
pub const SMALL_SORTS: usize = 18;

pub fn small(random: &mut Random, sort: usize) -> Vec<u8> {
    let (level, debit, way) = (sort % 3, sort / 3 % 2 == 1, sort / 6);
    let digits = [12, 14, 16][level];
    let nines = 10u128.pow(digits) - 1;
    let more = [1, 1, 10, 1 + u128::from(random.draw() % 1_000_000)];
    let sum = if way == 0 { nines } else { nines + random.pick(&more) };
    let found = stated(sum, digits, if way == 1 { Stated::Cut } else { Stated::Nines });
    match level {
        0 => full_bundle(random, debit, sum, found),
        1 => full_letter(random, debit, sum, found),
        _ => full_file(random, debit, sum, found),
    }
}

/// A bundle of 61s alone that come to this sum.
fn full_bundle(random: &mut Random, debit: bool, sum: u128, found: u128) -> Vec<u8> {
    let amounts = split(random, sum);
    let mut maker = Maker::begin(random);
    maker.letter_header(random, b'E');
    maker.control(random, 20, &[]);
    maker.credits(random, debit, &amounts);
    close_bundle(random, maker, debit, amounts.len(), amounts.len() as u128, found, sum)
}

/// 70, 90 and 99 behind a bundle of 61s; the 70 states these, the others the sum.
fn close_bundle(
    random: &mut Random,
    mut maker: Maker,
    debit: bool,
    count: usize,
    items: u128,
    cents: u128,
    sum: u128,
) -> Vec<u8> {
    let (count_field, amount_field) = on_side(debit, (2, 3), (6, 7));
    let mut fields = vec![(2, 0), (3, 0), (4, 0), (5, 0), (6, 0), (7, 0)];
    fields.extend([(count_field, items), (amount_field, cents)]);
    maker.control(random, 70, &fields);
    maker.letter_control(random, 1, debit, count, sum);
    maker.file_control(random, 1, debit, count, sum)
}

/// 61s directly in a cash letter that come to this sum.
fn full_letter(random: &mut Random, debit: bool, sum: u128, found: u128) -> Vec<u8> {
    let amounts = split(random, sum);
    let mut maker = Maker::begin(random);
    maker.letter_header(random, b'N');
    maker.credits(random, debit, &amounts);
    maker.letter_control(random, 0, debit, amounts.len(), found);
    maker.file_control(random, 1, debit, amounts.len(), sum)
}

/// Cash letters of one 61 each that come to this sum.
fn full_file(random: &mut Random, debit: bool, sum: u128, found: u128) -> Vec<u8> {
    let whole = (sum / MOST) as usize;
    let mut amounts = vec![MOST; whole];
    amounts.extend(split(random, sum % MOST));
    let mut maker = Maker::begin(random);
    for amount in &amounts {
        maker.letter_header(random, b'n');
        maker.credits(random, debit, &[*amount]);
        maker.letter_control(random, 0, debit, 1, *amount);
    }
    maker.file_control(random, amounts.len(), debit, amounts.len(), found)
}

/// A bundle of so many 61s, all debits or all credits, each of a cent or nothing. Four digits hold 9,999 of either side.
pub fn bundle_of_many(random: &mut Random, count: usize) -> Vec<u8> {
    let debit = random.percent(50);
    let amounts: Vec<u128> = (0..count).map(|_| random.below(2) as u128).collect();
    let mut maker = Maker::begin(random);
    maker.letter_header(random, b'I');
    maker.control(random, 20, &[]);
    maker.credits(random, debit, &amounts);
    let sum = amounts.iter().sum();
    close_bundle(random, maker, debit, count, count as u128, sum, sum)
}

/// How many 61s of the largest amount come to less than so many times 2^64, and what is then left to it. 184,467 of them are
/// 18,446,699,999,999,815,533, which 44,073,709,736,083 cents make 2^64.
fn up_to_64_bits(times: u128) -> (usize, u128) {
    let whole = times << 64;
    ((whole / MOST) as usize, whole % MOST)
}

/// What a sum is to have above 2^64: so much that a last amount can make it, and that a field can state it.
fn remainder(random: &mut Random, left: u128, digits: u32) -> u128 {
    let most = (MOST - left).min(10u128.pow(digits) - 1);
    match random.below(3) {
        0 => 0,
        1 => most,
        _ => u128::from(random.draw()) % (most + 1),
    }
}

/// 184,468 debits or credits directly in a cash letter. Their count fits, and what 64 bits leave of their sum has at most fourteen digits.
pub fn letter_past_64_bits(random: &mut Random, debit: bool, how: Stated) -> Vec<u8> {
    letter_past(random, debit, how, 1)
}

/// As many 61s as make the sum pass 64 bits so many times.
pub fn letter_past(random: &mut Random, debit: bool, how: Stated, times: u128) -> Vec<u8> {
    let (count, left) = up_to_64_bits(times);
    let above = remainder(random, left, 14);
    let sum = (times << 64) + above;
    let found = stated(sum, 14, how);
    let mut maker = Maker::begin(random);
    maker.letter_header(random, b'N');
    maker.many_credits(random, debit, count, MOST, left + above);
    maker.letter_control(random, 0, debit, count + 1, found);
    maker.file_control(random, 1, debit, count + 1, found)
}

/// 184,468 cash letters of one 61 each: every 90 is right, and the 99 states what 64 bits leave of the sum.
pub fn file_past_64_bits(random: &mut Random, debit: bool) -> Vec<u8> {
    let (count, left) = up_to_64_bits(1);
    let above = remainder(random, left, 14);
    let mut one = Maker { out: Vec::new(), records: 0 };
    one.letter_header(random, b'N');
    one.credits(random, debit, &[MOST]);
    one.letter_control(random, 0, debit, 1, MOST);
    let mut maker = Maker::begin(random);
    maker.out.extend(one.out.repeat(count));
    maker.records += one.records * count as u64;
    maker.letter_header(random, b'N');
    maker.credits(random, debit, &[left + above]);
    maker.letter_control(random, 0, debit, 1, left + above);
    maker.file_control(random, count + 1, debit, count + 1, above)
}

/// 184,468 debits or credits in one bundle. Their count passes four digits, so that field 2 is at fault before field 3, or 6 before 7:
/// the 70 states the last four digits of the one and what 64 bits leave of the other.
pub fn bundle_past_64_bits(random: &mut Random, debit: bool) -> Vec<u8> {
    let (count, left) = up_to_64_bits(1);
    let above = remainder(random, left, 12);
    let mut maker = Maker::begin(random);
    maker.letter_header(random, b'E');
    maker.control(random, 20, &[]);
    maker.many_credits(random, debit, count, MOST, left + above);
    close_bundle(random, maker, debit, count + 1, count as u128 + 1, above, above)
}

#[cfg(test)]
mod tests {
    use super::*;
    use crate::descent::read;

    /// By hand: 2^64 = 18,446,744,073,709,551,616.
    #[test]
    fn the_count_past_64_bits() {
        assert_eq!(up_to_64_bits(1), (184_467, 44_073_709_736_083));
        assert_eq!(184_467 * MOST + 44_073_709_736_083, 1 << 64);
    }

    fn answer(file: &[u8]) -> Vec<u64> {
        read(file).answer.listed()[..3].to_vec()
    }

    /// Number, record and field of every small file: the 70, the 90 or the 99 is at fault, or none.
    #[test]
    fn small_files_are_sound_or_refused_at_the_field() {
        for turn in 0..SMALL_SORTS * 20 {
            let sort = turn % SMALL_SORTS;
            let file = small(&mut Random::for_file(3, turn as u64), sort);
            let reading = read(&file);
            let field = [[7, 9, 8], [3, 4, 5]][sort / 3 % 2][sort % 3];
            let expected = if sort < 6 { [0, 0] } else { [9, field] };
            assert_eq!([reading.answer.listed()[0], reading.answer.listed()[2]], expected, "sort {sort}");
        }
    }

    #[test]
    fn sums_past_64_bits_are_refused_at_the_field() {
        let random = &mut Random::new(4);
        assert_eq!(answer(&letter_past_64_bits(random, false, Stated::Wrapped)), [9, 184_471, 9]);
        assert_eq!(answer(&letter_past_64_bits(random, true, Stated::Wrapped)), [9, 184_471, 4]);
        assert_eq!(answer(&letter_past_64_bits(random, true, Stated::Nines)), [9, 184_471, 4]);
        assert_eq!(answer(&file_past_64_bits(random, false)), [9, 553_406, 8]);
        assert_eq!(answer(&file_past_64_bits(random, true)), [9, 553_406, 5]);
        assert_eq!(answer(&bundle_past_64_bits(random, false)), [9, 184_472, 6]);
        assert_eq!(answer(&bundle_past_64_bits(random, true)), [9, 184_472, 2]);
        assert_eq!(answer(&bundle_of_many(random, 9_999))[0], 0);
        assert_eq!(answer(&bundle_of_many(random, 10_000))[0], 9);
    }
}
