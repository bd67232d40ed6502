//! One file put to a side with what it is lent: the number returned, the answer, every byte of the buffer and every number of the list, with
//! guards on either side of both.

use peer_reader::random::Random;

use crate::salvage::{salvage, Answer, Outcome, LIST_ROW};

/// One that salvages: the independent side itself, a wrong one of the tests, or the proved library.
pub trait Side {
    /// The call of reading 66: the number returned, and the answer.
    fn salvage(&self, file: &[u8], out: &mut [u8], list: &mut [u64]) -> Result<(u64, Answer), String>;
}

/// The independent side as one that is compared.
pub struct Independent;

impl Side for Independent {
    fn salvage(&self, file: &[u8], out: &mut [u8], list: &mut [u64]) -> Result<(u64, Answer), String> {
        let answer = salvage(file, out, list);
        Ok((answer[0], answer))
    }
}

/// A difference, in words.
pub type Difference = String;

/// What is lent: so many bytes, and so many numbers.
pub type Lent = (usize, usize);

/// Bytes before and behind the buffer, and numbers before and behind the list, that no call may touch.
const GUARD: usize = 64;

/// The side beside the outcome that is expected of the file.
pub fn put(
    side: &dyn Side,
    file: &[u8],
    expected: &Outcome,
    (bytes, numbers): Lent,
    random: &mut Random,
) -> Result<(), Difference> {
    let (byte, number) = (random.byte(), random.draw() | 1 << 63);
    let (mut their_out, mut their_list) = (vec![byte; GUARD + bytes + GUARD], vec![number; GUARD + numbers + GUARD]);
    let (mut our_out, mut our_list) = (their_out.clone(), their_list.clone());
    let right = expected.fill(&mut our_out[GUARD..GUARD + bytes], &mut our_list[GUARD..GUARD + numbers]);
    let (lent_out, lent_list) = (&mut their_out[GUARD..GUARD + bytes], &mut their_list[GUARD..GUARD + numbers]);
    let (returned, answer) = side.salvage(file, lent_out, lent_list)?;
    let lent = format!("{bytes} bytes and {numbers} numbers lent");
    if answer != right || returned != right[0] {
        return Err(format!(
            "{lent}\n  compared    returns {returned}, answer {answer:?}\n  independent answer {right:?}"
        ));
    }
    if let Some(at) = (0..our_list.len()).find(|at| our_list[*at] != their_list[*at]) {
        let place = at as i64 - GUARD as i64;
        return Err(format!(
            "{lent}, answer {answer:?}: number {place} of the list (row {}, number {})\n  compared    {}\n  independent {} (untouched is {number})",
            place / LIST_ROW as i64 + 1,
            place % LIST_ROW as i64 + 1,
            their_list[at],
            our_list[at]
        ));
    }
    if let Some(at) = (0..our_out.len()).find(|at| our_out[*at] != their_out[*at]) {
        return Err(format!(
            "{lent}, answer {answer:?}: byte {} of the buffer\n  compared    {}\n  independent {} (untouched is {byte})",
            at as i64 - GUARD as i64,
            their_out[at],
            our_out[at]
        ));
    }
    Ok(())
}

/// What a side comes to with more than enough room, for the promises.
pub fn outcome_by(side: &dyn Side, file: &[u8]) -> Result<Outcome, Difference> {
    // A new control of 89 bytes behind every header of 84, and the 99: less than three times the bytes.
    let mut out = vec![0; 3 * file.len() + 400];
    let mut list = vec![0; (file.len() / 6 + 1) * LIST_ROW];
    let (_, answer) = side.salvage(file, &mut out, &mut list)?;
    if answer[0] != 0 {
        return Ok(Outcome::refused(answer));
    }
    out.truncate(answer[3] as usize);
    // No row but the first has offset 0, so lend zeros (reading 66).
    let rows: Vec<[u64; LIST_ROW]> = list.chunks_exact(LIST_ROW).map(|row| row.try_into().expect("four")).collect();
    let count = 1 + rows[1..].iter().take_while(|row| row[0] != 0).count();
    Ok(Outcome { answer, file: out, list: rows[..count].to_vec() })
}
