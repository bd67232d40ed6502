//! The slow reader (request 12) on the files of the comparison: the proved one with the answers and tables of the first, its own sources likewise, and the steps that `icl follow` shows beside those that its
//! sources go.

use peer_reader::descent::{Answer, Inside, Number, Reading};
use peer_reader::make::{encode, sound, Wish};
use peer_reader::random::Random;
use peer_reader::stream::set_image;
use x9180::follow::steps_to;

use proved::{abi, Difference};

use crate::check::{readings_agree, Reader};

/// So many bytes are read slowly.
pub const MOST: usize = 65_536;

/// The proved slow reader.
const SLOW: Reader = Reader { name: "proved, slow", read: abi::read_slowly };

/// In how many tables a file is read slowly, which takes far longer than by the first reader.
#[derive(Clone, Copy, Debug, PartialEq, Eq)]
pub enum Slowly {
    /// In none.
    Not,
    /// In one of those that the first reader was lent, drawn by chance.
    Once,
    /// In each of them.
    InEach,
}

/// The slow reader on a file that the first has read into tables of these lengths: answer and table are what the independent reader says of both, but that SIZE comes at another length, and the way there is the
/// one that is shown. Gives the number of its steps.
pub fn check(
    file: &[u8],
    reading: &Reading,
    lengths: &[usize],
    slowly: Slowly,
    random: &mut Random,
) -> Result<u64, Difference> {
    let not_read = Reading {
        answer: Answer::refused(Number::Size, 0, 0, 0),
        rows: Vec::new(),
        why: "not so many bytes as are read slowly",
        last: 0,
        inside: Inside::File,
    };
    let reading = if (1..=MOST).contains(&file.len()) { reading } else { &not_read };
    let chosen = match slowly {
        Slowly::Not => return Ok(0),
        Slowly::Once => std::slice::from_ref(&lengths[random.below(lengths.len())]),
        Slowly::InEach => lengths,
    };
    for length in chosen {
        readings_agree(&SLOW, file, reading, *length, random)?;
    }
    goes_as_shown(file, reading)
}

/// The slow reader's own sources on a file: the answer and the rows are those of this reading, and every function at its offset with its figures is one of the steps that are shown.
fn goes_as_shown(file: &[u8], reading: &Reading) -> Result<u64, Difference> {
    let answer = reading.answer.listed();
    let rows = match reading.answer.number {
        Number::Accepted => reading.rows.as_flattened(),
        _ => &[],
    };
    let mut table = vec![0; rows.len()];
    let (traced, notes) = slow_traced::read_slowly(file, &mut table);
    if traced != answer || table != rows {
        return Err(format!(
            "the slow reader's sources\n  answer       {traced:?}\n  independent  {answer:?}, rows the same: {}",
            table == rows
        ));
    }
    let steps = match reading.answer.number {
        Number::Size => Vec::new(),
        _ => steps_to(file, reading.answer.offset),
    };
    let shown = steps.iter().map(|step| (step.function().name, step.offset(), step.so_far().numbers()));
    let gone = notes.iter().map(|note| (note.function, note.offset as u64, note.numbers()));
    if shown.clone().eq(gone.clone()) {
        return Ok(steps.len() as u64);
    }
    let at = shown.clone().zip(gone.clone()).take_while(|(shown, gone)| shown == gone).count();
    let (shown, gone) = (shown.clone().nth(at), gone.clone().nth(at));
    Err(format!("step {} of the slow reader\n  its sources  {gone:?}\n  shown        {shown:?}", at + 1))
}

/// Files at the limit, in each set: none, exactly as many bytes as are read slowly, one more, and as many records as fit.
pub fn at_the_limit() -> Vec<(&'static str, Vec<u8>)> {
    let mut random = Random::new(12);
    let wish = Wish {
        letters: (1, 1),
        bundles: (1, 1),
        items: (1, 1),
        addenda: (0, 0),
        views: (1, 1),
        extras: 0,
        contents: b"I",
        kinds: &[25],
        image: 0,
        ..Wish::no_credits()
    };
    let mut records = sound(&mut random, &wish);
    let left = MOST - encode(&records).len();
    let mut of_length = |length: usize| {
        records.iter_mut().filter(|record| record.code == 52).for_each(|data| set_image(data, length, b'5'));
        encode(&records)
    };
    let (exact, more) = (of_length(left), of_length(left + 1));
    assert_eq!((exact.len(), more.len()), (MOST, MOST + 1));
    let wish = Wish { items: (774, 774), views: (0, 0), contents: b"E", ..wish };
    let deep = encode(&sound(&mut random, &wish));
    assert!((MOST - 90..=MOST).contains(&deep.len()), "{} bytes", deep.len());
    let cut = more[..MOST].to_vec();
    vec![("none", Vec::new()), ("exact", exact), ("one-more", more), ("deep", deep), ("cut", cut)]
}
