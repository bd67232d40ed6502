//! What `--help` and `--version` print.

use std::ffi::{OsStr, OsString};

pub const GENERAL: &str = "\
icl: checks X9.100-180 image cash letters, lists what they hold, takes out their pictures and looks into them,
makes the letters out, salvages torn ones, and keeps a day book of them

use:
  icl check [--explain] [--csv | --json] FILE...
  icl rows [--walk] [--csv | --json] FILE...
  icl tree [--depth letter|bundle|item] [--walk] [--csv | --json] FILE...
  icl picture [--force] FILE OFFSET -o OUT
  icl pictures [--force] FILE... DIR
  icl tags FILE
  icl tags --tiff IMAGE...
  icl draft [--force] FILE -o DIR
  icl write [--force] DIR -o FILE
  icl salvage [--force] FILE -o OUT
  icl salvage --list [--csv | --json] FILE [-o OUT [--force]]
  icl book new BOOK [--rows N] [--places N]
  icl book enter BOOK FILE --number N --owner 1|2
  icl book withdraw BOOK ENTRY --owner 1|2
  icl book tidy BOOK
  icl book show BOOK ENTRY --owner 1|2
  icl book list [--csv | --json] BOOK --owner 1|2
  icl book totals BOOK --owner 1|2
  icl book grow BOOK [--rows N] [--places N]
  icl book convert OLD NEW [--owner 1|2]
  icl find [--csv | --json] FILE... --sequence N | --amount A | --routing R | --account TEXT
           [--pictures DIR [--force]]
  icl show FILE RECORD|OFFSET
  icl follow [--all] FILE
  icl summary [--csv | --json] FILE...
  icl diff A B
  icl completion bash
  icl manual
  icl COMMAND --help
  icl --version

FILE is the name of a file, or - for standard input; it has at most 268435456 bytes (256 MiB). Its
characters are ASCII, or EBCDIC (code page 037) where its bytes 5 and 6 are F0 F1; they are shown as text.
FILE... is one or several; a folder among them stands for the files in it, in the order of their names, without
hidden ones and without those of folders in it. Several are worked on at once, and told in the order given.
After -- every word is a name, even one that begins with a dash.
Exit status: 0 all accepted and done; 1 a file, picture, draft or day book was refused, or the two files of
icl diff differ; 2 something could not be read or written, letter.json is no draft, or the command was not
understood. 2 wins over 1.
With NO_COLOR set there are no colours.
";

const CHECK: &str = "\
icl check [--explain] [--csv | --json] FILE...

Prints a line for each file:
  accepted records R letters L bundles B items I views V debit D     (D in cents)
  refused N record R field F offset O                                (the first fault found)
With several files, or a folder, each line is preceded by the file's name. Below the line of a file in EBCDIC stands
  character set: EBCDIC (code page 037)
A file of more than 268435456 bytes is refused with number 1, and told on standard error besides.
  --explain   adds the fault in plain words: the number's name, the record and field with their
              names in the standard, the bytes found there, and what they disagree with (in EBCDIC
              also a byte that is no character), and in the last line whether bytes that follow could
              mend the file; for an accepted file the debits and the credits it adds up to
  --csv, --json   for programs (docs/ICL.md): a row for each file, those that could not be read too

N is 1 SIZE, 2 ROOM, 3 CUT, 4 LENGTH, 5 TYPE, 6 PLACE, 7 FIELD, 8 LINK, 9 TOTAL, 10 OPEN or 11 AFTER.
Exit status: 0 all accepted, 1 some refused, 2 something could not be read.
";

const ROWS: &str = "\
icl rows [--walk] [--csv | --json] FILE...

Prints a row for each record of accepted files: the record's ordinal, its type, the offset of its
length field, its length, the ordinals of its cash letter, bundle and item (0 outside any), the amount
in cents (of an item, or the debits that the part which a control record closes adds up to), the name of
its kind. A credit (type 61) in a bundle is an item of it; one directly in a cash letter has bundle 0 and
item 0, and so have its views. With several files, or a folder, the file's name stands above.
  --walk      any file, a refused one too: the records that the lengths frame up to the first fault, and the
              fault in its place. The first line tells whether the file is accepted; nothing is said of what
              belongs to what, nor of sums
  --csv       comma separated, with a first line of column names (docs/ICL.md)
  --json      an array of objects, one on a line (docs/ICL.md)
Exit status: 0 accepted, 1 refused (told on standard error, with --walk in the list), 2 it could not be read.
";

const TREE: &str = "\
icl tree [--depth letter|bundle|item] [--walk] [--csv | --json] FILE...

Prints the cash letters, bundles, items, addenda and views of accepted files, each level with its own
debits and credits, and the routing numbers, dates and sequence numbers as they stand in the file. A credit
(type 61) in a bundle is one of its items; those directly in a cash letter stand between its bundles as
credit record 1, 2 and so on. With Record Usage Indicator 9 it is a debit adjustment and counts as a debit.
The offset beside a picture is the one that icl picture takes. Below the first line of a file in EBCDIC
stands its character set; its fields are shown translated. With several files, or a folder, the file's name
stands above.
  --depth D   no further down than the cash letters (letter), the bundles (bundle), or the items, without their
              addenda and views (item)
  --walk      any file, a refused one too: the records that the lengths frame up to the first fault, and the
              fault in its place, set in by their types alone. The first line tells whether the file is accepted;
              nothing is said of what belongs to what, nor of sums
  --csv, --json   for programs (docs/ICL.md): a row for each level
Exit status: 0 accepted, 1 refused (told on standard error, with --walk in the list), 2 it could not be read.
";

const PICTURE: &str = "\
icl picture [--force] FILE OFFSET -o OUT

Writes the picture of the Image View Data Record (type 52) whose four-byte length stands at OFFSET, a decimal
number as icl rows and icl tree print it. The record is judged alone, whatever else is wrong with the file.
  -o OUT      the file to write, or - for standard output; written to a temporary name and then renamed
  --force     overwrite OUT where it is there already
Exit status: 0 written, 1 refused (told on standard error), 2 something could not be read or written.
";

const PICTURES: &str = "\
icl pictures [--force] FILE... DIR

Writes the picture of every view of an accepted file into the folder DIR, made where it is missing, with a folder
for each cash letter and bundle, under the ordinals: letter-001/bundle-001/item-0001_view-01.tif. A credit (type 61)
in a bundle is one of its items. Those directly in a cash letter are counted by themselves, with views or without,
and their pictures are letter-001/credit-0001_view-01.tif and so on. Where a file has more of a kind than the digits
tell, all its names have as many digits as are needed: they always sort in the order of the file. The ending is the
one that the standard gives for the view's format (field 5 of its type 50 record), or img. A view without
image bytes gives an empty file. All pictures of a file are written under temporary names first and then renamed, so
that on any fault none of that file is left behind. With several files, or a folder, each file's pictures go into a
folder of its own name within DIR.
  --force     overwrite pictures that are there already; otherwise none is written if one is there
Exit status: 0 written, 1 refused (told on standard error), 2 something could not be read or written.
";

const TAGS: &str = "\
icl tags FILE
icl tags --tiff IMAGE...

Judges the tags of TIFF pictures by X9.100-181 (ANS X9.100-181-2007): the byte order mark, the number 42, the
first directory, its entries in ascending order, the tags that a picture must have with their types and values,
and that all of it lies within the picture. Not judged: optional tags, other tags, and the image itself. A
variance of Table 3 in a tag that is judged (several strips, Photometric Interpretation 1) is wrong here.

icl tags FILE does so for every view of an accepted file that is declared as TIFF of Group 4 (field 5 of its
type 50 record is 00), and prints a line for each, with its place as icl tree tells it:
  cash letter L, bundle B, item I, view V, at offset O: ok
  cash letter L, bundle B, item I, view V, at offset O: refused N tag T     (the first fault found)
A credit (type 61) directly in a cash letter is credit record C in place of bundle and item. N is 3 CUT,
18 TAGORDER or 19 TAGVALUE; T is the tag, or 0 for the header and for a part outside the picture. Lines below
tell the fault in plain words: the tag's name, what it holds, and what is asked. A view without image bytes is
refused as cut. The last lines count the views, and those that are declared otherwise and passed over.
  --tiff      the files are images: prints ok or refused N tag T for each, with the same lines below, and
              with several files the file's name before it
Exit status: 0 all right, 1 some tag is wrong, or FILE was refused (told on standard error), 2 something could
not be read, or an image has more than 268435456 bytes.
";

const DRAFT: &str = "\
icl draft [--force] FILE -o DIR

Writes the values of an accepted file as a text to be read and changed, DIR/letter.json, and its pictures and
other binary parts as files beside it. icl write makes the same file out of them (of a file in EBCDIC, its
copy in ASCII). The text is JSON: a list of records in the order of the file, each an object with
  \"type\"       the two digits of its type, and \"record\", the name of its kind
  its fields   by their names in the standard, as texts. Blanks that fill a field up are left out (behind
               the text, or before it in the MICR fields, which are right justified), and so are blank fields
  its parts    of bytes as {\"file\": NAME}, in one folder: letter-001_bundle-001_item-0001_view-01.tif; signatures,
               certificates and ancillary data end in .signature, .certificate and .ancillary
  \"blank MICR total\": true    in a bundle control whose MICR total is blank
What icl write works out is left out: record types, lengths, addendum counts, record numbers, counts, sums.
All is written under temporary names first and then renamed, so that on any fault nothing is left behind.
  -o DIR      the folder, made where it is missing
  --force     overwrite files that are there already; otherwise none is written if one is there
Exit status: 0 written, 1 refused (told on standard error), 2 something could not be read or written.
";

const WRITE: &str = "\
icl write [--force] DIR -o FILE

Makes out a file from DIR/letter.json and the files beside it that it names, as icl draft writes them, changed
or written by hand. Lengths, counts, record numbers and sums are worked out. The file is in ASCII.
A text that is shorter than its field is filled up: digits (data type N) with zeros before it, MICR fields with
blanks before it, all others with blanks behind it. What is not given is blank; \"record\" may be left out.
What cannot be taken from the text is told with its line and column, and so is what the rules refuse, with
number, record, field, and the offset that the record would have in the file. Nothing is written then.
  -o FILE     the file to write, or - for standard output; written to a temporary name and then renamed
  --force     overwrite FILE where it is there already
Exit status: 0 written, 1 refused (told on standard error), 2 something could not be read or written, or
letter.json is not what is asked.
";

const SALVAGE: &str = "\
icl salvage [--force] FILE -o OUT
icl salvage --list [--csv | --json] FILE [-o OUT [--force]]

Makes out, as a new file, what is sound of a torn one, while its sender is being rung. The records are walked by
their lengths from the start, until the bytes end or are cut off, a length is below 2, or behind the first file
control (type 99). Kept are the file header, each sound cash letter header, and under it each bundle that is whole
and sound, from its header to its control, and each sound credit (type 61) with its views; a cash letter of E, I or
F without a sound bundle is dropped whole. The controls of the cash letters and of the file are made new: counts
and sums are those of what is kept, the other fields stay where they are sound. Nothing is mended, and a sound file
loses nothing: the new one has its bytes. The new file is in ASCII, and icl check accepts it.
Prints what was kept, made new and dropped, by cash letter and bundle with their sums (of what was dropped, as the
amounts stand in the torn file), why each part was dropped, and what is missing against what the torn file's own
controls state; where no control was walked, that is said. Ordinals and records are those of the torn file; with
-o - nothing is printed but the new file.
  -o OUT      the file to write, or - for standard output; written to a temporary name and then renamed
  --force     overwrite OUT where it is there already; FILE itself is never overwritten
  --list      prints in place of that a row for each record walked: kept, new or dropped, with its fault
  --csv       the list comma separated, with a first line of column names (docs/ICL.md): so unless told otherwise
  --json      the list as an array of objects, one on a line (docs/ICL.md)
Refused with 17 NOTHING where the file header is not sound or no cash letter is left, with 1 SIZE or 9 TOTAL where the
new file would have too many bytes or a sum too many digits.
Exit status: 0 written, whatever was dropped, 1 refused (told on standard error), 2 something could not be read or
written.
";

const BOOK: &str = "\
icl book new BOOK [--rows N] [--places N]          makes an empty day book
icl book enter BOOK FILE --number N --owner 1|2    enters the cash letters of an accepted file
icl book withdraw BOOK ENTRY --owner 1|2           takes one entry out again
icl book tidy BOOK                                 closes the gaps that withdrawals left
icl book show BOOK ENTRY --owner 1|2               shows one entry
icl book list [--csv | --json] BOOK --owner 1|2    lists all entries of an owner
icl book totals BOOK --owner 1|2                   shows what they come to, and the net position
icl book grow BOOK [--rows N] [--places N]         gives the book more rows, or places for file numbers
icl book convert OLD NEW [--owner 1|2]             writes a book of an older version anew

BOOK is a file of its own (docs/BOOK-FILE.md), which icl book new makes and nothing overwrites; enter makes none.
Each cash letter of FILE becomes an entry, with the next entry number, and keeps its own bundles, views, debits and
credits until it is withdrawn, whatever is entered later. A refusal leaves the book as it was.
Two bureaus may share a book. Each entry has an owner, and entry numbers, counted from 1, file numbers and totals are
each owner's own; the free rows and places are for both.
withdraw asks nothing and prints the entry that it took out, which nothing brings back: a new entry of the letter gets
a new entry number, and a new file number, since the file number stays taken. Its row is free for the next file. tidy
makes the file smaller; it frees no rows, since gaps are used first, and entries keep number, figures and order.
list shows the entries that are in the book, by their entry numbers.
  --owner N   whose entries, 1 or 2
  --number N  the number that FILE is known by, of your own choosing; each owner may enter it once. FILE may be -
  --rows N    for how many cash letters there is room at a time, 10,000 unless told otherwise and 1,000,000 at
              most; grow takes the new number of rows in all and leaves everything else as it is
  --places N  for how many file numbers there is room, withdrawn or not, as many as rows unless told otherwise
              and 1,000,000 at most; grow takes the new number of places in all
  --csv       comma separated, with a first line of column names, amounts in cents
  --json      an array of objects, one on a line, amounts in cents
Two may change it at once: the second waits for the first. The book is written beside its place, made safe on the
disk and then renamed, so that after a crash at any instant it is as it was before or wholly changed.
The net position of an owner is its credits minus its debits, below zero when debits exceed.
A book of an older version is refused: convert writes it anew as NEW and leaves OLD as it is; NEW must not be there
yet. The entries of a book of version 1 have no owner, and are all given to the one that --owner names.

Refusals are told on standard error: those of icl check FILE, and with record, field and offset 0
  12 DUPLICATE   the owner has entered the file number already, be it withdrawn or not
  13 FULL        there are more cash letters than free rows, or no free place for the file number (icl book grow
                 helps), or a running total or an entry number would pass 64 bits
  15 NOENTRY     the owner has no such entry, or has withdrawn it, or is neither 1 nor 2
  16 RANGE       the owner's net position would lie beyond 10,000,000,000,000,000.00 either side
  20 BOOK        BOOK is damaged, no day book, or of another version; it is then never written to
Exit status: 0 done, 1 refused, 2 something could not be read or written, or there is no file BOOK.
";

const FIND: &str = "\
icl find [--csv | --json] FILE... --sequence N | --amount A | --routing R | --account TEXT
         [--pictures DIR [--force]]

Lists the items of accepted files that match, be they checks, returns or credits (type 61): file, cash letter,
bundle and item, kind, amount, sequence number, routing number and account as they stand in the file, which field
matched, the offsets of the pictures (as icl picture takes them), and what the bundle and the cash letter add up to.
The last line tells how many were found, and what was looked for. Of several conditions all have to hold.
  --sequence N    the item's sequence number: field 7 of a check or return, field 8 of a credit
  --amount A      125.50 in dollars and cents; without a point in cents, as the file has it: 12550
  --routing R     the payor bank's routing number (field 4), or the posting bank's of a credit (field 5)
  --account TEXT  the On-Us field (field 5, of a credit field 6) or a Deposit Account Number at BOFD of its addenda
                  that holds TEXT
  --pictures DIR  takes out the pictures of these items, named as icl pictures names them
  --force         overwrite pictures that are there already
  --csv, --json   for programs (docs/ICL.md)
Zeros before a number, and blanks, make no difference. FILE may be a folder, which stands for the files in it.
Exit status: 0 looked through, whether or not anything was found, 1 a file was refused (told on standard error),
2 something could not be read or written.
";

const SHOW: &str = "\
icl show FILE RECORD|OFFSET

Shows one record field by field: number, position, name, the characters as they stand there, whether its rule holds,
and what it means (amounts, dates, numbers and codes in words). Below a field whose rule is broken stands what is
asked of it. A number counts the records of the file from 1, as icl rows does; where there are not so many it is the
offset of the record's length, and with an @ before it, as @623, always.
Any file will do, a refused one too: every record is shown that the lengths frame. In an accepted file, and before the
first fault, every rule holds. In the record at fault that fault is told; for the rest it is judged alone, as those
behind it are, without the links and sums that join records: a rule then holds alone.
Exit status: 0 the file is accepted, 1 it is refused (the record is shown all the same), 2 it could not be read, or it
has no such record.
";

const FOLLOW: &str = "\
icl follow [--all] FILE

Shows, for new staff, how a reader comes to its answer: the proved slow reader's way through a file of at most
65536 bytes (64 KiB), step by step, set in by level (file, cash letter, bundle, item, addendum or view). Each step is a
function of that reader, a box of the standard's figures, and tells
  stands at   the record: its number, the offset of its length, its type
  found       what stands in it: amounts, dates, sequence numbers; of a control record each count and sum that it
              states, and what the records before come to
  may come    the types of record that it looks for behind its own
  comes       what stands there, and the function that it calls for it
The last step gives the answer, as icl check --explain tells it. docs/FOLLOWING.md has the figures, and a file followed.
On a terminal a step is shown at a key press: space or enter the next one, e all to the end, q quits. Elsewhere, and
where FILE is -, all are shown at once.
  --all       all at once on a terminal too
Exit status: 0 the file is accepted, 1 it is refused (its steps are shown all the same), 2 it could not be read.
";

const SUMMARY: &str = "\
icl summary [--csv | --json] FILE...

Prints a table: a line for each accepted file with its records, bundles, items, views, debits and credits, a line for
each of its cash letters, and for a refused file its refusal as icl check prints it. The last line adds up all accepted
files, and tells how many were refused and how many could not be read: none of those is in the sums.
  --csv, --json   for programs (docs/ICL.md), amounts in cents
Exit status: 0 all accepted, 1 some refused, 2 something could not be read.
";

const DIFF: &str = "\
icl diff A B

Compares two accepted files by what they hold, wherever it stands: tells which cash letters, bundles, items and credits
are the same in both, which are changed, with every field that differs, and which are in one of them only. Items are
known again by their whole contents, then by their sequence number, then by account, routing number and amount; bundles
and cash letters by the items that they share, then by their headers. An item in one file only whose contents stand
elsewhere in the other is told with its place there. Pictures are compared byte by byte. A file in EBCDIC is compared by
its characters. The last lines count what is the same, changed, in A only and in B only.
Exit status: 0 the same, 1 they differ, or one was refused (told on standard error), 2 something could not be read.
";

const COMPLETION: &str = "\
icl completion bash

Prints what has bash complete commands, flags, their values and file names: put it where bash looks for it (./install does),
or say  source <(icl completion bash).
Exit status: 0 printed, 2 it could not be written.
";

const MANUAL: &str = "\
icl manual

Prints the manual page, as man takes it: put it where man looks for it (./install does), or say  icl manual | man -l -.
Exit status: 0 printed, 2 it could not be written.
";

/// The help for a command, or the general one for a word that asks for help or version.
pub fn of(command: &str) -> Option<&'static str> {
    match command {
        "check" => Some(CHECK),
        "rows" => Some(ROWS),
        "tree" => Some(TREE),
        "picture" => Some(PICTURE),
        "pictures" => Some(PICTURES),
        "tags" => Some(TAGS),
        "draft" => Some(DRAFT),
        "write" => Some(WRITE),
        "salvage" => Some(SALVAGE),
        "book" => Some(BOOK),
        "find" => Some(FIND),
        "show" => Some(SHOW),
        "follow" => Some(FOLLOW),
        "summary" => Some(SUMMARY),
        "diff" => Some(DIFF),
        "completion" => Some(COMPLETION),
        "manual" => Some(MANUAL),
        "--help" | "-h" | "help" | "--version" | "-V" => Some(GENERAL),
        _ => None,
    }
}

/// The text to print where the words ask for help or version.
pub fn asked(command: &OsStr, words: &[OsString], help: &str) -> Option<String> {
    let words = std::iter::once(command).chain(words.iter().map(|word| word.as_os_str()));
    for word in words.take_while(|word| *word != "--") {
        match word.to_str() {
            Some("--help" | "-h") => return Some(help.to_string()),
            Some("--version" | "-V") => return Some(concat!("icl ", env!("CARGO_PKG_VERSION"), "\n").to_string()),
            _ => {}
        }
    }
    (command == "help").then(|| help.to_string())
}
