//! A shorter way to write a script's lines, for people: `[..]` is a table, `<..>` what a writer holds for a display and `{..}` a record.
//!
//! `[0 100 200 30 9 7]` is a table whose first slots are given and whose others are unused, with four numbers a slot in a call of a crane's; `<1 1 325 100 200 0>` is the option, the numbers told last and the first ranks, the others 0, so that `<>` is the option off; `{X 300}` is the eight bytes of that event, `{X 300}*9` nine times them; `(1 100 200 30 9 7)*32` is these numbers 32 times.

use crate::events::{events, RECORD};
use crate::reader::Reader;
use crate::records;
use crate::script::{head_numbers, layout_of, reader_numbers, table_numbers};
use crate::script::{
    Call, Cut, RecorderCall, BEFORE_POINTER, MOST_NUMBERS, PIECES_NUMBERS, POINTER_NUMBERS, WRITER_HEAD, WRITER_NUMBERS,
};
use crate::table::{Layout, Slot, Table};

/// A whole brief script as a script for `drive`; an error names its line.
pub fn expand(text: &str) -> Result<String, String> {
    let mut script = String::new();
    for (number, line) in text.lines().enumerate() {
        if line.is_empty() || line.starts_with('#') {
            script.push_str(line);
        } else {
            let long = expand_line(line).map_err(|what| format!("line {}: {what}", number + 1))?;
            script.push_str(&long);
        }
        script.push('\n');
    }
    Ok(script)
}

fn expand_line(line: &str) -> Result<String, String> {
    let mut out: Vec<String> = Vec::new();
    let mut rest = line.trim();
    let (layout, _) = layout_of(rest);
    while !rest.is_empty() {
        rest = expand_part(rest, layout, &mut out)?.trim_start();
    }
    Ok(out.join(" "))
}

/// Writes out the table, the pointer, the record or the word that `rest` begins with; what comes after it.
fn expand_part<'a>(rest: &'a str, layout: Layout, out: &mut Vec<String>) -> Result<&'a str, String> {
    if let Some(inside) = rest.strip_prefix('[') {
        let (table, after) = inside.split_once(']').ok_or("a [ without its ]")?;
        expand_table(table, layout, out)?;
        return Ok(after);
    }
    if let Some(inside) = rest.strip_prefix('<') {
        let (pointer, after) = inside.split_once('>').ok_or("a < without its >")?;
        expand_pointer(pointer, out)?;
        return Ok(after);
    }
    if let Some(inside) = rest.strip_prefix('{') {
        let (event, after) = inside.split_once('}').ok_or("a { without its }")?;
        let words: Vec<&str> = event.split_whitespace().collect();
        let record = records::event(&words)?.to_bytes().map(|byte| byte.to_string());
        return repeat(&record, after, "records", out);
    }
    if let Some(inside) = rest.strip_prefix('(') {
        let (numbers, after) = inside.split_once(')').ok_or("a ( without its )")?;
        let numbers: Vec<String> = numbers.split_whitespace().map(str::to_string).collect();
        return repeat(&numbers, after, "rows", out);
    }
    let (word, after) = rest.split_once(' ').unwrap_or((rest, ""));
    out.push(word.to_string());
    Ok(after)
}

/// Writes these words as often as the `*` behind them says, or once; what comes after it.
fn repeat<'a>(words: &[String], after: &'a str, what: &str, out: &mut Vec<String>) -> Result<&'a str, String> {
    let (times, after) = match after.strip_prefix('*') {
        Some(counted) => {
            let (count, after) = counted.split_once(' ').unwrap_or((counted, ""));
            (times(count, words.len(), what, out.len())?, after)
        }
        None => (1, after),
    };
    for _ in 0..times {
        out.extend_from_slice(words);
    }
    Ok(after)
}

/// How often so many words are repeated behind others. A few letters must not take all memory: once more than a call may have is enough to write a line that is none.
fn times(count: &str, words: usize, what: &str, behind: usize) -> Result<usize, String> {
    let times: usize = count.parse().map_err(|_| format!("'{count}' is no count"))?;
    let most = (1 + MOST_NUMBERS).saturating_sub(behind) / words.max(1) + 1;
    if times > most {
        return Err(format!("{times} {what}, where at most {most} are of use"));
    }
    Ok(times)
}

fn expand_table(inside: &str, layout: Layout, out: &mut Vec<String>) -> Result<(), String> {
    let numbers: Vec<&str> = inside.split_whitespace().collect();
    let (width, most) = (layout.slot_numbers(), table_numbers(layout));
    if numbers.len() % width != 0 || numbers.len() > most {
        return Err(format!("a table of {} numbers: {width} a slot, at most {most}", numbers.len()));
    }
    out.extend(numbers.iter().map(|number| number.to_string()));
    for _ in numbers.len() / width..layout.slots() {
        out.push("-1".to_string());
        out.extend(vec!["0".to_string(); layout.numbers()]);
    }
    Ok(())
}

fn expand_pointer(inside: &str, out: &mut Vec<String>) -> Result<(), String> {
    let numbers: Vec<&str> = inside.split_whitespace().collect();
    if numbers.len() > POINTER_NUMBERS {
        return Err(format!("{} numbers for a display: at most {POINTER_NUMBERS}", numbers.len()));
    }
    out.extend(numbers.iter().map(|number| number.to_string()));
    out.extend(vec!["0".to_string(); POINTER_NUMBERS - numbers.len()]);
    Ok(())
}

/// A call as a brief line; [`expand`] gives its line back.
pub fn shorten(call: &Call) -> String {
    let long = call.line();
    let words: Vec<&str> = long.split(' ').collect();
    match call {
        Call::Run { reader, bytes } => {
            let mut line = short_reader(&words, reader);
            put_bytes(&mut line, bytes);
            line
        }
        Call::PiecesTake { pieces, cut } => {
            let reader = reader_numbers(Layout::Panel);
            let behind = PIECES_NUMBERS + 2 + cut.lengths.len();
            let mut line = join(short_reader(&words, &pieces.reader), &words[reader + 1..behind]);
            put_cut(&mut line, pieces.held, cut);
            line
        }
        Call::PiecesLoad { pieces, .. } | Call::PiecesAsk { pieces, .. } => {
            join(short_reader(&words, &pieces.reader), &words[reader_numbers(Layout::Panel) + 1..])
        }
        Call::One { reader, .. } | Call::Load { reader, .. } | Call::Ask { reader, .. } | Call::Good { reader } => {
            join(short_reader(&words, reader), &words[reader_numbers(reader.layout) + 1..])
        }
        Call::Write { writer, .. } => join(short_writer(&words, &writer.table), &words[WRITER_NUMBERS + 1..]),
        Call::Anonymous { writer, records, .. } => {
            let room = &words[WRITER_NUMBERS + 1..words.len() - records.len()];
            let mut line = join(short_writer(&words, &writer.table), room);
            put_bytes(&mut line, records);
            line
        }
        Call::Recorder(call) => {
            let mut line = words[..words.len() - call.bytes().len()].join(" ");
            match call {
                RecorderCall::Read { piece, .. } => put_runs(&mut line, piece),
                _ => put_bytes(&mut line, call.bytes()),
            }
            line
        }
        _ => long,
    }
}

/// Whole records as events, and the bytes behind them.
fn put_bytes(line: &mut String, bytes: &[u8]) {
    for event in events(bytes) {
        line.push_str(&format!(" {{{}}}", records::event_text(event)));
    }
    put_plain(line, bytes.chunks_exact(RECORD).remainder());
}

fn put_plain(line: &mut String, bytes: &[u8]) {
    bytes.iter().for_each(|byte| line.push_str(&format!(" {byte}")));
}

/// The same behind bytes that are held: those first that end a record.
fn put_cut(line: &mut String, held: u64, cut: &Cut) {
    let missing = (RECORD as u64 - held % RECORD as u64) as usize % RECORD;
    let (first, rest) = cut.bytes.split_at(missing.min(cut.bytes.len()));
    put_plain(line, first);
    put_bytes(line, rest);
}

/// Bytes, and how often one comes where it comes often.
fn put_runs(line: &mut String, bytes: &[u8]) {
    for run in bytes.chunk_by(|a, b| a == b) {
        match run.len() {
            0..=3 => put_plain(line, run),
            many => line.push_str(&format!(" ({})*{many}", run[0])),
        }
    }
}

fn short_reader(words: &[&str], reader: &Reader) -> String {
    let head = words[..=head_numbers(reader.layout)].join(" ");
    let table = |table: &Table| short_table(reader.layout, table);
    format!("{head} {} {}", table(&reader.shown), table(&reader.pending))
}

fn short_writer(words: &[&str], table: &Table) -> String {
    let head = words[..=WRITER_HEAD].join(" ");
    let pointer = short_pointer(&words[BEFORE_POINTER + 1..=WRITER_NUMBERS]);
    format!("{head} {} {pointer}", short_table(Layout::Panel, table))
}

fn short_table(layout: Layout, table: &Table) -> String {
    let used = table.iter().rposition(|slot| *slot != Slot::UNUSED).map_or(0, |last| last + 1);
    let slots: Vec<String> = table[..used].iter().map(|slot| short_slot(layout, slot)).collect();
    format!("[{}]", slots.join("  "))
}

/// Without the zeros at its end.
fn short_pointer(words: &[&str]) -> String {
    let used = words.iter().rposition(|word| *word != "0").map_or(0, |last| last + 1);
    format!("<{}>", words[..used].join(" "))
}

fn short_slot(layout: Layout, slot: &Slot) -> String {
    slot.numbers[..layout.numbers()].iter().fold(slot.id.0.to_string(), |text, number| format!("{text} {number}"))
}

fn join(mut line: String, words: &[&str]) -> String {
    for word in words {
        line.push(' ');
        line.push_str(word);
    }
    line
}

#[cfg(test)]
mod tests {
    use super::*;
    use crate::maker::Maker;
    use crate::requests::Request;
    use crate::table::SLOTS;

    #[test]
    fn short_lines_come_back() {
        let mut maker = Maker::with(4, Request::ALL);
        for _ in 0..2000 {
            if let Some(call) = Call::parse(maker.next_line().as_bytes()) {
                assert_eq!(expand_line(&shorten(&call)), Ok(call.line()));
            }
        }
    }

    #[test]
    fn tables_records_and_counts() {
        let records = "3 0 53 0 1 0 0 0 3 0 53 0 1 0 0 0 0 0 0 0 0 0 0 0";
        let rest = " -1 0 0 0 0 0".repeat(SLOTS - 1);
        assert_eq!(
            expand("# a name\nrun 1 2 3 4 5 6 0 0 [5 1 1 1 2 3] [] {X 1}*2 {REPORT} 9\n").unwrap(),
            format!("# a name\nrun 1 2 3 4 5 6 0 0 5 1 1 1 2 3{rest} -1 0 0 0 0 0{rest} {records} 9\n")
        );
        let rest = " -1 0 0 0".repeat(15);
        assert_eq!(
            expand("crane_run 1 2 3 4 0 0 [5 1 1 1] [] {X 1}*2 {REPORT}\n").unwrap(),
            format!("crane_run 1 2 3 4 0 0 5 1 1 1{rest} -1 0 0 0{rest} {records}\n")
        );
        for (text, error) in [
            ("\nrun [1 2 3]", "line 2: a table of 3"),
            ("run [1 2 3 4]", "line 1: a table of 4 numbers: 6 a slot"),
            ("crane_run [1 2 3 4 5 6]", "line 1: a table of 6 numbers: 4 a slot"),
            ("run [1", "line 1: a [ "),
            ("write <1", "line 1: a < "),
            (
                "write <0 0 0 0 0 0 0 0 0 0 0 0 0 0 0 0 0 0 0 0 0 0 0 0 0 0 0 0 0 0 0 0 0 0 0 0 0 0>",
                "line 1: 38 numbers",
            ),
            ("run {X", "line 1: a { "),
            ("write (1 2", "line 1: a ( "),
            ("write (1 2)*99999", "line 1: 99999 rows, where at most 6001 are of use"),
            ("run {Z 1}", "line 1: 'Z'"),
            ("run {X 1}*q", "line 1: 'q'"),
            ("run {X 1}*9999999999999999", "line 1: 9999999999999999 records"),
            ("run {X 1}*99999999999999999999999", "line 1: '99999999999999999999999' is no count"),
            ("run {X 1}*1500 {X 1}*2", "line 1: 2 records, where at most 1 are of use"),
        ] {
            assert!(expand(text).unwrap_err().starts_with(error), "{text}");
        }
        assert!(expand("run {X 1}*1501").is_ok());
        assert_eq!(expand("write <1 1 325>7\n").unwrap(), format!("write 1 1 325{} 7\n", " 0".repeat(34)));
        assert_eq!(expand("write (1 2 )*3 (4) ()*9 5\n").unwrap(), "write 1 2 1 2 1 2 4 5\n");
    }
}
