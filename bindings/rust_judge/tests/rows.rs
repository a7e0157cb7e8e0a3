//! The rows of `rows.txt`, each verdict, list and fault, and all of its fields, in the table that
//! tests/bindings/judge_tables.py writes at the path in JUDGE_TABLE. The variable JUDGE_ROWS, which
//! names the table to a stand-in for the library, adds the rows that only that answers.
use std::collections::HashMap;
use yachtjudge::{
    judge, judge_log, judge_log_by_whole_updates, outcomes, File, JudgeError, Limits, LogLimits,
};
use yachtjudge::{LogVerdict, Outcomes, Point, Verdict};

/// The bytes of an item of each part of a row (tests/bindings/judge_rows.h).
const SIZES: [usize; 9] = [1, 1, 1, 8, 16, 20, 4, 1, 44];

fn is_stand_in() -> bool {
    std::env::var_os("JUDGE_ROWS").is_some()
}

fn numbers(bytes: &[u8]) -> Vec<usize> {
    bytes.chunks_exact(8).map(|it| u64::from_le_bytes(it.try_into().unwrap()) as usize).collect()
}

/// A row: its kind, whether only a stand-in answers it, slots, states, memory, moves, number,
/// commands, at, submission, line and fault; and the bytes of its parts.
struct Row<'a> {
    head: [usize; 12],
    parts: [&'a [u8]; 9],
}

/// Returns the table, which `rows` reads.
fn table() -> Vec<u8> {
    let path = std::env::var("JUDGE_TABLE").expect("tests/bindings/judge_tables.py writes a table");
    std::fs::read(path).unwrap()
}

fn rows(data: &[u8]) -> Vec<Row<'_>> {
    let count = numbers(&data[..8])[0];
    let all = data[8..].chunks(8 * 30).take(count).map(numbers).map(|row| Row {
        head: row[..12].try_into().unwrap(),
        parts: std::array::from_fn(|nth| {
            &data[row[12 + 2 * nth]..][..SIZES[nth] * row[13 + 2 * nth]]
        }),
    });
    all.filter(|it| it.head[1] == 0 || is_stand_in()).collect()
}

impl Row<'_> {
    fn limits(&self) -> Limits {
        let [_, _, _, states, memory, ..] = self.head;
        Limits { states: states as u32, memory: memory as u32 }
    }

    fn log_limits(&self) -> LogLimits {
        let Limits { states, memory } = self.limits();
        LogLimits { states, memory, moves: self.head[5] as u64 }
    }

    fn note(&self) -> String {
        String::from_utf8_lossy(self.parts[2]).into_owned()
    }
}

/// Returns the fault of a script as the row of the judge has it that has the same script.
fn bad_script(rows: &[Row], row: &Row) -> JudgeError {
    let is_same = |it: &&Row| (it.head[0], it.head[6], it.parts[0]) == (0, 3, row.parts[0]);
    let it = rows.iter().find(is_same).unwrap();
    JudgeError::BadScript { line: it.head[10] as u32, fault: it.note() }
}

fn judged(rows: &[Row], row: &Row) {
    let ([script, text, ..], [.., number, commands, at, submission, _, _]) = (row.parts, row.head);
    let (commands, at, submission) = (commands as u64, at as u64, submission as u32);
    let wanted = match number {
        0 => Ok(Verdict::Legal),
        1 => Ok(Verdict::NotLegal { commands, at, expected: row.note() }),
        2 => Ok(Verdict::Undecided { submission }),
        3 => Err(bad_script(rows, row)),
        _ => Err(JudgeError::NoMemory),
    };
    assert_eq!(judge(script, text, row.limits()), wanted, "{}", String::from_utf8_lossy(script));
}

fn listed(rows: &[Row], row: &Row) {
    let ([script, mut rest, ..], number) = (row.parts, row.head[6]);
    let found = outcomes(script, row.limits()).map(sorted);
    let split = |length| {
        let (text, others) = rest.split_at(length);
        rest = others;
        text.to_vec()
    };
    let texts = numbers(row.parts[3]).into_iter().map(split).collect();
    let may_lack = number == 1 && !is_stand_in();
    let wanted = match number {
        3 => Err(bad_script(rows, row)),
        4 => Err(JudgeError::NoMemory),
        number => Ok(sorted(Outcomes { texts, are_all: number == 0 })),
    };
    if let (true, Ok(found), Ok(wanted)) = (may_lack, &found, &wanted) {
        assert!(!found.are_all && found.texts.iter().all(|it| wanted.texts.contains(it)));
    } else {
        assert!(found == wanted, "{}", String::from_utf8_lossy(script));
    }
}

fn sorted(mut found: Outcomes) -> Outcomes {
    found.texts.sort();
    found
}

// The text of a log that isn't read has no bytes. The rows have no reasons.
fn judged_log(row: &Row) {
    let ([_, text, ..], [.., number, _, _, _, line, _]) = (row.parts, row.head);
    if text.is_empty() || matches!(number, 5..=8) {
        return;
    }
    let wanted = match number {
        0 => Ok(LogVerdict::Legal),
        1 => Ok(LogVerdict::NotLegal { line, reason: vec![] }),
        2 => Ok(LogVerdict::Undecided),
        _ => Err(JudgeError::NoMemory),
    };
    let found = judge_log(text, row.log_limits()).map(|it| match it {
        LogVerdict::NotLegal { line, .. } => LogVerdict::NotLegal { line, reason: vec![] },
        other => other,
    });
    assert_eq!(found, wanted, "{}", String::from_utf8_lossy(text));
}

#[test]
fn what_is_not_a_log_has_a_line_and_a_fault() {
    let found = |text: &str| judge_log(text.as_bytes(), LogLimits::default());
    let fault = "the first call registers the table, as in `sparse 3`, not 'x'".to_string();
    assert_eq!(found("file a 61\ncall 1 x\n"), Err(JudgeError::NotALog { line: 2, fault }));
    assert_eq!(found("file a 61\nfile b 62\ntag 2.1.0\n"), Err(JudgeError::KernelLog { line: 3 }));
}

#[test]
fn each_answer_is_that_of_its_row() {
    let table = table();
    let rows = rows(&table);
    for it in &rows {
        match it.head[0] {
            0 => judged(&rows, it),
            1 => listed(&rows, it),
            _ => judged_log(it),
        }
    }
    assert!(rows.len() > 80, "{} rows", rows.len());
}

#[test]
fn the_limits_are_those_of_fixcheck() {
    let Limits { states, memory } = Limits::default();
    assert_eq!((states, memory), (1_000_000, 1_024));
    let moves = u64::MAX;
    assert_eq!(LogLimits::default(), LogLimits { states, memory, moves });
}

fn point(nth: u32) -> Point {
    let file =
        File { call: nth + 4, member: nth + 5, entry: nth + 6, file: ((nth + 7) % 251) as u8 };
    let answer = nth as usize + 2 + BEFORE;
    match nth % 4 {
        0 => Point::Event(answer),
        1 => Point::Access { answer, access: nth as usize + 3 },
        2 => Point::Put(file),
        _ => Point::Gone { file, slot: nth + 1 },
    }
}

/// The line of the first event, after the registration and its answer.
const BEFORE: usize = 3;

/// The stand-in's reason has as many steps as the table has slots, each with other numbers.
#[test]
fn each_step_has_the_numbers_of_the_library() {
    if !is_stand_in() {
        return;
    }
    let mut rules = HashMap::new();
    for count in [1, 32, 4_096, 5_000] {
        let text = format!("call 1 sparse {count}\ndone 1.1 0\n");
        let found = judge_log_by_whole_updates(text.as_bytes(), LogLimits::default());
        let Ok(LogVerdict::NotLegal { line: 10, reason: steps }) = found else {
            panic!("{found:?} of a log without events");
        };
        assert_eq!(steps.len(), count);
        for (nth, it) in steps.iter().enumerate() {
            let numbers = [it.first, it.second, it.access, it.premise, it.other];
            assert_eq!(numbers, [nth + BEFORE, nth + 1 + BEFORE, nth + 2, nth + 3, nth + 4]);
            assert_eq!((it.slot, it.is_strict), (nth as u32 + 5, nth % 2 == 1));
            let points = [point(nth as u32 + 6), point(nth as u32 + 60)];
            assert_eq!([it.before, it.after], points);
            let rule = format!("{:?}", it.rule);
            assert_eq!(*rules.entry(nth % 32).or_insert(rule.clone()), rule);
        }
    }
    assert_eq!((&rules[&29][..], &rules[&31][..]), ("Cut", "Otherwise"));
    let table = table();
    let verdict = rows(&table)
        .iter()
        .find(|it| !it.parts[8].is_empty())
        .map(|it| judge_log_by_whole_updates(it.parts[1], it.log_limits()));
    assert_eq!(verdict, Some(Ok(LogVerdict::Undecided)));
}
