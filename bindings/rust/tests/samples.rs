//! The crate over the samples and over changed texts, held against the program, which PROGRAM names (crates/cwr/out/cwr).

#![deny(unreachable_patterns)]

use cwr::{CellFault, Document, Error, LimitKind, Limits, Place, Reason, Record, RecordBuf, Report, Type, Verdict, Why};
use std::fs;
use std::path::{Path, PathBuf};
use std::process::Command;

fn top() -> PathBuf {
    Path::new(env!("CARGO_MANIFEST_DIR")).join("../..").canonicalize().unwrap()
}

fn samples() -> Vec<PathBuf> {
    let mut found: Vec<PathBuf> = fs::read_dir(top().join("samples"))
        .unwrap()
        .flat_map(|folder| fs::read_dir(folder.unwrap().path()))
        .flatten()
        .map(|file| file.unwrap().path())
        .filter(|path| path.extension().map_or(false, |it| it == "cwr"))
        .collect();
    found.sort();
    assert!(found.len() > 30);
    found
}

fn program(words: &[&str], file: &Path) -> Vec<u8> {
    let program = std::env::var_os("PROGRAM").map_or_else(|| top().join("crates/cwr/out/cwr"), PathBuf::from);
    Command::new(program).args(words).arg(file).output().unwrap().stdout
}

#[test]
fn reports_and_verdicts_are_the_programs() {
    let reports: [(Report, &[&str]); 7] = [
        (Report::Check, &["check"]),
        (Report::Show, &["show"]),
        (Report::Explain, &["explain"]),
        (Report::Json, &["json"]),
        (Report::NumberedJson, &["json", "--numbers"]),
        (Report::Lint, &["lint"]),
        (Report::ExplainedLint, &["lint", "--explain"]),
    ];
    for name in samples() {
        let text = fs::read(&name).unwrap();
        let verdict = cwr::check(&text, &Limits::NONE).unwrap();
        for (what, words) in reports {
            let (made, told) = cwr::report(what, &text, &Limits::NONE, name.to_str().unwrap()).unwrap();
            assert!(made == program(words, &name), "{words:?} {}", name.display());
            assert_eq!(told, verdict);
        }
        let line = String::from_utf8(program(&["check"], &name)).unwrap();
        assert_eq!(line.lines().last().unwrap(), verdict.to_string());
        assert_eq!(Document::within(&text, &Limits::NONE).unwrap().verdict(), verdict);
        let (found, told) = cwr::findings(&text, &Limits::NONE).unwrap();
        assert_eq!((found.len(), told), (line.lines().filter(|it| it.starts_with("FINDING")).count(), verdict));
    }
}

/// The places of a document's transactions.
fn places(document: &Document<'_>) -> Vec<Place> {
    let mut found: Vec<Place> = Vec::new();
    for it in document.transactions() {
        let before = found.last().filter(|last| last.group == it.group());
        found.push(Place { group: it.group(), transaction: before.map_or(0, |last| last.transaction + 1) });
    }
    found
}

#[test]
fn transactions_are_selected_by_their_places() {
    for name in samples() {
        let text = fs::read(&name).unwrap();
        let document = Document::within(&text, &Limits::NONE).unwrap();
        let (none, verdict) = cwr::select(&text, &[], &Limits::NONE).unwrap();
        assert!(none.is_empty());
        let Verdict::Good { .. } = document.verdict() else {
            assert_eq!(verdict, document.verdict());
            continue;
        };
        let all = places(&document);
        let (whole, _) = cwr::select(&text, &all, &Limits::NONE).unwrap();
        assert_eq!(whole, cwr::write(document.records(), &Limits::NONE).unwrap());
        for (at, place) in all.iter().enumerate() {
            let (one, verdict) = cwr::select(&text, &[Place { group: 99_999, transaction: 0 }, *place, *place], &Limits::NONE).unwrap();
            assert_eq!(verdict, Verdict::Good { groups: 0, transactions: 1, records: 0 });
            let found = Document::read(&one).unwrap();
            let lines = |it: cwr::Transaction<'_, '_>| it.map(|record| record.line()[19..].to_vec()).collect::<Vec<_>>();
            assert_eq!(found.transactions().map(lines).collect::<Vec<_>>(), [Document::read(&whole).unwrap().transactions().nth(at).map(lines).unwrap()]);
        }
    }
}

#[test]
fn a_summary_counts_what_a_document_has() {
    for name in samples() {
        let text = fs::read(&name).unwrap();
        let (found, verdict) = cwr::summary(&text, &Limits::NONE).unwrap();
        assert_eq!(verdict, cwr::check(&text, &Limits::NONE).unwrap());
        let (findings, _) = cwr::findings(&text, &Limits::NONE).unwrap();
        let Verdict::Good { groups, transactions, records } = verdict else {
            continue;
        };
        assert_eq!(found.groups(), u64::from(groups));
        assert_eq!(found.transactions().iter().sum::<u64>(), u64::from(transactions));
        assert_eq!(found.records().iter().sum::<u64>(), u64::from(records));
        assert_eq!(found.works().iter().sum::<u64>(), found.transactions()[1] + found.transactions()[2]);
        assert_eq!(found.acknowledgements().iter().sum::<u64>(), found.transactions()[3]);
        assert_eq!(found.findings().iter().sum::<u64>(), findings.len() as u64);
        let document = Document::read(&text).unwrap();
        for (kind, count) in cwr::kinds().iter().zip(found.records()) {
            assert_eq!(document.records().filter(|it| it.kind() == *kind).count() as u64, *count, "{name:?} {kind}");
        }
    }
}

#[test]
fn records_are_written_as_they_were_read() {
    for name in samples() {
        let text = fs::read(&name).unwrap();
        match Document::read(&text) {
            Ok(document) => {
                let written = cwr::write(document.records(), &Limits::NONE).unwrap();
                let again = Document::read(&written).unwrap();
                assert_eq!(again.verdict(), document.verdict());
                assert_eq!(cwr::from_json(cwr::to_json(&text).unwrap().as_bytes(), &Limits::NONE).unwrap(), written);
                let in_transactions: usize = document.transactions().map(|it| it.len()).sum();
                let outside = document.records().filter(|it| ["HDR", "GRH", "GRT", "TRL"].contains(&&*it.kind())).count();
                assert_eq!(in_transactions + outside, document.lines().len());
                let (groups, transactions) = match document.verdict() {
                    Verdict::Good { groups, transactions, .. } => (groups, transactions),
                    other => panic!("{other}"),
                };
                assert_eq!(document.transactions().count() as u32, transactions);
                assert!(document.transactions().all(|it| it.group() <= groups && it.number() <= transactions));
            }
            Err(Error::Refused(refusal)) => assert!(refusal.record > 0),
            Err(Error::Truncated { .. }) => {}
            Err(other) => panic!("{other}"),
        }
    }
}

#[test]
fn a_transmission_from_nothing() {
    let mut head = RecordBuf::blank("HDR").unwrap();
    for (name, text) in [
        ("sender type", "PB"),
        ("sender id", "123456789"),
        ("sender name", "HOUSE"),
        ("creation date", "20240102"),
        ("creation time", "101500"),
        ("transmission date", "20240102"),
    ] {
        head.set(name, text).unwrap();
    }
    let mut group = RecordBuf::blank("GRH").unwrap();
    group.set("transaction type", "NWR").unwrap();
    let mut work = RecordBuf::blank("NWR").unwrap();
    work.set("title", "A SONG \u{e9}").unwrap().set("submitter work number", "1").unwrap().set("version type", "ORI").unwrap();
    work.set("copyright date", "20240229").unwrap();
    let mut writer = RecordBuf::blank("SWR").unwrap();
    writer.set("interested party number", "7").unwrap().set("last name", "DOE").unwrap().set("pr share", "03305").unwrap();
    let foot = RecordBuf::blank("GRT").unwrap();
    let records = [head.record(), group.record(), work.record(), writer.record(), foot.record()];
    let text = cwr::write(records, &Limits::NONE).unwrap();
    let document = Document::read(&text).unwrap();
    assert_eq!(document.verdict(), Verdict::Good { groups: 1, transactions: 1, records: 6 });
    assert_eq!(document.size(), text.len());
    let found: Vec<Record> = document.transactions().next().unwrap().collect();
    assert_eq!(found[0].text("title").unwrap(), "A SONG \u{e9}");
    assert_eq!(found[0].date("copyright date"), Some((2024, 2, 29)));
    assert_eq!(found[0].date("title"), None);
    assert_eq!(found[1].share("pr share"), Some(3305));
    assert_eq!(found[1].share("mr share"), None);
    assert_eq!(found[1].number("record sequence"), Some(1));
    assert_eq!(found[1].text("nothing"), None);
    assert_eq!(cwr::write([head.record(), work.record()], &Limits::NONE), Err(Error::Unwritten { line: 2, why: Why::OutOfOrder }));
    assert_eq!(cwr::write([head.record()], &Limits::NONE).unwrap_err().to_string(), "the end of the records begins or ends what isn't whole");
    let mut bad = writer.clone();
    bad.set("pr share", "0330X").unwrap();
    for (record, words) in [
        (RecordBuf::blank("SWR").unwrap().record(), "record 4 carries no record, field 4 (interested party number): cell blank"),
        (bad.record(), "record 4 carries no record, field 12 (pr share): cell not digits"),
        (Record::of_line(b"XYZ"), "record 4 carries no record, field 1: unknown kind"),
        (Record::of_line(b""), "record 4 carries no record, field 1: unknown kind"),
    ] {
        let written = cwr::write([head.record(), group.record(), work.record(), record], &Limits::NONE);
        assert_eq!(written.unwrap_err().to_string(), words);
    }
    let mut other = RecordBuf::blank("REV").unwrap();
    other.set("title", "B").unwrap().set("submitter work number", "2").unwrap().set("version type", "ORI").unwrap();
    let records = [head.record(), group.record(), other.record(), writer.record(), work.record(), foot.record()];
    assert_eq!(cwr::write(records, &Limits::NONE), Err(Error::Unwritten { line: 3, why: Why::WrongKind }));
    assert_eq!(RecordBuf::blank("XYZ"), Err(Error::NoSuchField));
    assert_eq!(work.set("title", &"x".repeat(61)).err(), Some(Error::TooWide));
    assert_eq!(work.set("title", "\u{2026}").err(), Some(Error::TooWide));
}

#[test]
fn layouts_and_limits() {
    assert_eq!(cwr::kinds().len(), 40);
    for kind in cwr::kinds() {
        let fields = cwr::fields(kind);
        assert!(std::ptr::eq(fields, cwr::fields(kind)), "read again");
        assert!(fields.windows(2).all(|it| it[0].start + it[0].width == it[1].start));
    }
    let group = cwr::fields("GRH");
    assert_eq!(group[1].codes("GRH"), ["AGR", "NWR", "REV", "ACK"]);
    assert_eq!(cwr::fields("XYZ"), []);
    let limits = Limits { records: 4, ..Limits::NONE };
    assert_eq!(cwr::check(b"", &limits), Err(Error::Limits));
    assert_eq!(cwr::check(b"", &Limits::NONE), Ok(Verdict::Truncated { records: 0 }));
    assert!(cwr::from_json(b"{}\n", &Limits::NONE).unwrap_err().to_string().starts_with("REFUSED line 1"));
}

#[test]
fn transactions_have_a_header_and_records_of_a_kind() {
    for name in samples() {
        let text = fs::read(&name).unwrap();
        let document = Document::within(&text, &Limits::NONE).unwrap();
        assert_eq!(document.header(), document.record(1));
        for transaction in document.transactions() {
            let records: Vec<Record> = transaction.clone().collect();
            let mut walked = transaction.clone();
            assert_eq!(walked.by_ref().count(), records.len());
            for it in [&transaction, &walked] {
                assert_eq!((it.group(), it.number()), (transaction.group(), transaction.number()));
                assert_eq!(it.header(), records.first().copied());
                for kind in cwr::kinds() {
                    let of_kind: Vec<Record> = records.iter().filter(|it| it.kind() == *kind).copied().collect();
                    assert_eq!(it.of_kind(kind), of_kind);
                }
            }
        }
    }
}

#[test]
fn what_is_printed_is_small() {
    let text = fs::read(top().join("samples/good/works.cwr")).unwrap();
    let mut long = text.clone();
    long.resize(20_000_000, b' ');
    let document = Document::read(&long).unwrap();
    let first = document.transactions().next().unwrap();
    let printed = format!("{first:?}");
    assert!(printed.starts_with("Transaction { group: 1, number: 1, records: [Record(\"NWR0000000000000000BLUE RIVER"), "{printed}");
    assert!(printed.len() < 2000);
    assert!(format!("{document:?} {:?}", document.transactions()).len() < 1000);
    assert!(format!("{:?}", RecordBuf::blank("NWR").unwrap()).starts_with("RecordBuf(\"NWR   "));
}

#[test]
fn any_field_may_be_asked_of_any_record() {
    let mut field = cwr::fields("NWR")[3].clone();
    for (start, width) in [(0, 0), (5, usize::MAX), (usize::MAX, usize::MAX), (usize::MAX, 1), (500, 3), (2, 1)] {
        (field.start, field.width) = (start, width);
        for line in ["", "NWR", "NWR0000000000000000"] {
            let cell = Record::of_line(line.as_bytes()).cell(&field);
            assert!(cell.len() <= line.len());
        }
    }
}

/// Further cases may come: a match over these has a last arm, and it can be reached.
#[test]
fn cases_may_come() {
    let error = match Error::Memory {
        Error::Memory | Error::Limits | Error::Interface | Error::NoSuchField | Error::TooWide => 0,
        Error::Refused(_) | Error::Truncated { .. } | Error::Unwritten { .. } => 1,
        _ => 2,
    };
    let why = match Why::OutOfOrder {
        Why::NotARecord(_) | Why::OutOfOrder | Why::WrongKind | Why::Incomplete | Why::Limit(_) | Why::Json(_) => 0,
        _ => 1,
    };
    let reason = match Reason::Excess {
        Reason::UnknownKind | Reason::Misplaced | Reason::Cell(_) | Reason::Number { .. } | Reason::Limit(_) | Reason::Excess => 0,
        _ => 1,
    };
    let limit = match LimitKind::Groups {
        LimitKind::Records | LimitKind::Groups | LimitKind::Transaction => 0,
        _ => 1,
    };
    let report = match Report::Check {
        Report::Check | Report::Show | Report::Explain | Report::Json | Report::NumberedJson | Report::Lint | Report::ExplainedLint => 0,
        _ => 1,
    };
    let fault = match CellFault::Blank {
        CellFault::Blank | CellFault::Control | CellFault::NotDigits | CellFault::NotADate => 0,
        CellFault::NotATime | CellFault::OverShare | CellFault::NotACode | CellFault::NotConstant => 1,
        _ => 2,
    };
    let ty = match Type::Text {
        Type::Text | Type::Required | Type::Digits | Type::OptionalDigits | Type::Date | Type::OptionalDate | Type::Time => 0,
        Type::OptionalTime | Type::OptionalDuration | Type::Share | Type::Flag | Type::Code | Type::OptionalCode | Type::Constant => 1,
        _ => 2,
    };
    assert_eq!([error, why, reason, limit, report, fault, ty], [0; 7]);
}

#[test]
fn changed_texts() {
    let texts: Vec<Vec<u8>> = samples().iter().map(|it| fs::read(it).unwrap()).collect();
    let mut seed: u64 = 1;
    let mut draw = |below: usize| {
        seed = seed.wrapping_mul(6364136223846793005).wrapping_add(1442695040888963407);
        (seed >> 33) as usize % below.max(1)
    };
    for _ in 0..20_000 {
        let mut text = texts[draw(texts.len())].clone();
        for _ in 0..=draw(3) {
            let at = draw(text.len());
            match (text.is_empty(), draw(3)) {
                (true, _) => {}
                (_, 0) => text[at] = b" 019AZ\r\n"[draw(8)],
                (_, 1) => text.truncate(at),
                _ => drop(text.drain(at..(at + draw(40)).min(text.len()))),
            }
        }
        let verdict = cwr::check(&text, &Limits::NONE).unwrap();
        let document = Document::within(&text, &Limits::NONE).unwrap();
        assert_eq!(document.verdict(), verdict);
        if verdict.is_good() {
            let written = cwr::write(document.records(), &Limits::NONE).unwrap();
            assert_eq!(cwr::check(&written, &Limits::NONE).unwrap(), verdict);
        }
    }
}
