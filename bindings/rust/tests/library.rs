//! What the crate hands back, held to document 01's small files, the requests and docs/KINDS.md by hand.

use stableglow::{check, cut, merge, message, outline, raw, read, rules};
use stableglow::{
    ErrorRecord, Event, EventKind, Form, Id, Kind, Name, Options, Outcome, Refusal, Row, Rows, Rule,
};

const R: &[u8] = b"rule a{condition:true}";

fn messages(source: &[u8]) -> Vec<String> {
    let reading = check(source, &Options::default()).unwrap();
    reading.errors.iter().map(|error| message(source, error).unwrap()).collect()
}

#[test]
fn a_rule_is_accepted() {
    let reading = check(R, &Options::with_fuel(5)).unwrap();
    assert!(reading.accepted());
    assert_eq!((reading.outcome, reading.rows, reading.fuel), (Outcome::Done, 8, 0));
    assert_eq!(reading.events.len(), 18);
}

/// P3: nothing is accepted without fuel, whatever the error list says.
#[test]
fn a_reading_that_stops_is_not_accepted() {
    let reading = check(R, &Options::with_fuel(4)).unwrap();
    assert_eq!((reading.outcome, reading.rows, reading.events.len()), (Outcome::OutOfFuel, 6, 17));
    let record = ErrorRecord {
        form: Form::Expecting,
        start: 7,
        end: 16,
        names: vec![Name::META_KW, Name::STRINGS_KW],
        place: None,
        item: 1,
    };
    assert_eq!(reading.errors, [record]);
    // P5
    let reading = check(R, &Options::with_fuel(0)).unwrap();
    assert_eq!((reading.outcome, reading.rows, reading.events.len()), (Outcome::OutOfFuel, 0, 4));
    assert!(reading.errors.is_empty() && !reading.accepted());
}

#[test]
fn rows_tile_the_source() {
    let rows = cut(b"rule a").unwrap();
    let row = |id, start, end| Row { id, start, end };
    let expected = [row(Id::RULE_KW, 0, 4), row(Id::WHITESPACE, 4, 5), row(Id::IDENT, 5, 6)];
    assert_eq!(rows.iter().collect::<Vec<_>>(), expected);
    assert!(cut(b"").unwrap().is_empty());
}

#[test]
fn events_have_their_depth() {
    let source = b"@ rule a{condition:true}";
    let reading = check(source, &Options::default()).unwrap();
    let events: Vec<Event> = reading.events.iter().take(7).collect();
    let event = |kind, start, end, depth| Event { kind, start, end, depth };
    let expected = [
        event(EventKind::Begin(Kind::SOURCE_FILE), 0, 24, 0),
        event(EventKind::Error(0), 0, 1, 1),
        event(EventKind::Begin(Kind::ERROR), 0, 1, 1),
        event(EventKind::Token(Kind::PATTERN_OFFSET), 0, 1, 2),
        event(EventKind::End(Kind::ERROR), 0, 1, 1),
        event(EventKind::Token(Kind::WHITESPACE), 1, 2, 1),
        event(EventKind::Begin(Kind::RULE_DECL), 2, 24, 1),
    ];
    assert_eq!(events, expected);
    let last = reading.events.iter().last().unwrap();
    assert_eq!(last, event(EventKind::End(Kind::SOURCE_FILE), 0, 24, 0));
}

#[test]
fn messages_are_the_library_s() {
    assert_eq!(messages(&R[..21]), ["expecting operator or `}`, found end of file"]);
    assert_eq!(messages(b"@"), ["expecting import statement or rule definition"]);
    assert_eq!(messages(b"rule a{condition:/*"), ["unclosed comment", "expecting `}`, found end of file"]);
    // The string begins at 5, and the byte at 8 cannot continue the character that the one at 7 begins.
    let source = b"rule \"a\xe1\x41\"{";
    let error = &check(source, &Options::default()).unwrap().errors[0];
    assert_eq!((error.form, error.place), (Form::InvalidUtf8, Some(8)));
    assert_eq!(message(source, error).unwrap(), "invalid UTF-8 character");
}

#[test]
fn rules_and_outline() {
    let source = b"rule a{strings:$a=1 condition:true}rule a:t{strings:$b=\"c\" condition:$b}";
    let reading = check(source, &Options::default()).unwrap();
    let first =
        Rule { name_start: 5, name_end: 6, start: 0, end: 35, meta: 0, patterns: 0, tags: 0, damaged: true };
    let second = Rule {
        name_start: 40,
        name_end: 41,
        start: 35,
        end: 72,
        meta: 0,
        patterns: 1,
        tags: 1,
        damaged: false,
    };
    let merged = merge(&reading.events).unwrap();
    assert!(merged.len() < reading.events.len());
    assert_eq!(rules(&reading.events).unwrap(), [first, second]);
    assert_eq!(rules(&merged).unwrap(), [first, second]);
    let nodes = outline(&merged, 0, 1).unwrap();
    let told: Vec<_> = nodes.iter().map(|n| (n.kind, n.start, n.end, n.depth)).collect();
    assert_eq!(told, [(Kind::RULE_DECL, 0, 35, 1), (Kind::RULE_DECL, 35, 72, 1)]);
    assert_eq!(outline(&merged, 0, 0), Ok(vec![]));
}

/// Each of these needs more than the first room, and the test says so.
#[test]
fn buffers_grow() {
    let calls = format!("rule a{{condition:{}}}", ["f(1)"; 300].join("+"));
    let rows = cut(calls.as_bytes()).unwrap();
    let reading = read(calls.as_bytes(), &rows, &Options::default()).unwrap();
    assert!(reading.accepted() && reading.events.len() > 3 * rows.len() + 64);

    let heads = "rule ".repeat(600);
    let reading = check(heads.as_bytes(), &Options::default()).unwrap();
    let numbers: usize = reading.errors.iter().map(|error| error.numbers().len()).sum();
    assert!(numbers > 1_200 + 256);
    assert_eq!(reading.errors.len(), 600);
    assert_eq!(message(heads.as_bytes(), &reading.errors[1]).unwrap(), "expecting identifier, found `rule`");

    let names = (Name::ALL_KW.0..=Name::XOR_KW.0).map(Name).collect();
    let record =
        ErrorRecord { form: Form::ExpectingOther, start: 0, end: 4, names, place: None, item: 1 };
    let text = message(heads.as_bytes(), &record).unwrap();
    assert!(text.len() > 256);
    assert!(
        text.starts_with("expecting `all`, `and`, `any`, `ascii`, ") && text.ends_with("`wide` or `xor`")
    );

    let forty = "rule a{condition:true}".repeat(40);
    let reading = check(forty.as_bytes(), &Options::default()).unwrap();
    assert_eq!(rules(&reading.events).unwrap().len(), 40);
    assert_eq!(outline(&reading.events, 0, 9).unwrap().len(), 160);
}

#[test]
fn refusals_are_told() {
    let long = vec![b' '; raw::MOST_BYTES];
    assert_eq!(cut(&long).unwrap().len(), 1);
    assert_eq!(cut(&[&long[..], b" "].concat()), Err(Refusal::TooLong));
    let most = "{".repeat(raw::MOST_ROWS);
    assert_eq!(check(most.as_bytes(), &Options::default()).unwrap().errors.len(), 1);
    assert_eq!(check((most + "{").as_bytes(), &Options::default()), Err(Refusal::TooLong));

    let read = |ids: &[u32], starts: &[u32], ends: &[u32]| {
        let rows = Rows { ids: ids.to_vec(), starts: starts.to_vec(), ends: ends.to_vec() };
        read(b"{{", &rows, &Options::default()).map(|reading| reading.rows)
    };
    assert_eq!(read(&[66, 66], &[0, 1], &[1, 2]), Ok(2));
    assert_eq!(read(&[66, 66], &[0, 1], &[1]), Err(Refusal::Lengths));
    assert_eq!(read(&[66, 82], &[0, 1], &[1, 2]), Err(Refusal::UnknownId));
    assert_eq!(read(&[66], &[0], &[1]), Err(Refusal::NotTiled));

    let reading = check(&R[..21], &Options::default()).unwrap();
    assert_eq!(message(b"", &reading.errors[0]), Err(Refusal::NotRecord));
    assert_eq!(outline(&reading.events, 2, 1), Err(Refusal::NotNested));
    let past = reading.events.len();
    assert_eq!(outline(&reading.events, past, 1), Err(Refusal::NotNested));
}

#[test]
fn refusals_have_their_numbers() {
    for number in 1..=15 {
        assert_eq!(Refusal::of(number).number(), number);
    }
    assert_eq!(Refusal::of(7), Refusal::Other(7));
    assert_eq!(Refusal::NotTiled.to_string(), "refusal 4: rows that do not tile the source");
    assert_eq!(Refusal::Other(20).to_string(), "refusal 20");
}

#[test]
fn numbers_are_spelled() {
    assert_eq!((Id(37), Id::RULE_KW.spelling()), (Id::RULE_KW, Some("RULE_KW")));
    assert_eq!(Kind::SOURCE_FILE.to_string(), "SOURCE_FILE");
    assert_eq!(Name::PATTERN_MODIFIER.to_string(), "pattern modifier");
    assert_eq!((Id(82).spelling(), Id(82).to_string()), (None, "82".to_string()));
}

/// 1,024 nodes are open, which is the most, in a thread with the stack that the crate names.
#[test]
fn the_deepest_reading_has_the_stack() {
    let source = format!("rule a{{condition:{}", "(".repeat(2_000));
    let run = std::thread::Builder::new().stack_size(stableglow::STACK).spawn(move || {
        let reading = check(source.as_bytes(), &Options::default()).unwrap();
        assert_eq!(reading.outcome, Outcome::TooDeep);
        assert!(!reading.accepted());
    });
    run.unwrap().join().unwrap();
}
