//! Callers' texts, allowances and windows at their limits.

use crate::scenario::Part::{Byte, Bytes, Packed, Text, Word};
use crate::scenario::{Scenario, wire};
use crate::script::{Blob, Call, Win};

pub fn texts() -> Vec<Scenario> {
    vec![bad_texts(), long_texts(), texts_of_fields()]
}

fn bad_texts() -> Scenario {
    let mut scenario = Scenario::on_book("refusal 40");
    let bad = Blob::Plain(&[0x41, 0xC3]);
    let add = |path, slots| Call::AddGroup {
        path,
        index: 1,
        slots,
    };
    scenario.call(&add(bad, 0)).answers("refused 40 0 0");
    // Bad text is refused before too many slots, and before too many bytes.
    scenario.call(&add(bad, 65_537)).answers("refused 40 0 0");
    let long = Blob::Filled {
        len: 5_000,
        head: &[],
        fill: 0x80,
    };
    scenario.call(&add(long, 0)).answers("refused 40 0 0");
    scenario
        .call(&Call::SetGuid {
            guid: 1,
            path: bad,
            outer: 0,
        })
        .answers("refused 40 0 0");
    for lookup in [
        Call::GroupByPath(bad),
        Call::LeafMatch(bad),
        Call::ResolveInstance(bad),
        Call::ClassNetCacheKey(bad),
    ] {
        scenario.call(&lookup).answers("refused 40 0 0");
    }
    scenario.counters([0; 5]);
    scenario
}

fn long_texts() -> Scenario {
    let top = "L".repeat(4_096);
    let beyond = "L".repeat(4_097);
    let mut scenario = Scenario::on_book("refusal 41");
    scenario.add(&beyond, 1, 0).answers("refused 41 4097 0");
    // Long text is refused before too many slots.
    scenario
        .add(&beyond, 1, 65_537)
        .answers("refused 41 4097 0");
    scenario.add(&top, 1, 0).answers("place 0");
    scenario.by_path(&top).answers("place 0");
    scenario.by_path(&beyond).answers("refused 41 4097 0");
    scenario.leaf_match(&top).answers("absent");
    scenario.leaf_match(&beyond).answers("refused 41 4097 0");
    scenario.resolve(&top).answers("absent");
    scenario.resolve(&beyond).answers("refused 41 4097 0");
    scenario.class_net_cache(&top).answers("place 0");
    scenario
        .class_net_cache(&beyond)
        .answers("refused 41 4097 0");
    scenario.guid(1, &beyond, 0).answers("refused 41 4097 0");
    scenario.guid(1, &top, 0).answers("set");
    // The limit counts bytes: 2,049 letters of two bytes each.
    let accents = "\u{e9}".repeat(2_049);
    scenario.guid(1, &accents, 0).answers("refused 41 4098 0");
    scenario.counters([1, 1, 0, 0, 0]);
    scenario
}

/// A refused name is not counted as dropped. A dropped name uses no allowance.
fn texts_of_fields() -> Scenario {
    let mut scenario = Scenario::new("names that are refused or dropped");
    scenario.open(0, [0, 0, 0, 0, 0]).answers("opened");
    scenario.field(1, 0, 0, "long enough").answers("not placed");
    scenario
        .field(1, 0, 0, &"L".repeat(4_097))
        .answers("refused 41 4097 0");
    let bad = Call::SetField {
        index: 1,
        handle: 0,
        checksum: 0,
        name: Blob::Plain(&[0xFF]),
    };
    scenario.call(&bad).answers("refused 40 0 0");
    scenario.counters([0, 0, 1, 0, 0]);
    scenario
}

pub fn allowances() -> Vec<Scenario> {
    vec![
        guid_allowance(),
        group_allowance(),
        field_allowance(),
        text_allowance(),
        literal_allowance(),
        lowest_first(),
        inside_readers(),
    ]
}

fn guid_allowance() -> Scenario {
    let mut scenario = Scenario::new("refusal 42 for GUIDs");
    scenario.open(0, [1, 0, 0, 9, 0]).answers("opened");
    scenario.guid(5, "a", 0).answers("set");
    scenario.guid(6, "b", 0).answers("refused 42 1 0");
    scenario.guid(5, "bb", 6).answers("set");
    scenario.counters([0, 2, 0, 0, 0]);
    scenario.call(&Call::Clear).answers("cleared");
    scenario.guid(6, "b", 0).answers("set");
    scenario
}

fn group_allowance() -> Scenario {
    let mut scenario = Scenario::new("refusal 42 for groups");
    scenario.open(0, [0, 1, 0, 9, 0]).answers("opened");
    scenario.add("A", 1, 0).answers("place 0");
    scenario.add("B", 2, 0).answers("refused 42 2 0");
    // A merged or replaced group uses no more of the allowance for groups.
    scenario.add("Default__A", 2, 0).answers("refused 42 4 0");
    scenario.add("A", 2, 65_536).answers("place 0");
    scenario.add("B", 2, 0).answers("place 0");
    scenario.counters([3, 0, 0, 1, 0]);
    scenario
}

fn field_allowance() -> Scenario {
    let mut scenario = Scenario::new("refusal 42 for fields");
    scenario.open(0, [0, 2, 1, 99, 0]).answers("opened");
    scenario.add("A", 1, 3).answers("place 0");
    scenario.field(1, 0, 0, "x").answers("placed");
    scenario.field(1, 1, 0, "y").answers("refused 42 3 0");
    scenario.field(1, 0, 0, "y").answers("placed");
    scenario.field(1, 3, 0, "z").answers("not placed");
    // A replaced group gives its fields back.
    scenario.add("B", 1, 3).answers("place 0");
    scenario.field(1, 2, 0, "y").answers("placed");
    scenario.counters([2, 0, 1, 1, 1]);
    scenario
}

/// Text that is dropped can be used again, in the same step too.
fn text_allowance() -> Scenario {
    let mut scenario = Scenario::new("refusal 42 for text");
    scenario.open(0, [9, 9, 9, 10, 0]).answers("opened");
    scenario.guid(5, "12345", 0).answers("set");
    scenario.add("AB", 1, 2).answers("place 0");
    scenario.field(1, 0, 0, "xyz").answers("placed");
    // Ten bytes are held.
    scenario.field(1, 1, 0, "u").answers("refused 42 4 0");
    scenario.field(1, 1, 0, "").answers("placed");
    scenario.field(1, 0, 0, "\u{e9}x").answers("placed");
    scenario
        .field(1, 0, 0, "\u{e9}xy")
        .answers("refused 42 4 0");
    scenario.guid(5, "12345", 9).answers("set");
    scenario.guid(5, "123456", 9).answers("refused 42 4 0");
    scenario.guid(6, "", 5).answers("set");
    scenario.guid(5, "1234", 9).answers("set");
    scenario.add("ABC", 2, 0).answers("refused 42 4 0");
    // The group's path and both names are dropped.
    scenario.add("CDEFGH", 1, 0).answers("place 0");
    scenario.add("CDEFGHI", 1, 0).answers("refused 42 4 0");
    scenario.counters([2, 4, 0, 1, 1]);
    scenario
}

/// A block's GUID entry with a literal.
fn literal(guid: u8, path: &str) -> Vec<u8> {
    wire(&[Packed(guid), Packed(0), Byte(1), Text(path), Byte(0)])
}

fn literal_allowance() -> Scenario {
    let head = |guids| wire(&[Word(0), Word(0), Word(0), Word(0), Word(guids)]);
    let mut scenario = Scenario::new("refusal 42 for literals");
    // The literals themselves take no text: two bytes are held at the end.
    scenario.open(0, [2, 0, 0, 2, 1]).answers("opened");
    let place = wire(&[Packed(4), Packed(0), Byte(0), Packed(0), Byte(0)]);
    let shared = [head(2), literal(2, "a"), place.clone()].concat();
    // 20, 10 and 5 bytes. The count of groups is missing.
    scenario.block(&shared).answers("refused 10 280 32");
    // The second literal is refused before its flags are read.
    let mut second = [head(2), literal(2, "b"), literal(4, "b")].concat();
    second.pop();
    scenario.block(&second).answers("refused 42 5 0");
    scenario
        .dump(0, 0, 2)
        .answers(r#"guid 0 path "b""#)
        .answers(r#"guid 1 path "a""#);
    // And before too many GUIDs.
    let third = [head(3), literal(2, "c"), place, literal(6, "c")].concat();
    scenario.block(&third).answers("refused 42 5 0");
    scenario.counters([0, 5, 0, 0, 0]);
    // Each block has its own literals.
    scenario
        .block(&[head(1), literal(2, "d")].concat())
        .answers("refused 10 240 32");
    scenario
}

fn lowest_first() -> Scenario {
    let mut scenario = Scenario::new("refusal 42, lowest first");
    scenario.open(0, [0; 5]).answers("opened");
    scenario.guid(1, "a", 0).answers("refused 42 1 0");
    scenario.add("a", 1, 0).answers("refused 42 2 0");
    scenario.open(0, [0, 1, 0, 0, 0]).answers("opened");
    scenario.add("a", 1, 0).answers("refused 42 4 0");
    scenario.add("", 1, 1).answers("place 0");
    scenario.field(1, 0, 0, "a").answers("refused 42 3 0");
    scenario.counters([1, 0, 0, 0, 0]);
    scenario
}

/// What was done before the refused step stays.
fn inside_readers() -> Scenario {
    let mut scenario = Scenario::new("refusal 42 inside a run");
    scenario.open(0, [1, 1, 0, 9, 0]).answers("opened");
    // Adding the group is one step, setting the field another.
    let field: &[_] = &[Byte(1), Packed(0), Word(7), Byte(0), Text("n"), Word(0)];
    let group = [Packed(1), Packed(3), Packed(1), Text("A"), Packed(1)];
    scenario
        .fields_run(&wire(&[&group, field].concat()))
        .answers("refused 42 3 0");
    scenario
        .dump(1, 1, 0)
        .answers(r#"group 0 path "A" index 3 slots 1"#);
    scenario.counters([1, 0, 0, 0, 0]);
    // An outer is recorded before the object that it belongs to.
    let outer = [Packed(4), Byte(1), Packed(0), Text("o")];
    let inner: &[_] = &[Packed(2), Byte(1)];
    let object = wire(&[inner, &outer, &[Text("i")]].concat());
    scenario.object(&object, 1, 0).answers("refused 42 1 0");
    scenario
        .dump(0, 0, 2)
        .answers(r#"guid 0 path "o""#)
        .answers(r#"guid 1 path """#);
    scenario.call(&Call::PathByGuid(4)).answers("place 0");
    scenario
}

/// The longest slice that is allowed, and one that is one byte longer.
pub fn windows() -> Vec<Scenario> {
    vec![too_long_windows(), long_windows()]
}

const WINDOW_TOP: u32 = 268_435_456;

fn filled(len: u32, first: u64, count: u64) -> Win<'static> {
    Win {
        blob: Blob::Filled {
            len,
            head: &[],
            fill: 0,
        },
        first,
        count,
    }
}

fn too_long_windows() -> Scenario {
    let mut scenario = Scenario::on_book("refusal 43, before 15 and before 26");
    let win = filled(WINDOW_TOP + 1, u64::MAX, u64::MAX);
    scenario
        .call(&Call::FieldsRun(win))
        .answers("refused 43 0 0");
    scenario.call(&Call::GuidRun(win)).answers("refused 43 0 0");
    scenario.call(&Call::Block(win)).answers("refused 43 0 0");
    scenario
        .call(&Call::Object {
            win,
            exporting: 1,
            depth: 99,
        })
        .answers("refused 43 0 0");
    scenario
        .call(&Call::Tally(win.blob))
        .answers("tally refusal=43 a=0 b=0");
    scenario
}

fn long_windows() -> Scenario {
    let mut scenario = Scenario::on_book("refusal 15, before 26, and the longest slice");
    let all = u64::from(WINDOW_TOP) * 8;
    let beyond = filled(WINDOW_TOP, 1, all);
    let line = format!("refused 15 {all} {}", all - 1);
    scenario.call(&Call::FieldsRun(beyond)).answers(&line);
    scenario.call(&Call::GuidRun(beyond)).answers(&line);
    scenario.call(&Call::Block(beyond)).answers(&line);
    let object = |win| Call::Object {
        win,
        exporting: 1,
        depth: 16,
    };
    scenario.call(&object(beyond)).answers(&line);
    scenario
        .call(&object(filled(WINDOW_TOP, 1, all - 1)))
        .answers("refused 26 16 0");
    // A count of 0, and six zero words: the block ends at byte 24, not 8.
    scenario
        .call(&Call::FieldsRun(filled(WINDOW_TOP, 0, all)))
        .answers("count 0 at 8");
    scenario
        .call(&Call::Block(filled(WINDOW_TOP, 5, all - 5)))
        .answers("refused 36 24 8");
    // After the end of the bytes only the empty window is allowed.
    scenario
        .call(&Call::FieldsRun(filled(3, 99, 0)))
        .answers("refused 10 0 8");
    scenario
        .call(&Call::Block(filled(3, 99, 1)))
        .answers("refused 15 1 0");
    // The text's length is complete, but a byte of the text is missing.
    let cut = wire(&[Packed(1), Packed(0), Packed(1), Word(9), Bytes(&[65; 8])]);
    scenario.fields_run(&cut).answers("refused 13 24 9");
    scenario
}
