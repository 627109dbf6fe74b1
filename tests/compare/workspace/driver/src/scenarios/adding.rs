//! Books opened and filled by direct calls.

use crate::scenario::Scenario;
use crate::script::Call;

/// The tops of the five allowances.
const TOPS: [u64; 5] = [1_000_000, 100_000, 1_000_000, 67_108_864, 1_000_000];

pub fn opening() -> Vec<Scenario> {
    vec![unopened(), allowances_beyond(), books_apart()]
}

/// This scenario must come before any book is opened.
fn unopened() -> Scenario {
    let mut scenario = Scenario::new("no book");
    scenario.call(&Call::Clear).answers("no book");
    scenario.add("A", 1, 0).answers("no book");
    scenario.write(24).answers("no book");
    scenario.call(&Call::ReadWritten).answers("no book");
    scenario.dump(3, 3, 3).answers("no book");
    scenario.call(&Call::Counters).answers("no book");
    scenario.call(&Call::Use { book: 7 }).answers("using");
    scenario.by_path("A").answers("no book");
    // An argument that would be refused makes no difference.
    scenario.add("A", 1, u32::MAX).answers("no book");
    scenario
}

fn allowances_beyond() -> Scenario {
    let mut scenario = Scenario::new("refusal 1, lowest first");
    for which in 0..5 {
        let mut beyond = [u64::MAX; 5];
        beyond[..which].copy_from_slice(&TOPS[..which]);
        let line = format!("refused 1 {} 0", which + 1);
        scenario.open(1, beyond).answers(&line);
        beyond[which..].fill(0);
        beyond[which] = TOPS[which] + 1;
        scenario.open(1, beyond).answers(&line);
    }
    scenario.call(&Call::Counters).answers("no book");
    scenario.open(1, [0; 5]).answers("opened");
    scenario.open(2, [0, 1, 0, 4, 0]).answers("opened");
    scenario.add("/x/y", 1, 2).answers("place 0");
    // The old book stays, and is the current one.
    scenario.open(1, [0; 5]).answers("opened");
    scenario
        .open(6, [0, 0, 0, 0, 1_000_001])
        .answers("refused 1 5 0");
    scenario.by_path("/x/y").answers("place 0");
    scenario.counters([1, 0, 0, 0, 0]);
    scenario
}

fn books_apart() -> Scenario {
    let mut scenario = Scenario::on_book("books are independent, and numbered modulo 4");
    scenario.add("A", 1, 0).answers("place 0");
    scenario.open(5, [1; 5]).answers("opened");
    scenario.by_path("A").answers("absent");
    scenario.call(&Call::Use { book: 4 }).answers("using");
    scenario.by_path("A").answers("place 0");
    // A book that is opened again is empty, and its counters are 0.
    scenario.open(0, [0; 5]).answers("opened");
    scenario.by_path("A").answers("absent");
    scenario.counters([0; 5]);
    scenario
}

pub fn adding() -> Vec<Scenario> {
    vec![
        example_g1(),
        example_g2(),
        merging(),
        replacing(),
        crossing(),
        slots(),
        clearing(),
    ]
}

fn example_g1() -> Scenario {
    let mut scenario = Scenario::on_book("G1");
    scenario.add("/x/y", 1, 0).answers("place 0");
    scenario.add("/x/_Core/y", 2, 0).answers("place 1");
    scenario.by_path("/x/y").answers("place 1");
    scenario.add("/x/y", 2, 0).answers("place 1");
    scenario
        .dump(2, 0, 0)
        .answers(r#"group 0 path "/x/y" index 1 slots 0"#)
        .answers(r#"group 1 path "/x/y" index 2 slots 0"#);
    scenario
        .write(0)
        .answers("refused 44 1 0 fnv cbf29ce484222325");
    scenario.by_path("/x/_Core/y").answers("absent");
    scenario.counters([3, 0, 0, 0, 0]);
    scenario
}

fn example_g2() -> Scenario {
    let mut scenario = Scenario::on_book("G2");
    scenario.add("/a.b", 5, 1).answers("place 0");
    scenario.leaf_match("b").answers("place 0");
    scenario.add("/x/y", 6, 0).answers("place 1");
    scenario.add("/x/_Core/y", 5, 2).answers("place 0");
    scenario
        .dump(2, 0, 0)
        .answers(r#"group 0 path "/x/_Core/y" index 5 slots 2"#)
        .answers(r#"group 1 path "/x/y" index 6 slots 0"#);
    scenario.leaf_match("b").answers("absent");
    scenario.by_path("/a.b").answers("absent");
    scenario
        .write(0)
        .answers("refused 44 1 0 fnv cbf29ce484222325");
    scenario.counters([3, 0, 0, 1, 0]);
    scenario
}

/// The group is found by its path, and takes the new path and the new index.
fn merging() -> Scenario {
    let mut scenario = Scenario::on_book("merging");
    scenario.add("A", 1, 2).answers("place 0");
    scenario.field(1, 1, 7, "n").answers("placed");
    // The default alias with a new index. The field stays.
    scenario.add("Default__A", 9, 1).answers("place 0");
    scenario
        .dump(1, 9, 0)
        .answers(r#"group 0 path "Default__A" index 9 slots 2 field 1 7 "n""#);
    scenario.call(&Call::GroupByIndex(1)).answers("absent");
    scenario.call(&Call::GroupByIndex(9)).answers("place 0");
    scenario.by_path("A").answers("place 0");
    // A group grows and never shrinks.
    scenario.add("A", 9, 4).answers("place 0");
    scenario.add("A", 9, 0).answers("place 0");
    scenario
        .call(&Call::GroupAt(0))
        .answers(r#"path "A" index 9 slots 4"#);
    // Nothing changes, but the generation increases.
    scenario.add("A", 9, 4).answers("place 0");
    scenario.counters([5, 0, 0, 0, 0]);
    scenario
}

fn replacing() -> Scenario {
    let mut scenario = Scenario::on_book("replacing");
    scenario.add("/s.A", 1, 3).answers("place 0");
    scenario.field(1, 2, 7, "n").answers("placed");
    scenario.add("/s.B", 1, 3).answers("place 0");
    scenario
        .dump(1, 9, 0)
        .answers(r#"group 0 path "/s.B" index 1 slots 3"#);
    // The slot is empty after the replacement, so this is no renaming.
    scenario.field(1, 2, 7, "m").answers("placed");
    scenario.counters([2, 0, 0, 1, 0]);
    scenario
}

fn crossing() -> Scenario {
    let mut scenario = Scenario::on_book("refusal 23");
    scenario.add("A", 1, 1).answers("place 0");
    scenario.add("B", 2, 1).answers("place 1");
    scenario.add("A", 2, 9).answers("refused 23 2 0");
    scenario.add("Default__B", 1, 9).answers("refused 23 1 0");
    // Too many slots are refused first.
    scenario.add("A", 2, 65_537).answers("refused 22 65537 0");
    scenario
        .dump(2, 0, 0)
        .answers(r#"group 0 path "A" index 1 slots 1"#)
        .answers(r#"group 1 path "B" index 2 slots 1"#);
    scenario.counters([2, 0, 0, 0, 0]);
    scenario
}

fn slots() -> Scenario {
    let mut scenario = Scenario::on_book("65,536 slots pass, 65,537 don't");
    scenario.add("A", 1, 65_537).answers("refused 22 65537 0");
    scenario
        .add("A", 1, u32::MAX)
        .answers("refused 22 4294967295 0");
    scenario.add("A", 1, 65_536).answers("place 0");
    scenario.field(1, 65_535, 1, "last").answers("placed");
    scenario.field(1, 65_536, 1, "none").answers("not placed");
    scenario
        .call(&Call::NameAt {
            place: 0,
            slot: 65_535,
        })
        .answers(r#"name "last""#);
    scenario
        .call(&Call::GroupAt(0))
        .answers(r#"path "A" index 1 slots 65536"#);
    scenario.counters([1, 0, 1, 0, 0]);
    scenario
}

fn clearing() -> Scenario {
    let mut scenario = Scenario::on_book("clear keeps three counters");
    scenario.add("/s.A", 1, 1).answers("place 0");
    scenario.field(1, 0, 0, "a").answers("placed");
    scenario.field(1, 0, 0, "b").answers("placed");
    scenario.field(1, 1, 0, "c").answers("not placed");
    scenario.add("/s.B", 1, 0).answers("place 0");
    scenario.guid(4, "G", 0).answers("set");
    scenario.call(&Call::Clear).answers("cleared");
    scenario
        .dump(1, 1, 1)
        .answers(r#"group 0 path "" index 0 slots 0"#)
        .answers(r#"guid 0 path """#);
    scenario.by_path("/s.B").answers("absent");
    scenario.leaf_match("B").answers("absent");
    scenario.call(&Call::PathByGuid(4)).answers("absent");
    scenario.counters([3, 2, 1, 1, 1]);
    scenario.guid(4, "G", 0).answers("set");
    scenario.call(&Call::PathByGuid(4)).answers("place 0");
    scenario
}

pub fn fields() -> Vec<Scenario> {
    let mut scenario = Scenario::on_book("fields placed, dropped and renamed");
    scenario.field(1, 0, 3, "a").answers("not placed");
    scenario.add("A", 1, 2).answers("place 0");
    scenario.field(1, 0, 3, "a").answers("placed");
    scenario.field(1, 2, 3, "a").answers("not placed");
    scenario.field(1, u32::MAX, 3, "a").answers("not placed");
    scenario.field(2, 0, 3, "a").answers("not placed");
    let field = |place, slot| Call::Field { place, slot };
    scenario.call(&field(0, 0)).answers("checksum 3");
    scenario.call(&field(0, 1)).answers("absent");
    scenario.call(&field(0, 2)).answers("absent");
    scenario.call(&field(1, 0)).answers("absent");
    scenario.call(&field(u32::MAX, u32::MAX)).answers("absent");
    // The same name with another checksum is no renaming.
    scenario.field(1, 0, 4, "a").answers("placed");
    scenario.call(&field(0, 0)).answers("checksum 4");
    scenario.field(1, 0, 4, "").answers("placed");
    scenario.field(1, 0, 4, "\u{e9}\0").answers("placed");
    let name = |place, slot| Call::NameAt { place, slot };
    scenario.call(&name(0, 0)).answers(r#"name "\xc3\xa9\x00""#);
    scenario.call(&name(0, 1)).answers(r#"name """#);
    scenario.call(&name(7, 0)).answers(r#"name """#);
    // Fields change no generation.
    scenario.counters([1, 0, 4, 0, 2]);
    vec![scenario]
}

pub fn guids() -> Vec<Scenario> {
    vec![guid_records(), outers()]
}

fn guid_records() -> Scenario {
    let mut scenario = Scenario::on_book("GUIDs in the order of their first setting");
    scenario.guid(8, "B", 0).answers("set");
    scenario.guid(2, "A", 8).answers("set");
    scenario.guid(8, "C", 2).answers("set");
    // These two change nothing.
    scenario.guid(2, "A", 8).answers("set");
    scenario.guid(8, "C", 2).answers("set");
    scenario
        .dump(0, 0, 3)
        .answers(r#"guid 0 path "C""#)
        .answers(r#"guid 1 path "A""#)
        .answers(r#"guid 2 path """#);
    scenario.call(&Call::PathByGuid(8)).answers("place 0");
    scenario.call(&Call::PathByGuid(2)).answers("place 1");
    scenario.call(&Call::PathByGuid(0)).answers("absent");
    scenario.call(&Call::GuidPathAt(1)).answers(r#"path "A""#);
    scenario
        .call(&Call::GuidPathAt(u32::MAX))
        .answers(r#"path """#);
    scenario.counters([0, 3, 0, 0, 0]);
    scenario
}

fn outers() -> Scenario {
    let mut scenario = Scenario::on_book("outers");
    scenario.guid(2, "A", 9).answers("set");
    // The outer is kept, although GUID 9 is unknown.
    scenario.call(&Call::OuterGuid(2)).answers("guid 9");
    scenario.call(&Call::OuterPath(2)).answers("absent");
    scenario.guid(9, "", 9).answers("set");
    scenario.call(&Call::OuterPath(2)).answers("place 1");
    scenario.call(&Call::OuterPath(9)).answers("place 1");
    // An outer of 0 means none, even if GUID 0 has a record.
    scenario.guid(0, "Z", 2).answers("set");
    scenario.guid(2, "A", 0).answers("set");
    scenario.call(&Call::OuterGuid(2)).answers("absent");
    scenario.call(&Call::OuterPath(2)).answers("absent");
    scenario.call(&Call::OuterPath(0)).answers("place 0");
    scenario.call(&Call::PathByGuid(0)).answers("place 2");
    scenario.counters([0, 4, 0, 0, 0]);
    scenario
}
