//! Blocks that are read, written and read again.

use crate::scenario::Part::{self, Byte, Bytes, Packed, Text, Word};
use crate::scenario::{AMPLE, Scenario, wire};
use crate::script::{Call, Win};

/// The bytes of document 01's example B1.
const B1: [u8; 34] = [
    26, 0, 0, 0, 0, 0, 0, 0, 0, 0, 0, 0, 0, 0, 0, 0, 1, 0, 0, 0, // five words
    4, 0, 1, 2, 0, 0, 0, b'A', 0, 0, // GUID 2, outer 0, kind 1, the text, flags
    0, 0, 0, 0, // no groups
];

/// The three zero words after the first word.
const RESERVED: Part<'_> = Bytes(&[0; 12]);

pub fn reading() -> Vec<Scenario> {
    vec![
        good_block(),
        heads_and_counts(),
        refused_guids(),
        refused_groups(),
        wrong_ends(),
        block_in_window(),
        used_book(),
    ]
}

fn good_block() -> Scenario {
    let mut scenario = Scenario::on_book("a block with everything");
    let block = wire(&[
        Word(79),
        RESERVED,
        Word(3),
        // GUID 2 with outer 9 and a literal; GUID 6 with a place, which is that
        // literal; GUID 2 again, with a new literal.
        Packed(2),
        Packed(9),
        Byte(1),
        Text("a"),
        Byte(0xFF),
        Packed(6),
        Packed(0),
        Byte(0),
        Packed(0),
        Byte(1),
        Packed(2),
        Packed(9),
        Byte(1),
        Text(""),
        Byte(0),
        Word(2),
        Text("/s.A"),
        Packed(5),
        Packed(3),
        Byte(0),
        Byte(2),
        Packed(1),
        Word(77),
        Byte(0),
        Text("f"),
        Word(1),
        Byte(0),
        Text(""),
        // The number 1 in five bytes.
        Bytes(&[3, 1, 1, 1, 0]),
        Packed(0),
        // This byte is after the end of the block.
        Byte(7),
    ]);
    // 20, 10, 5 and 8 bytes; 4; 9 + 2, 1 + 17 + 1; 4 + 5 + 1: 87 bytes. One
    // more byte follows.
    scenario.block(&block).answers("counts 3 2 1 87 1 2 1");
    scenario
        .dump(2, 3, 3)
        .answers(r#"group 0 path "/s.A" index 5 slots 3 field 1 77 "f_0""#)
        .answers(r#"group 1 path "" index 1 slots 0"#)
        .answers(r#"guid 0 path """#)
        .answers(r#"guid 1 path "a""#)
        .answers(r#"guid 2 path """#);
    scenario.call(&Call::OuterGuid(2)).answers("guid 9");
    scenario.counters([2, 3, 0, 0, 0]);
    scenario
}

fn heads_and_counts() -> Scenario {
    let mut scenario = Scenario::on_book("refusals 30 and 31");
    let mut refused = |parts: &[Part<'_>], line| {
        scenario.block(&wire(parts)).answers(line);
    };
    refused(&[], "refused 10 0 32");
    refused(&[Word(16), Word(1)], "refused 30 4 1");
    refused(
        &[Word(16), Word(0), Word(u32::MAX)],
        "refused 30 8 4294967295",
    );
    refused(
        &[Word(16), Word(0), Word(0), Word(256)],
        "refused 30 12 256",
    );
    refused(&[Word(16), RESERVED], "refused 10 128 32");
    refused(
        &[Word(16), RESERVED, Word(1_000_001)],
        "refused 31 1 1000001",
    );
    refused(&[Word(16), RESERVED, Word(1_000_000)], "refused 10 160 8");
    let no_guids = [Word(16), RESERVED, Word(0)];
    let mut groups = |parts: &[Part<'_>], line| {
        refused(&[&no_guids, parts].concat(), line);
    };
    groups(&[Word(100_001)], "refused 31 2 100001");
    groups(&[Word(100_000)], "refused 10 192 32");
    let slots = Bytes(&[0x03, 0x01, 0x08]);
    groups(
        &[Word(1), Text("A"), Packed(1), slots],
        "refused 31 3 65537",
    );
    scenario.counters([0; 5]);
    scenario
}

fn refused_guids() -> Scenario {
    let mut scenario = Scenario::on_book("refusals 32 and 33");
    let mut refused = |parts: &[Part<'_>], line| {
        let head: &[_] = &[Word(0), RESERVED, Word(2)];
        scenario.block(&wire(&[head, parts].concat())).answers(line);
    };
    refused(&[Packed(2), Packed(0), Byte(2)], "refused 32 0 2");
    refused(
        &[Packed(2), Packed(0), Byte(0), Packed(0)],
        "refused 33 0 0",
    );
    let literal = [Packed(2), Packed(0), Byte(1), Text("a"), Byte(0)];
    let with: &[_] = &[Packed(4), Packed(0), Byte(255)];
    refused(&[&literal, with].concat(), "refused 32 1 255");
    let with: &[_] = &[Packed(4), Packed(0), Byte(0), Packed(1)];
    refused(&[&literal, with].concat(), "refused 33 1 1");
    // The place is there, the flags are missing: 20, 10 and 4 bytes.
    let with: &[_] = &[Packed(4), Packed(0), Byte(0), Packed(0)];
    refused(&[&literal, with].concat(), "refused 10 272 8");
    // The last three blocks set their first entry. Only the first of them
    // changed something.
    scenario
        .dump(0, 0, 2)
        .answers(r#"guid 0 path "a""#)
        .answers(r#"guid 1 path """#);
    scenario.counters([0, 1, 0, 0, 0]);
    scenario
}

fn refused_groups() -> Scenario {
    let mut scenario = Scenario::new("refusals 34 and 35");
    let mut refused = |allowances, parts: &[Part<'_>], line| {
        scenario.open(0, allowances).answers("opened");
        let head: &[_] = &[Word(0), RESERVED, Word(0), Word(2)];
        let group: &[_] = &[Text("A"), Packed(1), Packed(0)];
        let block = wire(&[head, group, parts].concat());
        scenario.block(&block).answers(line);
    };
    refused(AMPLE, &[Text("B"), Packed(1), Packed(0)], "refused 34 1 0");
    refused(AMPLE, &[Text("A"), Packed(2), Packed(0)], "refused 34 2 0");
    // A path with a known alias is refused too: before too many groups, and
    // before too much text.
    let alias = [Text("Default__A"), Packed(2), Packed(0)];
    refused([0, 1, 0, 1, 0], &alias, "refused 34 2 0");
    let slots = Bytes(&[0x03, 0x01, 0x08]);
    // Too many slots are refused before 34.
    refused(AMPLE, &[Text("A"), Packed(2), slots], "refused 31 3 65537");
    refused(
        [0, 1, 0, 1, 0],
        &[Text("B"), Packed(2), Packed(0)],
        "refused 42 2 0",
    );
    refused(
        [0, 2, 0, 1, 0],
        &[Text("B"), Packed(2), Packed(0)],
        "refused 42 4 0",
    );
    // Refused before the checksum is read.
    let filled = [Text("B"), Packed(2), Packed(2), Byte(0), Byte(1), Packed(2)];
    refused(AMPLE, &filled, "refused 35 1 2");
    scenario
        .dump(2, 2, 0)
        .answers(r#"group 0 path "A" index 1 slots 0"#)
        .answers(r#"group 1 path "B" index 2 slots 2"#);
    scenario.counters([2, 0, 0, 0, 0]);
    scenario
}

fn wrong_ends() -> Scenario {
    let mut scenario = Scenario::on_book("refusal 36");
    let mut wrong = B1;
    wrong[0] = 27;
    scenario.block(&wrong).answers("refused 36 34 35");
    // Everything was read before the refusal, and stays.
    scenario.call(&Call::PathByGuid(2)).answers("place 0");
    wrong[..4].fill(0xFF);
    scenario.block(&wrong).answers("refused 36 34 4294967303");
    scenario.block(&B1[..33]).answers("refused 10 240 32");
    scenario.block(&B1).answers("counts 1 0 0 34 0 1 0");
    scenario.counters([0, 1, 0, 0, 0]);
    scenario
}

fn block_in_window() -> Scenario {
    let mut scenario = Scenario::on_book("a block inside bytes");
    // All bits move up by one: each byte is doubled. No byte of B1 has its top
    // bit set.
    let mut bytes: Vec<u8> = B1.iter().map(|byte| byte * 2).collect();
    bytes[0] |= 1;
    bytes.push(0xFE);
    let mut read = |count, line| {
        let win = Win::new(&bytes, 1, count);
        scenario.call(&Call::Block(win)).answers(line);
    };
    read(271, "refused 10 240 32");
    read(272, "counts 1 0 0 34 0 1 0");
    read(279, "counts 1 0 0 34 0 1 0");
    read(280, "refused 15 280 279");
    scenario
}

/// The book of a block need not be new.
fn used_book() -> Scenario {
    let mut scenario = Scenario::on_book("a block for a book in use");
    scenario.guid(6, "z", 0).answers("set");
    scenario.guid(2, "y", 6).answers("set");
    scenario.add("C", 9, 1).answers("place 0");
    scenario.block(&B1).answers("counts 1 0 0 34 0 1 0");
    scenario.call(&Call::OuterGuid(2)).answers("absent");
    scenario.call(&Call::PathByGuid(2)).answers("place 1");
    let group = wire(&[
        Word(28),
        RESERVED,
        Word(0),
        Word(1),
        Text("C"),
        Packed(8),
        Packed(0),
    ]);
    scenario.block(&group).answers("refused 34 8 0");
    scenario
}

pub fn writing() -> Vec<Scenario> {
    vec![
        example_b1(),
        empty_blocks(),
        written_block(),
        covered_paths(),
        late_reader(),
    ]
}

fn example_b1() -> Scenario {
    let mut scenario = Scenario::on_book("B1");
    scenario.guid(2, "A", 0).answers("set");
    scenario.write(34).answers("length 34 fnv f7a60dc7eb3e4b76");
    scenario.write(35).answers("length 34 fnv 0d753db4badad789");
    // The buffer is unchanged.
    scenario
        .write(33)
        .answers("refused 45 34 0 fnv ef9616a152eb0860");
    scenario
        .write(0)
        .answers("refused 45 34 0 fnv cbf29ce484222325");
    // A refused writing leaves the last written block.
    scenario.open(1, AMPLE).answers("opened");
    scenario
        .call(&Call::ReadWritten)
        .answers("counts 1 0 0 34 0 1 0");
    scenario.call(&Call::GuidPathAt(0)).answers(r#"path "A""#);
    scenario.call(&Call::PathByGuid(2)).answers("place 0");
    scenario.counters([0, 1, 0, 0, 0]);
    scenario
}

fn empty_blocks() -> Scenario {
    let mut scenario = Scenario::on_book("an empty book's block");
    scenario.write(24).answers("length 24 fnv ec4cd392d6dac915");
    scenario.write(26).answers("length 24 fnv 287b89bdfd42758f");
    scenario
        .write(23)
        .answers("refused 45 24 0 fnv 4c95f11639167c0a");
    scenario
        .call(&Call::ReadWritten)
        .answers("counts 0 0 0 24 0 0 0");
    scenario.counters([0; 5]);
    scenario
}

/// Two GUIDs, of which one is the outer of the other, which has an empty path;
/// a group with an empty path, and one of its two slots filled.
fn written_block() -> Scenario {
    let mut scenario = Scenario::on_book("a written block");
    scenario.guid(300, "", 2).answers("set");
    scenario.guid(2, "A", 0).answers("set");
    scenario.add("", 200, 2).answers("place 0");
    scenario.field(200, 1, 0x0102_0304, "B").answers("placed");
    scenario.write(68).answers("length 68 fnv 4d10820e4218420e");
    scenario.open(1, AMPLE).answers("opened");
    scenario
        .call(&Call::ReadWritten)
        .answers("counts 2 1 1 68 0 2 0");
    scenario
        .dump(1, 2, 2)
        .answers(r#"group 0 path "" index 200 slots 2 field 1 16909060 "B""#)
        .answers(r#"guid 0 path """#)
        .answers(r#"guid 1 path "A""#);
    scenario.call(&Call::OuterPath(300)).answers("place 1");
    scenario
}

/// A path that is a key of an earlier group cannot be read back.
fn covered_paths() -> Scenario {
    let mut scenario = Scenario::on_book("refusal 44");
    let refused = "refused 44 2 0 fnv cbf29ce484222325";
    scenario.add("/z", 7, 0).answers("place 0");
    scenario.add("/x/y", 1, 0).answers("place 1");
    scenario.add("/x/_Core/y", 2, 0).answers("place 2");
    // In the other order it can: the later path is no key of the earlier group.
    // 24, 9, 11 and 17 bytes.
    scenario
        .write(0)
        .answers("refused 45 61 0 fnv cbf29ce484222325");
    scenario.add("/x/y", 2, 0).answers("place 2");
    scenario.write(0).answers(refused);
    // The refusal names the first of two such groups. It comes before the
    // length is tested.
    scenario.add("/x/_Core/y", 3, 0).answers("place 3");
    scenario.add("/x/y", 3, 0).answers("place 3");
    scenario.write(0).answers(refused);
    scenario.call(&Call::Clear).answers("cleared");
    scenario.write(24).answers("length 24 fnv ec4cd392d6dac915");
    scenario
}

/// After the block was read, both readers answer the same, except for the
/// counters.
fn late_reader() -> Scenario {
    let mut scenario = Scenario::on_book("a late reader");
    scenario.add("/s.A", 1, 2).answers("place 0");
    scenario.field(1, 0, 5, "a").answers("placed");
    scenario.field(1, 0, 5, "b").answers("placed");
    scenario.guid(4, "g", 9).answers("set");
    // 24; 3 + 6 + 1; 9 + 1 + 1, 1 + 1 + 4 + 1 + 6 + 4, 1: 63 bytes.
    scenario
        .write(0)
        .answers("refused 45 63 0 fnv cbf29ce484222325");
    scenario.call(&Call::Write { buffer: 63 });
    let written = wire(&[
        Word(55),
        RESERVED,
        Word(1),
        Packed(4),
        Packed(9),
        Byte(1),
        Text("g"),
        Byte(0),
        Word(1),
        Text("/s.A"),
        Packed(1),
        Packed(2),
        Byte(1),
        Packed(0),
        Word(5),
        Byte(0),
        Text("b"),
        Word(0),
        Byte(0),
    ]);
    scenario.answers(&format!("length 63 fnv {:016x}", fnv(&written)));
    scenario.open(1, AMPLE).answers("opened");
    scenario
        .call(&Call::ReadWritten)
        .answers("counts 1 1 1 63 0 1 0");
    scenario.counters([1, 1, 0, 0, 0]);
    for (book, counters) in [(0, [2, 1, 0, 1, 1]), (1, [2, 1, 0, 1, 0])] {
        scenario.call(&Call::Use { book }).answers("using");
        scenario.guid(4, "g", 9).answers("set");
        scenario.call(&Call::OuterGuid(4)).answers("guid 9");
        scenario.leaf_match("A").answers("place 0");
        scenario.add("/s.B", 1, 1).answers("place 0");
        scenario.leaf_match("A").answers("absent");
        scenario
            .dump(1, 2, 1)
            .answers(r#"group 0 path "/s.B" index 1 slots 1"#)
            .answers(r#"guid 0 path "g""#);
        scenario.counters(counters);
    }
    scenario
}

/// FNV-1a, independent of the oracle's function.
fn fnv(bytes: &[u8]) -> u64 {
    let mut hash: u64 = 14_695_981_039_346_656_037;
    for &byte in bytes {
        hash = (hash ^ u64::from(byte)).wrapping_mul(1_099_511_628_211);
    }
    hash
}

pub fn tally() -> Vec<Scenario> {
    vec![tally_of_blocks(), tally_at_limits()]
}

fn tally_of_blocks() -> Scenario {
    let mut scenario = Scenario::new("tally");
    let empty = wire(&[Word(16), RESERVED, Word(0), Word(0)]);
    let line = "tally guids=0 groups=0 fields=0 frame=24 indexed=0 literals=0 resolved=0";
    scenario.tally(&empty).answers(line);
    scenario
        .tally(&B1)
        .answers("tally guids=1 groups=0 fields=0 frame=34 indexed=0 literals=1 resolved=0");
    scenario.tally(&[]).answers("tally refusal=10 a=0 b=32");
    let mut wrong = empty.clone();
    wrong[0] = 17;
    scenario.tally(&wrong).answers("tally refusal=36 a=24 b=25");
    // The most bytes that are read, and one more.
    let mut long = empty;
    long.resize(65_536, 0);
    scenario.tally(&long).answers(line);
    long.push(0);
    scenario.tally(&long).answers("tally refusal=43 a=0 b=0");
    // `tally` needs no book.
    scenario.call(&Call::Counters).answers("no book");
    scenario
}

/// Blocks that fill `tally`'s book, and slightly larger ones.
fn tally_at_limits() -> Scenario {
    let mut scenario = Scenario::new("tally's allowances");
    let mut refused = |guids: &[Vec<u8>], groups: &[Vec<u8>], line: &str| {
        let counts = [guids.len() as u32, groups.len() as u32];
        let (guids, groups) = (guids.concat(), groups.concat());
        let length = 24 + guids.len() + groups.len();
        let block = wire(&[
            Word(length as u32 - 8),
            RESERVED,
            Word(counts[0]),
            Bytes(&guids),
            Word(counts[1]),
            Bytes(&groups),
        ]);
        scenario.tally(&block).answers(line);
    };
    // Every GUID has two bytes. From 128 on it needs them.
    let encoded = |guid: usize| [(guid as u8) << 1 | 1, (guid >> 7 << 1) as u8];
    let literal = |guid| wire(&[Bytes(&encoded(guid)), Packed(0), Byte(1), Text(""), Byte(0)]);
    let place = |guid| {
        wire(&[
            Bytes(&encoded(guid)),
            Packed(0),
            Byte(0),
            Packed(0),
            Byte(0),
        ])
    };
    let mut guids: Vec<Vec<u8>> = (0..128).map(literal).collect();
    // 24 and 128 times 9 bytes.
    refused(
        &guids,
        &[],
        "tally guids=128 groups=0 fields=0 frame=1176 indexed=0 literals=128 resolved=0",
    );
    guids.push(place(128));
    refused(&guids, &[], "tally refusal=42 a=1 b=0");
    guids[128] = literal(128);
    refused(&guids, &[], "tally refusal=42 a=5 b=0");
    let group = |nth: u8| wire(&[Word(1), Byte(nth + 1), Packed(nth), Packed(0)]);
    let mut groups: Vec<Vec<u8>> = (0..32).map(group).collect();
    refused(
        &[],
        &groups,
        "tally guids=0 groups=32 fields=0 frame=248 indexed=0 literals=0 resolved=0",
    );
    groups.push(group(32));
    refused(&[], &groups, "tally refusal=42 a=2 b=0");
    // Three groups of 43 fields have 129 fields, one too many.
    let field = |slot| wire(&[Byte(1), Packed(slot), Word(0), Byte(1), Packed(0)]);
    let fields: Vec<u8> = (0..43).flat_map(field).collect();
    let group = |nth: u8| {
        wire(&[
            Word(1),
            Byte(nth + 1),
            Packed(nth),
            Packed(43),
            Bytes(&fields),
        ])
    };
    refused(
        &[],
        &[group(0), group(1), group(2)],
        "tally refusal=42 a=3 b=0",
    );
    // One text for 128 records. With 64 bytes each they fill the text
    // allowance.
    let shared = |len: usize| {
        let text = "L".repeat(len);
        let first = wire(&[Packed(0), Packed(0), Byte(1), Text(&text), Byte(0)]);
        let mut guids: Vec<Vec<u8>> = (1..128).map(place).collect();
        guids.insert(0, first);
        guids
    };
    // 24, 73 and 127 times 6 bytes.
    refused(
        &shared(64),
        &[],
        "tally guids=128 groups=0 fields=0 frame=859 indexed=127 literals=1 resolved=127",
    );
    refused(&shared(65), &[], "tally refusal=42 a=4 b=0");
    scenario
}
