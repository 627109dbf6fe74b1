//! Export runs and objects.

use crate::scenario::Part::{self, Byte, Bytes, Packed, Text, Word};
use crate::scenario::{Scenario, wire};
use crate::script::{Call, Win};

pub fn fields() -> Vec<Scenario> {
    vec![
        good_fields(),
        refused_fields(),
        fields_of_slots(),
        fields_in_windows(),
        long_fields(),
    ]
}

fn good_fields() -> Scenario {
    let mut scenario = Scenario::on_book("a fields run");
    scenario
        .fields_run(&wire(&[Packed(0)]))
        .answers("count 0 at 8");
    let run = wire(&[
        Packed(3),
        // A group without a field.
        Packed(5),
        Packed(1),
        Text("/s.A"),
        Packed(2),
        Byte(0),
        // A field of that group. Any byte but 0 announces it, and its name has
        // a number.
        Packed(5),
        Packed(0),
        Byte(9),
        Packed(1),
        Word(77),
        Byte(0),
        Text("Foo"),
        Word(4),
        // A field without a slot. Its name is an index.
        Packed(5),
        Packed(0),
        Byte(1),
        Packed(2),
        Word(78),
        Byte(3),
        Packed(12),
        // This byte is not read.
        Byte(0xFF),
    ]);
    // 1, then 13, 21 and 10 bytes.
    scenario.fields_run(&run).answers("count 3 at 360");
    scenario
        .dump(1, 9, 0)
        .answers(r#"group 0 path "/s.A" index 5 slots 2 field 1 77 "Foo_3""#);
    scenario.counters([1, 0, 1, 0, 0]);
    // When the run is read again, the group is merged and the field keeps its
    // name.
    scenario.fields_run(&run).answers("count 3 at 360");
    scenario.counters([2, 0, 2, 0, 0]);
    scenario
}

fn refused_fields() -> Scenario {
    let mut scenario = Scenario::on_book("refusals 20 to 23 in a fields run");
    let mut refused = |parts: &[Part<'_>], line| {
        scenario.fields_run(&wire(parts)).answers(line);
    };
    refused(&[], "refused 10 0 8");
    // Refused before the missing byte of the field.
    refused(&[Packed(1), Packed(9), Packed(0)], "refused 20 9 0");
    // The flag is tested before the index.
    refused(&[Packed(1), Packed(9), Packed(2)], "refused 21 9 2");
    let longest = Bytes(&[0xFF, 0xFF, 0xFF, 0xFF, 0x1E]);
    refused(
        &[Packed(1), longest, longest],
        "refused 21 4294967295 4294967295",
    );
    let group = [Packed(2), Packed(1), Packed(1), Text("A"), Packed(1)];
    let other = [Byte(0), Packed(2), Packed(1), Text("B"), Packed(0)];
    refused(&[group, other].concat(), "refused 10 160 8");
    // Both groups were added. This entry has the path of one and the index of
    // the other.
    let crossed = [Packed(1), Packed(2), Packed(1), Text("A"), Packed(0)];
    refused(&crossed, "refused 23 2 0");
    // 65,537 slots are refused before 23.
    let slots = Bytes(&[0x03, 0x01, 0x08]);
    let many = [Packed(1), Packed(2), Packed(1), Text("A"), slots];
    refused(&many, "refused 22 65537 0");
    refused(
        &[
            Packed(1),
            Packed(1),
            Packed(0),
            Byte(1),
            Bytes(&[1; 4]),
            Byte(0x20),
        ],
        "refused 12 32 0",
    );
    refused(
        &[Packed(1), Packed(1), Packed(0), Byte(1), Packed(0), Word(3)],
        "refused 10 72 8",
    );
    let name = [Packed(0), Word(3), Byte(0), Word(1), Byte(0xFF), Word(0)];
    let field: &[_] = &[Packed(1), Packed(1), Packed(0), Byte(1)];
    refused(&[field, &name].concat(), "refused 14 80 0");
    scenario
        .dump(3, 9, 0)
        .answers(r#"group 0 path "A" index 1 slots 1"#)
        .answers(r#"group 1 path "B" index 2 slots 0"#)
        .answers(r#"group 2 path "" index 0 slots 0"#);
    scenario.counters([2, 0, 0, 0, 0]);
    scenario
}

fn fields_of_slots() -> Scenario {
    let mut scenario = Scenario::on_book("65,536 slots in a run");
    let slots = Bytes(&[0x01, 0x01, 0x08]);
    let run = wire(&[Packed(1), Packed(9), Packed(1), Text("A"), slots, Byte(0)]);
    scenario.fields_run(&run).answers("count 1 at 104");
    scenario
        .call(&Call::GroupAt(0))
        .answers(r#"path "A" index 9 slots 65536"#);
    scenario
}

/// A window from the fourth bit on, and one that ends inside a byte.
fn fields_in_windows() -> Scenario {
    let mut scenario = Scenario::on_book("a fields run inside bytes");
    // One entry: index 1, exported, an empty path, 0 slots, no field. Moved up
    // by three bits, 02 02 02 and zeroes are 10 10 10 and zeroes. The bits
    // before them are set.
    let bytes = [0x17, 0x10, 0x10, 0, 0, 0, 0, 0, 0, 0xF8];
    scenario
        .call(&Call::FieldsRun(Win::new(&bytes, 3, 72)))
        .answers("count 1 at 72");
    scenario
        .call(&Call::FieldsRun(Win::new(&bytes, 3, 71)))
        .answers("refused 10 64 8");
    scenario
        .call(&Call::GroupAt(0))
        .answers(r#"path "" index 1 slots 0"#);
    scenario.counters([2, 0, 0, 0, 0]);
    scenario
}

fn long_fields() -> Scenario {
    let mut scenario = Scenario::on_book("refusal 41 in a fields run");
    let letters = vec![b'L'; 4_097];
    let text = |len: usize| wire(&[Word(len as u32), Bytes(&letters[..len])]);
    // Refused before the slots are read.
    let path = wire(&[Packed(1), Packed(1), Packed(1), Bytes(&text(4_097))]);
    scenario.fields_run(&path).answers("refused 41 4097 0");
    scenario.add("A", 1, 1).answers("place 0");
    // Refused before the name's number is read. Then the whole name is too
    // long.
    let field = wire(&[
        Packed(1),
        Packed(1),
        Packed(0),
        Byte(1),
        Packed(0),
        Word(0),
        Byte(0),
    ]);
    let name = wire(&[Bytes(&field), Bytes(&text(4_097))]);
    scenario.fields_run(&name).answers("refused 41 4097 0");
    let name = wire(&[Bytes(&field), Bytes(&text(4_095)), Word(1)]);
    scenario.fields_run(&name).answers("refused 41 4097 0");
    // 4,096 zeroes and a final one, which is dropped; the number is 0 too: 10,
    // 4, 4,097 and 4 bytes.
    let name = wire(&[Bytes(&field), Word(4_097), Bytes(&[0; 4_097]), Word(0)]);
    scenario.fields_run(&name).answers("count 1 at 32920");
    scenario.counters([1, 0, 0, 0, 0]);
    scenario
}

pub fn guids() -> Vec<Scenario> {
    vec![
        good_guids(),
        refused_guids(),
        objects(),
        deep_objects(),
        long_objects(),
    ]
}

fn good_guids() -> Scenario {
    let mut scenario = Scenario::on_book("a GUID run");
    scenario
        .guid_run(&wire(&[Packed(0)]))
        .answers("count 0 at 8");
    let run = wire(&[
        Packed(3),
        // GUID 6 with path and checksum, and outer 4 without either.
        Word(14),
        Packed(6),
        Byte(0b101),
        Packed(4),
        Byte(0b100),
        Text("a"),
        Word(99),
        // No object.
        Word(1),
        Packed(0),
        // GUID 8 with outer 6, which is sent again with another path.
        Word(17),
        Packed(8),
        Byte(1),
        Packed(6),
        Byte(1),
        Packed(0),
        Text("b"),
        Text("c"),
    ]);
    // 1, 18, 5 and 21 bytes.
    scenario.guid_run(&run).answers("count 3 at 360");
    scenario
        .dump(0, 0, 3)
        .answers(r#"guid 0 path "b""#)
        .answers(r#"guid 1 path "c""#)
        .answers(r#"guid 2 path """#);
    scenario.call(&Call::OuterGuid(6)).answers("absent");
    scenario.call(&Call::OuterGuid(8)).answers("guid 6");
    scenario.counters([0, 3, 0, 0, 0]);
    scenario
}

fn refused_guids() -> Scenario {
    let mut scenario = Scenario::on_book("refusals 24 to 26 in a GUID run");
    let mut refused = |parts: &[Part<'_>], line| {
        scenario.guid_run(&wire(parts)).answers(line);
    };
    refused(&[Packed(1), Word(u32::MAX)], "refused 24 4294967295 0");
    refused(&[Packed(1), Word(1 << 31)], "refused 24 2147483648 0");
    refused(&[Packed(1), Bytes(&[0; 3])], "refused 10 8 32");
    // Five bytes are announced, one is there.
    refused(&[Packed(1), Word(5), Byte(0)], "refused 10 40 40");
    // Inside a payload, positions count from its first bit.
    refused(&[Packed(1), Word(0)], "refused 10 0 8");
    refused(&[Packed(1), Word(1), Packed(2), Byte(1)], "refused 10 8 8");
    refused(&[Packed(1), Word(2), Packed(0), Byte(0)], "refused 25 1 0");
    // The object is recorded before the refusal.
    let payload = [Packed(2), Byte(1), Packed(0), Text("t"), Bytes(&[0; 3])];
    let sized: &[_] = &[Packed(1), Word(12)];
    refused(&[sized, &payload].concat(), "refused 25 3 0");
    let mut chain = vec![Packed(1), Word(32)];
    chain.extend([Packed(2), Byte(1)].repeat(16));
    refused(&chain, "refused 26 16 0");
    scenario
        .dump(0, 0, 2)
        .answers(r#"guid 0 path "t""#)
        .answers(r#"guid 1 path """#);
    scenario.counters([0, 1, 0, 0, 0]);
    scenario
}

fn objects() -> Scenario {
    let mut scenario = Scenario::on_book("objects, exporting or not");
    scenario
        .object(&wire(&[Packed(0)]), 1, 0)
        .answers("guid 0 at 8");
    // If it is not exporting, only GUID 1 has flags.
    scenario
        .object(&wire(&[Packed(2), Byte(1)]), 0, 0)
        .answers("guid 2 at 8");
    let flagged = [Packed(1), Byte(1), Packed(2), Text("a")];
    scenario
        .object(&wire(&flagged), 0, 0)
        .answers("guid 1 at 72");
    scenario.call(&Call::OuterGuid(1)).answers("guid 2");
    // If it is exporting, GUID 2 has flags too: they are the first byte of the
    // length. The length is then 0x61000000.
    scenario
        .object(&wire(&flagged), 1, 0)
        .answers("refused 13 32 1627389952");
    // Without a path there is no checksum.
    let bare = wire(&[Packed(1), Byte(0b1111_1110)]);
    scenario.object(&bare, 0, 0).answers("guid 1 at 16");
    scenario
        .object(&wire(&[Packed(1)]), 0, 0)
        .answers("refused 10 8 8");
    let checked = wire(&[Packed(1), Byte(5), Packed(0), Text("b")]);
    scenario.object(&checked, 0, 0).answers("refused 10 72 32");
    scenario.dump(0, 0, 1).answers(r#"guid 0 path "a""#);
    scenario.counters([0, 1, 0, 0, 0]);
    scenario
}

fn deep_objects() -> Scenario {
    let mut scenario = Scenario::on_book("refusal 26");
    // Refused before anything is read.
    scenario.object(&[], 1, 16).answers("refused 26 16 0");
    scenario.object(&[], 0, u32::MAX).answers("refused 26 16 0");
    scenario.object(&[], 1, 15).answers("refused 10 0 8");
    scenario
        .object(&wire(&[Packed(2), Byte(0)]), 1, 15)
        .answers("guid 2 at 16");
    scenario
        .object(&wire(&[Packed(2), Byte(1)]), 1, 15)
        .answers("refused 26 16 0");
    let inner = [Packed(2), Byte(1), Packed(0), Text("a")];
    scenario
        .object(&wire(&inner), 1, 14)
        .answers("guid 2 at 72");
    // Fifteen objects, each the outer of the one before, and no outer for the
    // last.
    let mut chain = [Packed(4), Byte(1)].repeat(15);
    chain.push(Packed(0));
    chain.extend([Text("x")].repeat(15));
    // 30, 1 and 90 bytes.
    scenario
        .object(&wire(&chain), 1, 0)
        .answers("guid 4 at 968");
    scenario
        .object(&wire(&chain), 1, 1)
        .answers("refused 26 16 0");
    // The innermost has no outer, and the next has outer 4. The others change
    // nothing.
    scenario.counters([0, 3, 0, 0, 0]);
    scenario
}

fn long_objects() -> Scenario {
    let mut scenario = Scenario::on_book("refusal 41 in an object");
    let letters = [b'L'; 4_097];
    // Refused before the checksum is read.
    let object = wire(&[Packed(2), Byte(5), Packed(0), Word(4_097), Bytes(&letters)]);
    scenario.object(&object, 1, 0).answers("refused 41 4097 0");
    scenario.call(&Call::PathByGuid(2)).answers("absent");
    scenario
}
