//! Lookups by path and by name.

use crate::scenario::Scenario;
use crate::script::Call;

pub fn places() -> Vec<Scenario> {
    vec![
        keys(),
        core_aliases(),
        empty_path(),
        tags(),
        cache_keys(),
        long_keys(),
    ]
}

fn keys() -> Scenario {
    let mut scenario = Scenario::on_book("keys of a path");
    scenario.add("A", 1, 0).answers("place 0");
    scenario.by_path("Default__A").answers("place 0");
    scenario.by_path("a").answers("absent");
    scenario.add("Default__B", 2, 0).answers("place 1");
    scenario.by_path("B").answers("place 1");
    scenario.by_path("Default__Default__B").answers("absent");
    // A path with a separator gets no default alias, but a `Default__` before
    // it is removed.
    scenario.add("/s.C", 3, 0).answers("place 2");
    scenario.by_path("Default__/s.C").answers("absent");
    scenario.add("Default__/s:D", 4, 0).answers("place 3");
    scenario.by_path("/s:D").answers("place 3");
    scenario.add("x:y", 5, 0).answers("place 4");
    scenario.by_path("Default__x:y").answers("absent");
    scenario
}

fn core_aliases() -> Scenario {
    let mut scenario = Scenario::on_book("core aliases");
    // Example K2.
    scenario.add("/x/_Core/y", 1, 0).answers("place 0");
    scenario.by_path("/x/y").answers("place 0");
    // Only the first `/_Core/` is removed.
    scenario.add("/_Core/_Core/z", 2, 0).answers("place 1");
    scenario.by_path("/_Core/z").answers("place 1");
    scenario.by_path("/z").answers("absent");
    scenario.add("/Game/Characters/J", 3, 0).answers("place 2");
    scenario
        .by_path("/Game/Characters/_Core/J")
        .answers("place 2");
    // A `/_Core/` in the path has precedence over the folder
    // `/Game/Characters/`.
    scenario
        .add("/Game/Characters/K/_Core/L", 4, 0)
        .answers("place 3");
    scenario.by_path("/Game/Characters/K/L").answers("place 3");
    scenario
        .by_path("/Game/Characters/_Core/K/_Core/L")
        .answers("absent");
    // The folder must be at the start, and `_Core` needs both slashes.
    scenario.add("x/Game/Characters/M", 5, 0).answers("place 4");
    scenario
        .by_path("x/Game/Characters/_Core/M")
        .answers("absent");
    scenario.add("_Core/N", 6, 0).answers("place 5");
    scenario.by_path("/N").answers("absent");
    scenario.by_path("N").answers("absent");
    scenario
}

/// Example K1.
fn empty_path() -> Scenario {
    let mut scenario = Scenario::on_book("the empty path");
    scenario.add("", 1, 0).answers("place 0");
    scenario.by_path("").answers("place 0");
    scenario.by_path("Default__").answers("place 0");
    scenario.leaf_match("").answers("absent");
    scenario.add("Default__", 2, 0).answers("place 0");
    scenario.by_path("").answers("place 0");
    scenario
        .call(&Call::GroupAt(0))
        .answers(r#"path "Default__" index 2 slots 0"#);
    scenario
}

fn tags() -> Scenario {
    let mut scenario = Scenario::on_book("gameplay tags");
    scenario.call(&Call::TagName(0)).answers("absent");
    scenario.add("B", 1, 1).answers("place 0");
    scenario.field(1, 0, 0, "x").answers("placed");
    scenario
        .add("Default__NetworkGameplayTagNodeIndex", 7, 3)
        .answers("place 1");
    scenario.field(7, 2, 0, "").answers("placed");
    scenario.call(&Call::TagName(2)).answers("place 1");
    scenario.call(&Call::TagName(0)).answers("absent");
    scenario.call(&Call::TagName(3)).answers("absent");
    scenario
}

/// Each key is tried first as it is, then with the suffix added or removed.
fn cache_keys() -> Scenario {
    let mut scenario = Scenario::on_book("find_class_net_cache_key");
    scenario
        .add("Default__A_ClassNetCache", 1, 0)
        .answers("place 0");
    scenario.class_net_cache("A").answers("place 0");
    scenario.class_net_cache("Default__A").answers("place 0");
    scenario
        .class_net_cache("A_ClassNetCache")
        .answers("place 0");
    scenario
        .class_net_cache("A_ClassNetCache_ClassNetCache")
        .answers("place 0");
    scenario.class_net_cache("B").answers("absent");
    scenario.add("/x/y", 2, 0).answers("place 1");
    scenario
        .class_net_cache("/x/y_ClassNetCache")
        .answers("place 1");
    scenario
        .class_net_cache("/x/_Core/y_ClassNetCache")
        .answers("place 1");
    scenario.class_net_cache("Default__/x/y").answers("place 1");
    scenario
        .class_net_cache("Default__/x/_Core/y")
        .answers("absent");
    // A key is tried with its suffix added or removed before the next key.
    scenario
        .add("/x/_Core/y_ClassNetCache", 3, 0)
        .answers("place 2");
    scenario.class_net_cache("/x/_Core/y").answers("place 2");
    scenario.class_net_cache("/x/y").answers("place 1");
    scenario.class_net_cache("").answers("absent");
    scenario.add("_ClassNetCache", 4, 0).answers("place 3");
    scenario.class_net_cache("").answers("place 3");
    scenario
}

/// Keys of a caller's text, and of a stored path, can be longer than any text.
/// They are found too.
fn long_keys() -> Scenario {
    let rest = "L".repeat(4_096 - 17 - 14);
    let mut scenario = Scenario::on_book("a key of 4,102 bytes");
    // One key of this group is `/Game/Characters/_Core/`, the rest and the
    // suffix.
    let with_suffix = format!("/Game/Characters/{rest}_ClassNetCache");
    scenario.add(&with_suffix, 1, 0).answers("place 0");
    scenario
        .add(&format!("/Game/_Core/Characters/{rest}"), 2, 0)
        .answers("place 1");
    let asked = format!("/Game/Characters/_Core/{rest}");
    scenario.by_path(&asked).answers("absent");
    // With its suffix the text is that long key. The core alias of the text, a
    // key of the second group, would be tried only after it.
    scenario.class_net_cache(&asked).answers("place 0");
    scenario
        .by_path(&format!("/Game/Characters/{rest}"))
        .answers("place 1");
    scenario
        .by_path(&format!("{asked}_ClassNetCache"))
        .answers("refused 41 4102 0");
    scenario
}

pub fn resolving() -> Vec<Scenario> {
    vec![
        leaf_claims(),
        leaves(),
        instances(),
        ambiguous_instances(),
        odd_instances(),
    ]
}

fn leaf_claims() -> Scenario {
    let mut scenario = Scenario::on_book("unique_leaf_match");
    scenario.add("/s.FooComponent", 1, 0).answers("place 0");
    scenario.add("/s.Foo_C", 2, 0).answers("place 1");
    scenario.leaf_match("Foo").answers("place 0");
    scenario.leaf_match("FooComponent").answers("place 0");
    scenario.leaf_match("Foo_C").answers("place 1");
    scenario.leaf_match("Foo_").answers("absent");
    scenario.add("/s.Foo", 3, 0).answers("place 2");
    scenario.leaf_match("Foo").answers("place 2");
    // Two groups have the leaf now, so the suffixes are not tried.
    scenario.add("/t.Foo", 4, 0).answers("place 3");
    scenario.leaf_match("Foo").answers("absent");
    scenario.add("/u.Foo", 5, 0).answers("place 4");
    // One of three groups loses the leaf, then another.
    scenario.add("/t.Bar", 4, 0).answers("place 3");
    scenario.leaf_match("Foo").answers("absent");
    scenario.add("/s.Baz", 3, 0).answers("place 2");
    scenario.leaf_match("Foo").answers("place 4");
    scenario.leaf_match("s.Baz").answers("absent");
    scenario.leaf_match("/Baz").answers("absent");
    scenario.leaf_match("Baz:").answers("absent");
    scenario.leaf_match("Baz").answers("place 2");
    scenario
}

fn leaves() -> Scenario {
    let mut scenario = Scenario::on_book("what a leaf is");
    // A leaf follows the last dot, and is not empty. A path without a dot has
    // no leaf.
    scenario.add("Foo", 1, 0).answers("place 0");
    scenario.leaf_match("Foo").answers("absent");
    scenario.add("/s.", 2, 0).answers("place 1");
    scenario.leaf_match("").answers("absent");
    scenario.add("/s.a.b", 3, 0).answers("place 2");
    scenario.leaf_match("b").answers("place 2");
    scenario.leaf_match("a").answers("absent");
    // The empty name with the first suffix is `Component`.
    scenario.add(".Component", 4, 0).answers("place 3");
    scenario.leaf_match("").answers("place 3");
    scenario
}

fn instances() -> Scenario {
    let mut scenario = Scenario::on_book("resolve_cnc_for_instance_name");
    scenario
        .add("/s.Foo_ClassNetCache", 1, 0)
        .answers("place 0");
    for name in ["Foo", "Foo_A", "Foo_A_2", "Foo_", "Foo3", "Foo12", "FooA1"] {
        scenario.resolve(name).answers("place 0");
    }
    // Only one letter is removed, and only before digits. Names with separators
    // are never found.
    for name in [
        "FooA", "FooAB1", "Fooa1", "Fo", "_Foo", "/Foo", "s.Foo", "Foo:1", "",
    ] {
        scenario.resolve(name).answers("absent");
    }
    scenario
        .add("/s.FooAComponent_ClassNetCache", 2, 0)
        .answers("place 1");
    scenario.resolve("FooA1").answers("place 1");
    scenario.resolve("FooAB1").answers("place 1");
    scenario
        .add("/s.Bar_C_ClassNetCache", 3, 0)
        .answers("place 2");
    scenario.resolve("Bar_7").answers("place 2");
    // The digits are those of the whole name, so this stem ends with an
    // underscore.
    scenario
        .add("/s.Qux__ClassNetCache", 4, 0)
        .answers("place 3");
    scenario.resolve("Qux_003").answers("place 3");
    scenario.resolve("Qux_x").answers("absent");
    scenario
}

/// An ambiguous claim ends the search, even if a shorter stem would be found.
fn ambiguous_instances() -> Scenario {
    let mut scenario = Scenario::on_book("an ambiguous claim ends a resolution");
    scenario
        .add("/s.Foo_ClassNetCache", 1, 0)
        .answers("place 0");
    scenario
        .add("/s.Foo_A_ClassNetCache", 2, 0)
        .answers("place 1");
    scenario.resolve("Foo_A_2").answers("place 1");
    scenario
        .add("/t.Foo_A_ClassNetCache", 3, 0)
        .answers("place 2");
    scenario.resolve("Foo_A_2").answers("absent");
    scenario.resolve("Foo_A").answers("absent");
    scenario.resolve("Foo_B").answers("place 0");
    // The third candidate of the longer stem comes before the first of the
    // shorter one.
    scenario
        .add("/s.Foo_D_C_ClassNetCache", 4, 0)
        .answers("place 3");
    scenario.resolve("Foo_D").answers("place 3");
    scenario
        .add("/t.Foo_D_C_ClassNetCache", 5, 0)
        .answers("place 4");
    scenario.resolve("Foo_D").answers("absent");
    // An ambiguous claim of the stem without digits ends the search too.
    scenario
        .add("/s.WinA_ClassNetCache", 6, 0)
        .answers("place 5");
    scenario
        .add("/s.Win_ClassNetCache", 7, 0)
        .answers("place 6");
    scenario.resolve("WinA1").answers("place 5");
    scenario
        .add("/t.WinA_ClassNetCache", 8, 0)
        .answers("place 7");
    scenario.resolve("WinA1").answers("absent");
    scenario.resolve("WinB1").answers("place 6");
    scenario
}

fn odd_instances() -> Scenario {
    let mut scenario = Scenario::on_book("very short stems");
    scenario.add("/s._ClassNetCache", 1, 0).answers("place 0");
    scenario.resolve("").answers("place 0");
    // An underscore at the start is never cut, and no stem is empty.
    for name in ["_", "_A", "7", "A7", "\u{c9}7"] {
        scenario.resolve(name).answers("absent");
    }
    scenario.add("/s.__ClassNetCache", 2, 0).answers("place 1");
    scenario.resolve("_").answers("place 1");
    scenario.resolve("__A").answers("place 1");
    scenario.resolve("_7").answers("place 1");
    scenario.resolve("_B7").answers("place 1");
    scenario
}
