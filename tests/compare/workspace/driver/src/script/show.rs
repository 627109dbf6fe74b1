//! Formats calls for a person.

use std::fmt;

use super::{Blob, Call, Win};

/// The most bytes of a blob that are shown.
const SHOWN_BYTES: usize = 48;

impl fmt::Display for Blob<'_> {
    fn fmt(&self, f: &mut fmt::Formatter<'_>) -> fmt::Result {
        let (Blob::Plain(head) | Blob::Filled { head, .. }) = *self;
        write!(f, "{} bytes [", self.len())?;
        for (i, byte) in head.iter().take(SHOWN_BYTES).enumerate() {
            write!(f, "{}{byte:02x}", if i == 0 { "" } else { " " })?;
        }
        if head.len() > SHOWN_BYTES {
            f.write_str(" ...")?;
        }
        if let Blob::Filled { fill, .. } = self {
            write!(f, ", then {fill:02x}")?;
        }
        f.write_str("]")
    }
}

impl fmt::Display for Win<'_> {
    fn fmt(&self, f: &mut fmt::Formatter<'_>) -> fmt::Result {
        let Win { blob, first, count } = self;
        write!(f, "{blob}, first bit {first}, {count} bits")
    }
}

/// A caller's text, which is shown as text if it is valid.
struct Text<'a>(&'a Blob<'a>);

impl fmt::Display for Text<'_> {
    fn fmt(&self, f: &mut fmt::Formatter<'_>) -> fmt::Result {
        match (self.0, std::str::from_utf8(&self.0.bytes())) {
            (Blob::Plain(_), Ok(text)) => write!(f, "{text:?}"),
            _ => self.0.fmt(f),
        }
    }
}

impl fmt::Display for Call<'_> {
    fn fmt(&self, f: &mut fmt::Formatter<'_>) -> fmt::Result {
        match self {
            Call::Open { book, allowances } => write!(f, "open {book} with {allowances:?}"),
            Call::Use { book } => write!(f, "use {book}"),
            Call::Clear => f.write_str("clear"),
            Call::AddGroup { path, index, slots } => {
                write!(f, "add_export_group {}, {index}, {slots}", Text(path))
            }
            Call::SetField {
                index,
                handle,
                checksum,
                name,
            } => write!(
                f,
                "set_field_on_group {index}, {handle}, {checksum}, {}",
                Text(name)
            ),
            Call::SetGuid { guid, path, outer } => {
                write!(f, "set_net_guid_path {guid}, {}, {outer}", Text(path))
            }
            Call::FieldsRun(win) => write!(f, "fields run over {win}"),
            Call::GuidRun(win) => write!(f, "GUID run over {win}"),
            Call::Object {
                win,
                exporting,
                depth,
            } => write!(
                f,
                "load_object, exporting {exporting}, depth {depth}, over {win}"
            ),
            Call::Block(win) => write!(f, "block reader over {win}"),
            Call::Write { buffer } => write!(f, "write into {buffer} bytes"),
            Call::ReadWritten => f.write_str("read the last written block"),
            Call::Bits { win, readings } => write!(f, "bits over {win}: {readings:?}"),
            Call::Tally(input) => write!(f, "tally of {input}"),
            lookup => show_lookup(lookup, f),
        }
    }
}

fn show_lookup(call: &Call<'_>, f: &mut fmt::Formatter<'_>) -> fmt::Result {
    match call {
        Call::GroupByIndex(index) => write!(f, "get_group_by_index {index}"),
        Call::GroupByPath(path) => write!(f, "get_group_by_path {}", Text(path)),
        Call::PathByGuid(guid) => write!(f, "get_path_by_guid {guid}"),
        Call::OuterGuid(guid) => write!(f, "get_outer_guid {guid}"),
        Call::OuterPath(guid) => write!(f, "get_outer_path {guid}"),
        Call::TagName(tag) => write!(f, "get_gameplay_tag_name {tag}"),
        Call::Field { place, slot } => write!(f, "get_field {place}, {slot}"),
        Call::GroupAt(place) => write!(f, "group at place {place}"),
        Call::NameAt { place, slot } => write!(f, "name at {place}, {slot}"),
        Call::GuidPathAt(place) => write!(f, "path at GUID place {place}"),
        Call::LeafMatch(name) => write!(f, "unique_leaf_match {}", Text(name)),
        Call::ResolveInstance(name) => {
            write!(f, "resolve_cnc_for_instance_name {}", Text(name))
        }
        Call::ClassNetCacheKey(path) => write!(f, "find_class_net_cache_key {}", Text(path)),
        Call::Counters => f.write_str("counters"),
        Call::Dump {
            groups,
            slots,
            guids,
        } => write!(f, "dump {groups}, {slots}, {guids}"),
        other => write!(f, "{other:?}"),
    }
}
