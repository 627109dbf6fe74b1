//! The original's cache, changed one step at a time, with what document 01
//! adds: the allowances, and the order of the GUID records.
//!
//! A step adds a group, sets a field or sets a GUID. Before the original's call
//! makes it, refusal 42 is tested.

use std::collections::HashMap;

use vrf_schema::NetGuidCache;
use vrf_schema::export::{NetFieldExport, NetFieldExportGroup};
use vrf_schema::guid::NetworkGuid;

use super::Answered;
use crate::answer::Refusal;

/// The largest allowances with which a book can be opened (refusal 1).
const ALLOWANCE_TOPS: [u64; 5] = [1_000_000, 100_000, 1_000_000, 67_108_864, 1_000_000];

/// What counts against the allowances 1 to 4.
#[derive(Clone, Copy, Debug, Default, PartialEq, Eq)]
struct Held {
    guids: u64,
    groups: u64,
    fields: u64,
    text: u64,
}

/// A change that was made, and can be made again on another cache.
#[derive(Clone, Debug)]
enum Step {
    Add(NetFieldExportGroup),
    Field(u32, NetFieldExport),
    Guid(u32, String, u32),
}

pub struct Ledger {
    allowances: [u64; 5],
    cache: NetGuidCache,
    /// In the order in which they were first set. The original does not keep
    /// this order.
    guids: Vec<u32>,
    guid_places: HashMap<u32, usize>,
    held: Held,
    /// The steps since the last `apply_steps` or `forget_steps`.
    taken: Vec<Step>,
}

impl Ledger {
    pub fn open(allowances: [u64; 5]) -> Answered<Self> {
        let above = std::iter::zip(allowances, ALLOWANCE_TOPS).position(|(a, top)| a > top);
        if let Some(which) = above {
            return Err(Refusal::new(1, which as u64 + 1, 0));
        }
        Ok(Ledger {
            allowances,
            cache: NetGuidCache::new(),
            guids: Vec::new(),
            guid_places: HashMap::new(),
            held: Held::default(),
            taken: Vec::new(),
        })
    }

    pub fn cache(&self) -> &NetGuidCache {
        &self.cache
    }

    /// The GUIDs that have records, in book order.
    pub fn guids(&self) -> &[u32] {
        &self.guids
    }

    pub fn guid_place(&self, guid: u32) -> Option<usize> {
        self.guid_places.get(&guid).copied()
    }

    pub fn clear(&mut self) {
        self.cache.clear();
        self.guids.clear();
        self.guid_places.clear();
        self.held = Held::default();
    }

    /// Returns the group's place. The caller checks the number of slots.
    pub fn add(&mut self, path: &str, index: u32, slots: u32) -> Answered<usize> {
        let after = self.after_adding(path, index);
        self.within_allowances(after)?;
        let group = NetFieldExportGroup::new(path.to_owned(), index, slots);
        let place = self.cache.add_export_group(group.clone())?;
        self.held = after;
        self.taken.push(Step::Add(group));
        Ok(place)
    }

    fn after_adding(&self, path: &str, index: u32) -> Held {
        let mut after = self.held;
        let by_path = self.cache.get_group_by_path(path);
        let by_index = self.cache.get_group_by_index(index);
        match (by_path, by_index) {
            // The original refuses this one itself.
            (Some(group), Some(other)) if !std::ptr::eq(group, other) => return after,
            (Some(group), _) => after.text -= group.path.len() as u64,
            (None, Some(group)) => {
                after.fields -= group.populated_fields().count() as u64;
                after.text -= text_of_group(group);
            }
            (None, None) => after.groups += 1,
        }
        after.text += path.len() as u64;
        after
    }

    /// Returns whether the field was placed.
    pub fn set_field(
        &mut self,
        index: u32,
        handle: u32,
        checksum: u32,
        name: &str,
    ) -> Answered<bool> {
        let after = self.after_field(index, handle, name);
        self.within_allowances(after)?;
        let field = NetFieldExport {
            handle,
            compatible_checksum: checksum,
            name: name.to_owned(),
        };
        let placed = self.cache.set_field_on_group(index, field.clone());
        self.held = after;
        self.taken.push(Step::Field(index, field));
        Ok(placed)
    }

    /// A field without a slot takes nothing.
    fn after_field(&self, index: u32, handle: u32, name: &str) -> Held {
        let mut after = self.held;
        let group = self.cache.get_group_by_index(index);
        let Some(group) = group.filter(|group| handle < group.len()) else {
            return after;
        };
        match group.get_field(handle) {
            Some(old) => after.text -= old.name.len() as u64,
            None => after.fields += 1,
        }
        after.text += name.len() as u64;
        after
    }

    pub fn set_guid(&mut self, guid: u32, path: &str, outer: u32) -> Answered<()> {
        let mut after = self.held;
        match self.cache.get_path_by_guid(guid) {
            Some(old) => after.text -= old.len() as u64,
            None => after.guids += 1,
        }
        after.text += path.len() as u64;
        self.within_allowances(after)?;
        self.cache
            .set_net_guid_path(guid, path, Some(NetworkGuid(outer)));
        self.held = after;
        let next = self.guids.len();
        if *self.guid_places.entry(guid).or_insert(next) == next {
            self.guids.push(guid);
        }
        self.taken.push(Step::Guid(guid, path.to_owned(), outer));
        Ok(())
    }

    /// Tests allowance 5 for a block's literal; `literals` counts it and those
    /// before it. A literal takes nothing else.
    pub fn take_literal(&self, literals: u64) -> Answered<()> {
        self.within(5, literals)
    }

    fn within_allowances(&self, after: Held) -> Answered<()> {
        self.within(1, after.guids)?;
        self.within(2, after.groups)?;
        self.within(3, after.fields)?;
        self.within(4, after.text)
    }

    fn within(&self, which: u64, count: u64) -> Answered<()> {
        if count > self.allowances[which as usize - 1] {
            return Err(Refusal::new(42, which, 0));
        }
        Ok(())
    }

    /// Forgets the steps so far. The original's reader has made them on the
    /// other cache.
    pub fn forget_steps(&mut self) {
        self.taken.clear();
    }

    /// Makes the steps so far on another cache, which has none of them yet.
    pub fn apply_steps(&mut self, cache: &mut NetGuidCache) {
        for step in self.taken.drain(..) {
            match step {
                Step::Add(group) => {
                    cache
                        .add_export_group(group)
                        .expect("the other cache accepted this group");
                }
                Step::Field(index, field) => {
                    cache.set_field_on_group(index, field);
                }
                Step::Guid(guid, path, outer) => {
                    cache.set_net_guid_path(guid, path, Some(NetworkGuid(outer)));
                }
            }
        }
    }

    /// Names something in which the two caches differ. Also compares the held
    /// totals with a new count, since each step only adds to them.
    pub fn disagrees_with(&self, other: &NetGuidCache) -> Option<&'static str> {
        let cache = &self.cache;
        let differs = |what, equal: bool| (!equal).then_some(what);
        differs("groups", same_groups(cache.groups(), other.groups()))
            .or_else(|| differs("GUIDs", self.same_guids(other)))
            .or_else(|| differs("counters", counters(cache) == counters(other)))
            .or_else(|| differs("held counts", self.held == recount(cache)))
    }

    fn same_guids(&self, other: &NetGuidCache) -> bool {
        let here = &self.cache;
        let same = |&guid: &u32| {
            here.get_path_by_guid(guid) == other.get_path_by_guid(guid)
                && here.get_outer_guid(guid) == other.get_outer_guid(guid)
        };
        let entries = other.net_guid_entries().len();
        entries == self.guids.len() && self.guids.iter().all(same)
    }
}

fn same_groups(some: &[NetFieldExportGroup], others: &[NetFieldExportGroup]) -> bool {
    let same = |(a, b): (&NetFieldExportGroup, &NetFieldExportGroup)| {
        a.path == b.path && a.path_name_index == b.path_name_index && a.fields == b.fields
    };
    some.len() == others.len() && std::iter::zip(some, others).all(same)
}

/// Schema generation, GUID generation, dropped, replaced, renamed.
pub fn counters(cache: &NetGuidCache) -> [u64; 5] {
    [
        cache.schema_generation(),
        cache.guid_generation(),
        cache.dropped_field_exports(),
        cache.replaced_export_groups(),
        cache.renamed_field_exports(),
    ]
}

fn recount(cache: &NetGuidCache) -> Held {
    let guids = cache.net_guid_entries();
    let groups = cache.groups();
    let fields = groups.iter().map(|group| group.populated_fields().count());
    let guid_text: usize = guids.iter().map(|entry| entry.path.len()).sum();
    Held {
        guids: guids.len() as u64,
        groups: groups.len() as u64,
        fields: fields.sum::<usize>() as u64,
        text: guid_text as u64 + groups.iter().map(text_of_group).sum::<u64>(),
    }
}

/// The bytes of the group's path and of its fields' names.
fn text_of_group(group: &NetFieldExportGroup) -> u64 {
    let names = group.populated_fields().map(|field| field.name.len());
    (group.path.len() + names.sum::<usize>()) as u64
}
