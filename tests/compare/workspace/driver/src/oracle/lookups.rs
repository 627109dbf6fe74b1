//! Lookups. The original answers with references, document 01 with places.

use vrf_schema::NetGuidCache;
use vrf_schema::export::NetFieldExportGroup;
use vrf_schema::path::find_class_net_cache_key;

use super::Answered;
use super::book::Book;
use super::texts::callers_text;
use crate::script::Blob;

/// The path by which the original finds the group of the gameplay tags.
const TAG_GROUP: &str = "NetworkGameplayTagNodeIndex";

type Place = Option<usize>;

/// The place of a group in the cache's list. `group` is a reference into that
/// list.
fn place_of(cache: &NetGuidCache, group: &NetFieldExportGroup) -> usize {
    let groups = cache.groups();
    let bytes = std::ptr::from_ref(group) as usize - groups.as_ptr() as usize;
    let place = bytes / size_of::<NetFieldExportGroup>();
    assert!(
        std::ptr::eq(&groups[place], group),
        "the group is in the cache's list"
    );
    place
}

impl Book {
    pub fn group_by_index(&self, index: u32) -> Place {
        let group = self.cache.get_group_by_index(index)?;
        Some(place_of(&self.cache, group))
    }

    pub fn group_by_path(&self, path: &Blob<'_>) -> Answered<Place> {
        self.by_text(path, |cache, path| cache.get_group_by_path(path))
    }

    pub fn leaf_match(&self, name: &Blob<'_>) -> Answered<Place> {
        self.by_text(name, |cache, name| cache.unique_leaf_match(name))
    }

    pub fn resolve_instance(&self, name: &Blob<'_>) -> Answered<Place> {
        self.by_text(name, |cache, name| {
            cache.resolve_cnc_for_instance_name(name)
        })
    }

    pub fn class_net_cache_key(&self, path: &Blob<'_>) -> Answered<Place> {
        self.by_text(path, |cache, path| {
            find_class_net_cache_key(path, |key| cache.get_group_by_path(key))
        })
    }

    fn by_text(
        &self,
        text: &Blob<'_>,
        find: impl for<'c> FnOnce(&'c NetGuidCache, &str) -> Option<&'c NetFieldExportGroup>,
    ) -> Answered<Place> {
        let bytes = text.bytes();
        let text = callers_text(&bytes)?;
        let group = find(&self.cache, text);
        Ok(group.map(|group| place_of(&self.cache, group)))
    }

    pub fn path_by_guid(&self, guid: u32) -> Place {
        let path = self.cache.get_path_by_guid(guid)?;
        self.guid_place(guid, path)
    }

    pub fn outer_guid(&self, guid: u32) -> Option<u32> {
        Some(self.cache.get_outer_guid(guid)?.0)
    }

    pub fn outer_path(&self, guid: u32) -> Place {
        let path = self.cache.get_outer_path(guid)?;
        self.guid_place(self.outer_guid(guid)?, path)
    }

    /// The place of the record in which `path` was found.
    fn guid_place(&self, guid: u32, path: &str) -> Place {
        let place = self.ledger.guid_place(guid);
        assert_eq!(place.and_then(|at| self.path_at_guid(at)), Some(path));
        place
    }

    /// The place of the tags' group, if it has the tag.
    pub fn tag_group(&self, tag: u32) -> Place {
        let name = self.cache.get_gameplay_tag_name(tag)?;
        let group = self.cache.get_group_by_path(TAG_GROUP)?;
        let field = group.get_field(tag);
        assert_eq!(field.map(|field| field.name.as_str()), Some(name));
        Some(place_of(&self.cache, group))
    }

    pub fn group_at(&self, place: u32) -> Option<&NetFieldExportGroup> {
        self.cache.groups().get(place as usize)
    }

    pub fn path_at_guid(&self, place: usize) -> Option<&str> {
        let guid = self.ledger.guids().get(place)?;
        self.cache.get_path_by_guid(*guid)
    }
}
