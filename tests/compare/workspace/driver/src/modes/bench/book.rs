//! Books: filling a new one, lookups in a filled one, and the check.

use std::rc::Rc;

use vrf_schema::NetGuidCache;

use super::case::{Case, shared};
use super::sheet::{ADD_GROUP, SET_FIELD, SET_GUID, Sheet};
use crate::error::Error;
use crate::ported::loops;
use crate::rng::Rng;

/// About what a recording's book holds at its end.
pub const GUIDS: u32 = 12_000;
pub const GROUPS: u32 = 543;
pub const FIELDS: u32 = 2_900;

const MANY_GUIDS: u32 = 200_000;

/// The number of lookups of a sheet: too many for the processor to predict
/// their branches from memory.
const LOOKUPS: u32 = 32_768;

const CHECK: &str = "check_by_from_utf8";

/// The cases, and the number of bytes of text in the checked book.
pub fn cases() -> Result<(Vec<Case>, usize), Error> {
    keep_the_heap();
    let mut rng = Rng::new(11);
    let mut cases = fillings(&mut rng)?;
    cases.append(&mut of_guids(&mut rng)?);
    cases.append(&mut of_groups(&mut rng)?);
    let (check, text) = checking(&mut rng);
    cases.push(check);
    Ok((cases, text))
}

/// Prints how much longer it takes to set a GUID in a large book than in a
/// small one, and how fast the check is.
pub fn report(cases: &[Case], text: usize) {
    let seconds = |name: &str| {
        cases
            .iter()
            .find(|case| case.name == name)
            .map(Case::seconds)
    };
    if let (Some(few), Some(many)) = (seconds(&setting(GUIDS)), seconds(&setting(MANY_GUIDS))) {
        let times = f64::from(MANY_GUIDS) / f64::from(GUIDS);
        println!(
            "set_net_guid_path_growth {:.2}, the original's {:.2}",
            many.1 / few.1 / times,
            many.0 / few.0 / times
        );
    }
    if let Some((_, check)) = seconds(CHECK) {
        println!(
            "check_speed {:.2} GB of text a second",
            text as f64 / check / 1e9
        );
    }
}

fn setting(count: u32) -> String {
    format!("set_net_guid_path_{count}")
}

/// The lent memory is the same in every turn, so the system has already
/// provided it. The original's heap is kept too. Otherwise the system would
/// take it back after every book, and the next book would pay for getting it
/// again.
fn keep_the_heap() {
    unsafe extern "C" {
        fn mallopt(parameter: i32, value: i32) -> i32;
    }
    const TRIM_THRESHOLD: i32 = -1;
    const MMAP_MAX: i32 = -4;
    // SAFETY: these are settings of the C library, and no other thread runs
    // yet.
    unsafe {
        mallopt(TRIM_THRESHOLD, i32::MAX);
        mallopt(MMAP_MAX, 0);
    }
}

/// The smallest allowances for a sheet's calls, and the memory for them.
struct Space {
    allowances: [u64; 4],
    memory: Vec<u8>,
}

impl Space {
    fn of(sheet: &Sheet) -> Self {
        let [guids, groups, fields] = [SET_GUID, ADD_GROUP, SET_FIELD].map(|k| sheet.count(k));
        let text = sheet.texts.len() as u64;
        // docs/LAYOUT.md gives this size.
        let need = 4 * (37 + 10 * guids + 16 * groups + 10 * fields) + 2 * text;
        Space {
            allowances: [guids, groups, fields, text],
            memory: vec![0; need as usize],
        }
    }

    fn fill(&mut self, sheet: &Sheet) -> u64 {
        loops::fill(&mut self.memory, self.allowances, &sheet.rows, &sheet.texts)
    }
}

fn fillings(rng: &mut Rng) -> Result<Vec<Case>, Error> {
    let inputs = [
        (setting(GUIDS), guids(rng, GUIDS, rising)),
        (setting(50_000), guids(rng, 50_000, rising)),
        (setting(MANY_GUIDS), guids(rng, MANY_GUIDS, rising)),
        (
            format!("{}_random", setting(GUIDS)),
            guids(rng, GUIDS, anything),
        ),
        (
            format!("add_{GROUPS}_groups_{FIELDS}_fields"),
            groups(rng, GROUPS, FIELDS).sheet,
        ),
    ];
    inputs
        .into_iter()
        .map(|(name, sheet)| {
            let mut space = Space::of(&sheet);
            if space.fill(&sheet) != sheet.len() {
                return Err(Error::Wrong(format!("{name}: a call was refused")));
            }
            let (rust, port) = shared(sheet);
            Ok(Case::new(
                name,
                move || original::fill(&rust),
                move || space.fill(&port),
            ))
        })
        .collect()
}

/// GUIDs as a server assigns them: increasing, with gaps.
pub fn rising(rng: &mut Rng, last: u32) -> u32 {
    last + 1 + rng.below(3) as u32
}

/// GUIDs from the whole range. They are distinct, since the low 16 bits
/// increase.
fn anything(rng: &mut Rng, last: u32) -> u32 {
    let step = (last & 0xFFFF) + 1;
    (rng.next() as u32 & 0xFFFF_0000) | step
}

/// Calls that set distinct GUIDs. All paths are distinct, and most GUIDs have
/// an outer.
pub fn guids(rng: &mut Rng, count: u32, next: fn(&mut Rng, u32) -> u32) -> Sheet {
    let mut sheet = Sheet::default();
    let mut seen = vec![0];
    for number in 0..count {
        let guid = next(rng, seen[seen.len() - 1]);
        let outer = seen[rng.below(seen.len() as u64) as usize];
        let path = object_path(rng, number);
        sheet.push(SET_GUID, [guid, outer, 0], &path);
        seen.push(guid);
    }
    sheet
}

/// A path like those of objects, of 40 to 90 bytes.
fn object_path(rng: &mut Rng, number: u32) -> String {
    let roots = ["/Game/Characters/", "/Game/Maps/", "/Game/Equippables/"];
    let words = [
        "Hunter/",
        "Ability_E/",
        "_Core/",
        "Guns/",
        "Comp_",
        "Weapon",
        "State_",
    ];
    let len = 36 + rng.below(46) as usize;
    let mut path = rng.pick(&roots).to_owned();
    while path.len() < len {
        path += rng.pick(&words);
    }
    path.truncate(len);
    format!("{path}.{number:06}_C")
}

/// The groups of a recording. Each is followed by its fields.
pub struct Groups {
    pub sheet: Sheet,
    paths: Vec<String>,
    /// Names of classes without a path: in `cached` those whose ClassNetCache
    /// is a group, in `classes` the others.
    classes: Vec<String>,
    cached: Vec<String>,
}

pub fn groups(rng: &mut Rng, count: u32, filled: u32) -> Groups {
    let mut made = Groups {
        sheet: Sheet::default(),
        paths: Vec::new(),
        classes: Vec::new(),
        cached: Vec::new(),
    };
    // The fields are spread evenly, so that their sum is `filled`.
    let before = |index: u32| (u64::from(filled) * u64::from(index) / u64::from(count)) as u32;
    for index in 0..count {
        let fields = before(index + 1) - before(index);
        let slots = fields + rng.below(3) as u32;
        let is_cache = index % 2 == 1;
        let name = class_name(rng, index);
        let path = group_path(rng, &name, is_cache);
        made.sheet.push(ADD_GROUP, [index, slots, 0], &path);
        for handle in 0..fields {
            let checksum = rng.next() as u32;
            let name = field_name(rng);
            made.sheet.push(SET_FIELD, [index, handle, checksum], &name);
        }
        made.paths.push(path);
        let names = if is_cache {
            &mut made.cached
        } else {
            &mut made.classes
        };
        names.push(name);
    }
    made
}

pub fn class_name(rng: &mut Rng, number: u32) -> String {
    let words = [
        "Bomb",
        "Window",
        "Shield",
        "Ability_",
        "Hunter",
        "Equippable",
        "Comp_",
    ];
    let mut name = String::new();
    for _ in 0..2 + rng.below(3) {
        name += rng.pick(&words);
    }
    format!("{name}{number}x")
}

/// The path of a class or of a ClassNetCache, in one of the forms that occur.
pub fn group_path(rng: &mut Rng, name: &str, is_cache: bool) -> String {
    let suffix = if is_cache { "_ClassNetCache" } else { "" };
    match rng.below(6) {
        0 | 1 => format!("/Script/ShooterGame.{name}Component{suffix}"),
        2 => format!("/Game/Characters/Hunter/S0/Ability_E/{name}.{name}_C{suffix}"),
        3 => format!("/Game/Characters/_Core/Abilities/{name}.{name}_C{suffix}"),
        4 => format!("/Game/Equippables/Guns/_Core/{name}.{name}_C{suffix}"),
        _ => format!("/Script/ShooterGame.{name}{suffix}"),
    }
}

pub fn field_name(rng: &mut Rng) -> String {
    let words = [
        "Replicated",
        "Movement",
        "Indicator",
        "Location",
        "Owner",
        "State",
        "b",
    ];
    let mut name = String::new();
    for _ in 0..2 + rng.below(3) {
        name += rng.pick(&words);
    }
    name
}

/// A filled book of both sides.
struct Book {
    cache: Rc<NetGuidCache>,
    memory: Rc<Vec<u8>>,
}

impl Book {
    /// The port's lookups require a book that has passed its check.
    fn of(sheet: &Sheet) -> Result<Self, Error> {
        let mut space = Space::of(sheet);
        space.fill(sheet);
        if !loops::check(&space.memory) {
            return Err(Error::Ported(
                "a book that it filled fails its check".into(),
            ));
        }
        Ok(Book {
            cache: Rc::new(original::fill(sheet).left.unwrap_or_default()),
            memory: Rc::new(space.memory),
        })
    }

    fn case(&self, name: &str, look: Look, mut ask: impl FnMut(&mut Sheet)) -> Case {
        let mut sheet = Sheet::default();
        (0..LOOKUPS).for_each(|_| ask(&mut sheet));
        let (rust, port) = shared(sheet);
        let (cache, memory) = (self.cache.clone(), self.memory.clone());
        let Look { original, ported } = look;
        Case::new(
            name,
            move || original(&cache, &rust),
            move || loops::look(&memory, ported, &port.rows, &port.texts),
        )
    }
}

/// A kind of lookup: the original's loop, and the number that the port has for
/// it.
#[derive(Clone, Copy)]
struct Look {
    original: fn(&NetGuidCache, &Sheet) -> u64,
    ported: u32,
}

const PATH_BY_GUID: Look = Look {
    original: original::path_by_guid,
    ported: 0,
};
const BY_INDEX: Look = Look {
    original: original::by_index,
    ported: 1,
};
const BY_PATH: Look = Look {
    original: original::by_path,
    ported: 2,
};
const BY_LEAF: Look = Look {
    original: original::by_leaf,
    ported: 3,
};
const BY_INSTANCE: Look = Look {
    original: original::by_instance,
    ported: 4,
};

fn of_guids(rng: &mut Rng) -> Result<Vec<Case>, Error> {
    let sheet = guids(rng, GUIDS, rising);
    let known: Vec<u32> = sheet.rows().map(|row| row.a).collect();
    let book = Book::of(&sheet)?;
    Ok(vec![
        book.case("get_path_by_guid_found", PATH_BY_GUID, |sheet| {
            sheet.ask(rng.pick(&known), "");
        }),
        book.case("get_path_by_guid_absent", PATH_BY_GUID, |sheet| {
            sheet.ask(1_000_000 + rng.below(1 << 20) as u32, "");
        }),
    ])
}

fn of_groups(rng: &mut Rng) -> Result<Vec<Case>, Error> {
    let Groups {
        sheet,
        paths,
        classes,
        cached,
    } = groups(rng, GROUPS, FIELDS);
    let book = Book::of(&sheet)?;
    let any =
        |rng: &mut Rng, texts: &[String]| texts[rng.below(texts.len() as u64) as usize].clone();
    let unknown = |rng: &mut Rng| {
        let number = GROUPS + rng.below(1_000) as u32;
        class_name(rng, number)
    };
    Ok(vec![
        book.case("get_group_by_index_found", BY_INDEX, |sheet| {
            sheet.ask(rng.below(u64::from(GROUPS)) as u32, "");
        }),
        book.case("get_group_by_index_absent", BY_INDEX, |sheet| {
            sheet.ask(GROUPS + rng.below(1 << 20) as u32, "");
        }),
        book.case("get_group_by_path_found", BY_PATH, |sheet| {
            sheet.ask(0, &any(rng, &paths));
        }),
        book.case("get_group_by_path_absent", BY_PATH, |sheet| {
            let name = unknown(rng);
            sheet.ask(0, &group_path(rng, &name, false));
        }),
        book.case("unique_leaf_match_found", BY_LEAF, |sheet| {
            sheet.ask(0, &any(rng, &classes));
        }),
        book.case("unique_leaf_match_absent", BY_LEAF, |sheet| {
            sheet.ask(0, &unknown(rng));
        }),
        book.case("resolve_cnc_found", BY_INSTANCE, |sheet| {
            let name = any(rng, &cached);
            sheet.ask(0, &instance_name(rng, &name));
        }),
        book.case("resolve_cnc_absent", BY_INSTANCE, |sheet| {
            let name = unknown(rng);
            sheet.ask(0, &instance_name(rng, &name));
        }),
    ])
}

/// A class's name with a suffix that names an instance.
fn instance_name(rng: &mut Rng, class: &str) -> String {
    match rng.below(4) {
        0 => class.to_owned(),
        1 => format!("{class}_A"),
        2 => format!("{class}_2"),
        _ => format!("{class}_Ascent_{}", rng.below(100)),
    }
}

/// The check of a book of GUIDs, compared with `from_utf8` of its texts: the
/// original has no check, but it tests every text before it takes it. Also
/// returns the number of bytes of the texts.
fn checking(rng: &mut Rng) -> (Case, usize) {
    let sheet = guids(rng, GUIDS, rising);
    let text = sheet.texts.len();
    let mut space = Space::of(&sheet);
    space.fill(&sheet);
    let case = Case::new(
        CHECK,
        move || original::all_utf8(&sheet),
        move || u64::from(loops::check(&space.memory)),
    );
    (case, text)
}

/// The loops over the original. They are never inlined, for the reason given in
/// `bits`.
mod original {
    use std::hint::black_box;
    use std::str;

    use vrf_schema::NetGuidCache;
    use vrf_schema::export::{NetFieldExport, NetFieldExportGroup};
    use vrf_schema::guid::NetworkGuid;

    use super::super::case::Outcome;
    use super::super::sheet::{ADD_GROUP, Row, SET_GUID, Sheet};

    #[inline(never)]
    pub fn fill(sheet: &Sheet) -> Outcome {
        let mut cache = NetGuidCache::new();
        let mut taken = 0;
        for row in black_box(sheet).rows() {
            if let Ok(text) = str::from_utf8(sheet.text(row)) {
                taken += u64::from(set(&mut cache, row, text));
            }
        }
        Outcome {
            sum: taken,
            left: Some(cache),
        }
    }

    #[inline]
    fn set(cache: &mut NetGuidCache, row: Row, text: &str) -> bool {
        match row.kind {
            SET_GUID => {
                cache.set_net_guid_path(row.a, text, Some(NetworkGuid(row.b)));
                true
            }
            ADD_GROUP => {
                let group = NetFieldExportGroup::new(text.to_owned(), row.a, row.b);
                cache.add_export_group(group).is_ok()
            }
            _ => {
                let field = NetFieldExport {
                    handle: row.b,
                    compatible_checksum: row.c,
                    name: text.to_owned(),
                };
                cache.set_field_on_group(row.a, field)
            }
        }
    }

    #[inline(never)]
    pub fn all_utf8(sheet: &Sheet) -> u64 {
        let mut texts = black_box(sheet).rows().map(|row| sheet.text(row));
        u64::from(texts.all(|text| str::from_utf8(text).is_ok()))
    }

    /// The sum of a lookup's answers over all rows.
    #[inline(always)]
    fn each(sheet: &Sheet, look: impl Fn(Row) -> u64) -> u64 {
        let rows = black_box(sheet).rows();
        rows.map(look).fold(0, u64::wrapping_add)
    }

    /// A row's text. It is not tested, since the port's lookups do not test it
    /// either.
    #[inline(always)]
    fn text(sheet: &Sheet, row: Row) -> &str {
        // SAFETY: a row's text was pushed as a `str`.
        unsafe { str::from_utf8_unchecked(sheet.text(row)) }
    }

    #[inline(never)]
    pub fn path_by_guid(cache: &NetGuidCache, sheet: &Sheet) -> u64 {
        each(sheet, |row| {
            cache
                .get_path_by_guid(row.a)
                .map_or(0, |path| path.len() as u64)
        })
    }

    #[inline(never)]
    pub fn by_index(cache: &NetGuidCache, sheet: &Sheet) -> u64 {
        each(sheet, |row| {
            u64::from(cache.get_group_by_index(row.a).is_some())
        })
    }

    #[inline(never)]
    pub fn by_path(cache: &NetGuidCache, sheet: &Sheet) -> u64 {
        each(sheet, |row| {
            u64::from(cache.get_group_by_path(text(sheet, row)).is_some())
        })
    }

    #[inline(never)]
    pub fn by_leaf(cache: &NetGuidCache, sheet: &Sheet) -> u64 {
        each(sheet, |row| {
            u64::from(cache.unique_leaf_match(text(sheet, row)).is_some())
        })
    }

    #[inline(never)]
    pub fn by_instance(cache: &NetGuidCache, sheet: &Sheet) -> u64 {
        each(sheet, |row| {
            let found = cache.resolve_cnc_for_instance_name(text(sheet, row));
            u64::from(found.is_some())
        })
    }
}
