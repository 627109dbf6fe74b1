//! A few related texts, indices and GUIDs.

use crate::rng::Rng;

pub struct Pool {
    paths: Vec<String>,
    indices: Vec<u32>,
    guids: Vec<u32>,
    /// The length of the longest path.
    pub longest: u64,
    purpose: Purpose,
}

/// What the paths were chosen for.
#[derive(Clone, Copy, PartialEq, Eq)]
enum Purpose {
    Mixed,
    /// One leaf, with suffixes, in several paths.
    Leaves,
    /// One text with all prefixes and suffixes that matter for keys.
    Keys,
    /// Many paths, few of which are related.
    Many,
}

/// Paths with aliases, dots, leaves and suffixes.
const SEEDS: [&str; 44] = [
    "",
    "A",
    "Default__",
    "Default__A",
    "Default__Default__A",
    "Default__/x",
    "default__A",
    ".",
    "A.",
    ".A",
    "a..b",
    "x:y",
    "/x/y",
    "/x/_Core/y",
    "/_Core/",
    "/_Core/_Core/",
    "/x/_Core/_Core/y",
    "_Core/y",
    "/Game/Characters/",
    "/Game/Characters/J",
    "/Game/Characters/_Core/J",
    "/Game/Characters/J.J_C",
    "x/Game/Characters/J",
    "/s.Foo",
    "/s.Foo_ClassNetCache",
    "/s.FooComponent",
    "/s.FooComponent_ClassNetCache",
    "/s.Foo_C",
    "/s.Foo_C_ClassNetCache",
    "/s.Foo__ClassNetCache",
    "/s.Foo_A_ClassNetCache",
    "/s.ShieldA_ClassNetCache",
    "/s.Shield_ClassNetCache",
    "/s.___ClassNetCache",
    "Foo_ClassNetCache",
    "_ClassNetCache",
    "._ClassNetCache",
    "/s.Component",
    "NetworkGameplayTagNodeIndex",
    "Default__NetworkGameplayTagNodeIndex",
    "/\u{e9}/_Core/\u{df}.\u{d55c}\u{ae00}",
    "/s.\u{c9}",
    "/s.\u{1f3af}_ClassNetCache",
    "/s.nul\0",
];

/// Suffixes that make the name of an instance.
const INSTANCE_ENDS: [&str; 18] = [
    "", "", "", "1", "12", "_1", "_A", "A1", "AB12", "_A_2", "_AB1", "_003", "B", "_", "__7",
    "\u{e9}", "\u{c9}5", "_x_y_z",
];

/// Numbers at which a packed number's length changes, and a few small ones.
const NUMBERS: [u32; 14] = [
    0,
    1,
    2,
    3,
    5,
    6,
    127,
    128,
    300,
    16_383,
    16_384,
    2_097_152,
    268_435_456,
    u32::MAX,
];

impl Pool {
    pub fn new(rng: &mut Rng) -> Self {
        let (paths, purpose) = match rng.below(40) {
            0..=13 => (mixed(rng), Purpose::Mixed),
            14..=25 => (leaves(rng), Purpose::Leaves),
            26..=34 => (keys(rng), Purpose::Keys),
            // Long paths and many paths are rare, since a few scripts test
            // enough of them.
            35 | 36 => (lengthened(rng, &MEDIUM_STEMS), Purpose::Leaves),
            37 | 38 => (lengthened(rng, &LONG_STEMS), Purpose::Keys),
            _ => (many(rng), Purpose::Many),
        };
        let (indices, guids) = match purpose {
            Purpose::Mixed => few_numbers(rng, 2),
            // Enough indices for several groups.
            Purpose::Leaves | Purpose::Keys => few_numbers(rng, 6),
            Purpose::Many => many_numbers(rng),
        };
        Pool {
            longest: paths.iter().map(String::len).max().unwrap_or(0) as u64,
            paths,
            indices,
            guids,
            purpose,
        }
    }

    /// How many times more calls than usual a script needs to use the pool.
    pub fn calls(&self) -> u64 {
        match self.purpose {
            Purpose::Many => 12,
            _ => 1,
        }
    }

    pub fn has_many(&self) -> bool {
        self.purpose == Purpose::Many
    }

    /// Whether the paths were chosen for lookups by text.
    pub fn is_for_lookups(&self) -> bool {
        matches!(self.purpose, Purpose::Leaves | Purpose::Keys)
    }

    /// Whether texts are too long to be printed often.
    pub fn is_long(&self) -> bool {
        self.longest > 1_000
    }

    pub fn path(&self, rng: &mut Rng) -> &str {
        let at = rng.below(self.paths.len() as u64) as usize;
        &self.paths[at]
    }

    /// A path of the pool, or one related to it.
    pub fn path_or_related(&self, rng: &mut Rng) -> String {
        let path = self.path(rng).to_owned();
        match rng.below(8) {
            0 | 1 => related(rng, &path),
            2 if self.purpose == Purpose::Keys => related(rng, &path),
            3 if self.purpose == Purpose::Keys => {
                let relative = related(rng, &path);
                related(rng, &relative)
            }
            _ => path,
        }
    }

    /// A text for a call. It may be invalid or too long.
    pub fn callers_text(&self, rng: &mut Rng) -> Vec<u8> {
        match rng.below(60) {
            0 => {
                let path = self.path(rng);
                corrupted(rng, path)
            }
            1 => over_long(rng),
            _ => self.path_or_related(rng).into_bytes(),
        }
    }

    /// The name of a field. Most are from a short list, so that names occur
    /// again.
    pub fn name(&self, rng: &mut Rng) -> String {
        match rng.below(8) {
            0 => self.path(rng).to_owned(),
            1 => leaf(self.path(rng)).to_owned(),
            _ => rng
                .pick(&["", "A", "B", "Health", "Foo_3", "\u{e9}t\u{e9}", "0", "x\0"])
                .to_owned(),
        }
    }

    /// A field's name for a call. It may be invalid or too long.
    pub fn callers_name(&self, rng: &mut Rng) -> Vec<u8> {
        match rng.below(60) {
            0 => corrupted(rng, "Health"),
            1 => over_long(rng),
            _ => self.name(rng).into_bytes(),
        }
    }

    /// A name for the resolutions: a leaf without some of its suffixes, with
    /// the suffix of an instance.
    pub fn bare_name(&self, rng: &mut Rng) -> Vec<u8> {
        if rng.once_in(6) {
            return self.callers_text(rng);
        }
        let mut name = leaf(self.path(rng));
        for suffix in ["_ClassNetCache", "Component", "_C"] {
            if !rng.once_in(4) {
                name = name.strip_suffix(suffix).unwrap_or(name);
            }
        }
        let mut name = name.to_owned();
        name += rng.pick(&INSTANCE_ENDS);
        name.into_bytes()
    }

    pub fn index(&self, rng: &mut Rng) -> u32 {
        number(rng, &self.indices)
    }

    pub fn guid(&self, rng: &mut Rng) -> u32 {
        number(rng, &self.guids)
    }

    /// The path of number `nth`, and the index that belongs to it. No two pairs
    /// cross.
    pub fn pair(&self, nth: usize) -> (&str, u32) {
        let at = nth % self.paths.len();
        (&self.paths[at], 10 + at as u32)
    }

    pub fn pairs(&self) -> usize {
        self.paths.len()
    }
}

/// A few of the `SEEDS`, and paths related to them.
fn mixed(rng: &mut Rng) -> Vec<String> {
    let mut paths: Vec<String> = Vec::new();
    for _ in 0..2 + rng.below(3) {
        paths.push(rng.pick(&SEEDS).to_owned());
    }
    for _ in 0..2 + rng.below(6) {
        let of = rng.below(paths.len() as u64) as usize;
        let relative = related(rng, &paths[of]);
        paths.push(relative);
    }
    paths
}

/// A stem and one of its instances, with the suffixes that resolutions try, in
/// several paths.
fn leaves(rng: &mut Rng) -> Vec<String> {
    let stem = rng.pick(&["Foo", "F", "Shield", "_", "\u{e9}", ""]);
    leaves_of(rng, stem)
}

fn leaves_of(rng: &mut Rng, stem: &str) -> Vec<String> {
    let end = rng.pick(&["_A", "_", "A", "_A_1", "AB", "1", "_x", "A1", "__"]);
    (0..4 + rng.below(7))
        .map(|_| {
            let owner = rng.pick(&["/a.", "/b.", "/c.", ".", "Default__d.", "/_Core/e.", ""]);
            let end = rng.pick(&["", end]);
            let class = rng.pick(&["", "", "Component", "_C"]);
            let cache = rng.pick(&["", "_ClassNetCache", "_ClassNetCache"]);
            format!("{owner}{stem}{end}{class}{cache}")
        })
        .collect()
}

/// A text with prefixes that make aliases, with and without `_ClassNetCache`.
fn keys(rng: &mut Rng) -> Vec<String> {
    let stem = rng.pick(&["", "", "A", "Foo", "\u{e9}", "x", "/x/y"]);
    keys_of(rng, stem)
}

fn keys_of(rng: &mut Rng, stem: &str) -> Vec<String> {
    let prefixes = [
        "",
        "",
        "Default__",
        "Default__",
        "/_Core/",
        "/",
        "/Game/Characters/",
        "/Game/Characters/_Core/",
        "/Game/_Core/Characters/",
        "Default__/_Core/",
    ];
    (0..2 + rng.below(6))
        .map(|_| {
            let prefix = rng.pick(&prefixes);
            let suffix = rng.pick(&["", "", "_ClassNetCache", "_ClassNetCache", "."]);
            format!("{prefix}{stem}{suffix}")
        })
        .collect()
}

/// Stems that reach the maximum length of a text with `_ClassNetCache`, with
/// that and `/Game/Characters/`, or with `Default__`. Some of their keys are
/// longer than any text.
const LONG_STEMS: [usize; 3] = [4_096 - 14, 4_096 - 14 - 17, 4_096 - 9];

/// Stems that a suffix makes longer than what the original joins without a
/// heap.
const MEDIUM_STEMS: [usize; 3] = [128 - 14, 128 - 23, 128 - 9];

/// A stem of about one of these lengths, with prefixes and suffixes for keys or
/// leaves.
fn lengthened(rng: &mut Rng, lengths: &[usize; 3]) -> Vec<String> {
    let len = rng.pick(lengths) + rng.pick(&[0, 0, 0, 1, 2, 5]);
    let (filling, size) = rng.pick(&[('L', 1), ('\u{e9}', 2), ('9', 1)]);
    let mut stem = filling.to_string().repeat(len / size);
    stem += &"y".repeat(len - stem.len());
    match rng.below(2) {
        0 => leaves_of(rng, &stem),
        _ => keys_of(rng, &stem),
    }
}

/// Numbered paths. Some have the same leaf, and some are aliases.
fn many(rng: &mut Rng) -> Vec<String> {
    let owners = [
        "/a.",
        "/b.",
        "",
        "",
        "Default__",
        "/_Core/",
        "/Game/Characters/",
    ];
    (0..60 + rng.below(20))
        .map(|_| {
            let owner = rng.pick(&owners);
            let suffix = rng.pick(&["", "", "_ClassNetCache", "_C"]);
            format!("{owner}P{}{suffix}", rng.below(50))
        })
        .collect()
}

/// A few more than `least` indices and GUIDs. Not all are different.
fn few_numbers(rng: &mut Rng, least: u64) -> (Vec<u32>, Vec<u32>) {
    let few = least + rng.below(4);
    let indices = (0..few).map(|_| rng.pick(&NUMBERS)).collect();
    let guids = (0..few + 2).map(|_| rng.pick(&NUMBERS)).collect();
    (indices, guids)
}

/// Consecutive indices and GUIDs, or ones with a constant distance.
fn many_numbers(rng: &mut Rng) -> (Vec<u32>, Vec<u32>) {
    let step = rng.pick(&[1, 1, 2, 64, 1 << 16, 0x0101_0101]);
    let numbers = |many: u32| (0..many).map(|n| n.wrapping_mul(step)).collect();
    (numbers(70), numbers(80))
}

fn number(rng: &mut Rng, pool: &[u32]) -> u32 {
    if rng.once_in(20) {
        return rng.magnitude(32) as u32;
    }
    rng.pick(pool)
}

/// The text after the last dot, or the whole path.
fn leaf(path: &str) -> &str {
    path.rsplit('.').next().unwrap_or(path)
}

/// A path related to `path`: an alias, one with the same leaf, or nearly one of
/// these.
fn related(rng: &mut Rng, path: &str) -> String {
    match rng.below(18) {
        0 | 1 => match path.strip_prefix("Default__") {
            Some(rest) => rest.to_owned(),
            None => format!("Default__{path}"),
        },
        2 => path.replacen("/_Core/", "/", 1),
        3 => path.replacen('/', "/_Core/", 1),
        4 => match path.strip_prefix("/Game/Characters/") {
            Some(rest) => format!("/Game/Characters/_Core/{rest}"),
            None => format!("/Game/Characters/{path}"),
        },
        5 | 6 => match path.strip_suffix("_ClassNetCache") {
            Some(rest) => rest.to_owned(),
            None => format!("{path}_ClassNetCache"),
        },
        7 => format!("{path}Component"),
        8 => format!("{path}_C"),
        9..=11 => {
            let owner = rng.pick(&["/a", "/b", "", "Default__c", "/_Core/d", "/e.f"]);
            format!("{owner}.{}", leaf(path))
        }
        12 => leaf(path).to_owned(),
        13 => format!("{path}."),
        14 | 15 => format!("{path}{}", rng.pick(&INSTANCE_ENDS)),
        16 => {
            let mut shorter = path.to_owned();
            shorter.pop();
            shorter
        }
        _ => rng.pick(&SEEDS).to_owned(),
    }
}

/// A text of about the maximum length, or longer.
fn over_long(rng: &mut Rng) -> Vec<u8> {
    let len = rng.pick(&[4_095, 4_096, 4_097, 4_098, 10_000]);
    let mut text = rng.pick(&["", "/s.", "Default__"]).as_bytes().to_vec();
    text.resize(len, b'L');
    text
}

/// A text that is usually no valid UTF-8, and sometimes too long as well.
fn corrupted(rng: &mut Rng, text: &str) -> Vec<u8> {
    let mut bytes = text.as_bytes().to_vec();
    let at = rng.below(bytes.len() as u64 + 1) as usize;
    let odd = [0x80, 0xBF, 0xC0, 0xC3, 0xED, 0xF4, 0xF5, 0xFF];
    bytes.insert(at, rng.pick(&odd));
    if rng.once_in(4) {
        bytes.resize(4_097, b'L');
    }
    bytes
}
