//! The one constant table of items: per level, tag, kind and lengths.

/// What a pack's end asks of its items, each joined to those before by `^`:
/// as a tag stands once, `LOCATED` is on if tag 17 stands and `UNPAIRED` if
/// one of 19 and 20 stands without the other. Two bytes are quicker than one.
pub(crate) type Held = u16;
pub(crate) const LOCATED: Held = 1;
pub(crate) const UNPAIRED: Held = 2;

/// What a value is.
#[derive(Clone, Copy, Debug, PartialEq, Eq)]
pub enum Kind {
    /// Kept byte for byte.
    Bytes,
    /// N: an unsigned number, high byte first.
    Number,
    /// P: such a number that may not be 0.
    Pixel,
    /// Pack tag 17: its groups are cut whole.
    Location,
    /// Set tag 1.
    Checksum,
    /// Set tag 101.
    Series,
}

/// What the table says of one tag.
#[derive(Clone, Copy, Debug)]
pub struct Rule {
    pub kind: Kind,
    /// An offset item of a pack, which standalone may not have.
    pub offset: bool,
    /// What it is to its pack's end; nothing in a set.
    pub(crate) held: Held,
    pub least: usize,
    pub greatest: usize,
}

impl Rule {
    /// Whether a value of this kind may have this length.
    #[inline]
    pub const fn allows(&self, length: usize) -> bool {
        length >= self.least
            && length <= self.greatest
            && (!matches!(self.kind, Kind::Location) || matches!(length, 10 | 16 | 22))
    }

    /// Whether the value is a number and so has a shortest form.
    #[inline]
    pub const fn is_number(&self) -> bool {
        matches!(self.kind, Kind::Number | Kind::Pixel)
    }
}

const fn rule(kind: Kind, least: usize, greatest: usize) -> Rule {
    Rule { kind, offset: false, held: 0, least, greatest }
}

const fn number(width: usize) -> Rule {
    rule(Kind::Number, 1, width)
}

const fn pixel(width: usize) -> Rule {
    rule(Kind::Pixel, 1, width)
}

const fn bytes(length: usize) -> Rule {
    rule(Kind::Bytes, length, length)
}

const fn text(greatest: usize) -> Rule {
    rule(Kind::Bytes, 1, greatest)
}

const fn offset() -> Rule {
    Rule { offset: true, ..bytes(3) }
}

const fn held(held: Held, rule: Rule) -> Rule {
    Rule { held, ..rule }
}

/// One or more bytes.
static UNLISTED: Rule = rule(Kind::Bytes, 1, usize::MAX);

const SET_ITEMS: &[(usize, Rule)] = &[
    (1, rule(Kind::Checksum, 2, 2)),
    (2, bytes(8)),   // time stamp
    (3, text(32)),   // system name
    (4, number(2)),  // version
    (5, number(3)),  // targets detected
    (6, number(3)),  // targets reported
    (8, number(3)),  // frame width
    (9, number(3)),  // frame height
    (10, text(128)), // source sensor
    (11, bytes(2)),  // horizontal field of view
    (12, bytes(2)),  // vertical field of view
    (101, rule(Kind::Series, 1, usize::MAX)),
];

const PACK_ITEMS: &[(usize, Rule)] = &[
    (1, pixel(6)),  // centroid
    (2, pixel(6)),  // bounding box, top left
    (3, pixel(6)),  // bounding box, bottom right
    (4, bytes(1)),  // priority
    (5, bytes(1)),  // confidence
    (6, number(2)), // history
    (7, bytes(1)),  // percentage of pixels
    (8, bytes(3)),  // colour
    (9, number(3)), // intensity
    (10, offset()), // latitude offset
    (11, offset()), // longitude offset
    (12, bytes(2)), // height
    (13, offset()), // box latitude and longitude offsets
    (14, offset()),
    (15, offset()),
    (16, offset()),
    (17, held(LOCATED, rule(Kind::Location, 10, 22))),
    (19, held(UNPAIRED, pixel(4))), // centroid row
    (20, held(UNPAIRED, pixel(4))), // centroid column
    (22, number(3)),                // algorithm
    (23, bytes(1)),                 // detection status
];

const fn fill(listed: &[(usize, Rule)]) -> [Rule; 128] {
    let mut table = [rule(Kind::Bytes, 1, usize::MAX); 128];
    let mut next = 0;
    while next < listed.len() {
        table[listed[next].0] = listed[next].1;
        next += 1;
    }
    table
}

const SET: [Rule; 128] = fill(SET_ITEMS);
const PACK: [Rule; 128] = fill(PACK_ITEMS);
static SET_RULES: [Rule; 128] = SET;
static PACK_RULES: [Rule; 128] = PACK;

/// The rule of a set's tag.
#[inline]
pub fn set_rule(tag: u16) -> &'static Rule {
    SET_RULES.get(usize::from(tag)).unwrap_or(&UNLISTED)
}

/// The rule of a pack's tag.
#[inline]
pub fn pack_rule(tag: u16) -> &'static Rule {
    PACK_RULES.get(usize::from(tag)).unwrap_or(&UNLISTED)
}

/// The table in the shape of one quick question, for items of one-byte tags
/// and short lengths that ask nothing else.
#[derive(Clone, Copy)]
pub(crate) struct Quick {
    /// A bit for each length allowed below 32; none where the tag asks more.
    pub lengths: u32,
    pub number: bool,
    pub held: Held,
}

pub(crate) type QuickTable = [Quick; 128];

const fn quick(rules: &[Rule; 128], standalone: bool) -> QuickTable {
    let mut table = [Quick { lengths: 0, number: false, held: 0 }; 128];
    let mut tag = 1;
    while tag < 128 {
        let rule = &rules[tag];
        let asks = matches!(rule.kind, Kind::Checksum | Kind::Series) || standalone && rule.offset;
        let mut length = if asks { 32 } else { 1 };
        while length < 32 {
            table[tag].lengths |= (rule.allows(length) as u32) << length;
            length += 1;
        }
        table[tag].number = rule.is_number();
        table[tag].held = rule.held;
        tag += 1;
    }
    table
}

static QUICK_SET: QuickTable = quick(&SET, false);
static QUICK_EMBEDDED: QuickTable = quick(&PACK, false);
static QUICK_STANDALONE: QuickTable = quick(&PACK, true);

/// The quick table of a set, or of a pack in one of the forms.
#[inline]
pub(crate) fn quick_table(set: bool, standalone: bool) -> &'static QuickTable {
    match (set, standalone) {
        (true, _) => &QUICK_SET,
        (_, false) => &QUICK_EMBEDDED,
        (_, true) => &QUICK_STANDALONE,
    }
}
