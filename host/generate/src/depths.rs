//! Random cases for depth checks: a schema of one type, and documents rich in what a depth check
//! reads. Some go to a limit and stand on either side of it; others meet fragments again.

use crate::random::Random;
use tables::describe::{
    Case, Condition, Field, Fragment, Json, Kind, Literal, LiteralValue, ObjectAnswer, Selection,
    SelectionKind, Type, TypeDef,
};
use tables::layout::{limit, RESERVED};

/// The one type: its name is the first behind the reserved ones.
const ROOT: &str = "Q";
/// Fields that do not count: those whose numbers stand beside the four that do, and others.
const OTHERS: [&str; 6] = ["__type", ROOT, "a", "a", "__typename", "__schema"];
const KEYS: [&str; 5] = ["fields", "inputFields", "__type", "a", "k"];
const VARIABLES: [&str; 2] = ["yes", "absent"];
/// Never defined.
const UNDEFINED_FRAGMENT: &str = "Missing";
/// The depth at which a field that counts is refused.
const REFUSED: usize = 3;

/// The description of a seed.
pub(crate) fn case(random: Random) -> Case {
    let mut maker = Maker { random, next_place: 0, lists: 0, spreads: 0, left: 0 };
    let (operation, fragments) = match maker.random.below(20) {
        0..=9 => maker.mixed(),
        10..=12 => maker.near_open_sets(),
        13..=17 => maker.met_again(),
        18 => maker.many_fragments(),
        _ => maker.within_itself(),
    };
    let root =
        TypeDef { name: ROOT.into(), kind: Kind::Object, fields: Vec::new(), members: Vec::new() };
    let yes = (VARIABLES[0].into(), Json::Bool(true));
    Case {
        types: vec![root],
        root: ROOT.into(),
        operation,
        fragments,
        variables: if maker.random.chance(20) { vec![yes] } else { Vec::new() },
        answer: ObjectAnswer { type_name: ROOT.into(), fields: Vec::new() },
    }
}

type Document = (Vec<Selection>, Vec<Fragment>);

struct Maker {
    random: Random,
    next_place: u32,
    /// How many of a hundred fields count.
    lists: usize,
    /// How many of a hundred selections are spreads.
    spreads: usize,
    /// How many selections may still be made at random.
    left: usize,
}

fn fragment(name: String, set: Vec<Selection>) -> Fragment {
    Fragment { name, condition: ROOT.into(), set }
}

impl Maker {
    /// Anything, with few or many fields that count.
    fn mixed(&mut self) -> Document {
        self.lists = *self.random.pick(&[0, 15, 40, 60, 75, 90]);
        self.spreads = *self.random.pick(&[5, 15, 35]);
        self.left = self.random.between(2, 30);
        let names = self.fragment_names();
        // In most cases a fragment spreads later ones alone, so that the check comes to an end.
        let any_order = self.random.chance(20);
        let levels = self.random.between(2, 6);
        let operation = self.set(levels, &names);
        let mut fragments = Vec::new();
        for (number, name) in names.iter().enumerate() {
            let known = if any_order { &names[..] } else { &names[number + 1..] };
            let levels = self.random.between(1, 3);
            self.left = self.random.between(0, 6);
            fragments.push(fragment(name.clone(), self.set(levels, known)));
        }
        (operation, fragments)
    }

    /// Names of fragments; some are names that fields have too.
    fn fragment_names(&mut self) -> Vec<String> {
        let count = *self.random.pick(&[0, 1, 2, 2, 3, 3, 4, 7]);
        let mut names: Vec<String> = (0..count).map(|number| format!("F{number}")).collect();
        for other in ["fields", ROOT, "a"] {
            if count > 0 && self.random.chance(10) {
                let row = self.random.below(count);
                names[row] = other.into();
            }
        }
        names.sort();
        names.dedup();
        names
    }

    /// So many sets within one another as lie near the limit, inside out.
    fn near_open_sets(&mut self) -> Document {
        self.lists = *self.random.pick(&[0, 2, 4, 8]);
        let mut fragments = vec![fragment("E".into(), self.end("E"))];
        let mut set = self.end("E");
        for _ in 1..self.random.between(limit::OPEN - 3, limit::OPEN + 1) {
            let name = format!("C{}", fragments.len());
            let selection = match self.random.below(8) {
                0..=2 => self.inline(set),
                3..=5 => self.field(Some(set)),
                _ => {
                    fragments.push(fragment(name.clone(), set));
                    self.spread(&name)
                }
            };
            set = self.among_others(selection, &fragments);
        }
        if self.random.chance(40) {
            // Met before, E opens no set where the limit is near.
            let spread = self.spread("E");
            set.insert(0, spread);
        }
        (set, fragments)
    }

    /// What may stand in the last set: some of it opens one more.
    fn end(&mut self, fragment: &str) -> Vec<Selection> {
        match self.random.below(7) {
            0 => Vec::new(),
            1 => vec![self.spread(UNDEFINED_FRAGMENT)],
            2 => vec![self.field(Some(Vec::new()))],
            3 => vec![self.inline(Vec::new())],
            4 if self.random.chance(70) => vec![self.spread(fragment)],
            _ => vec![self.field(None)],
        }
    }

    /// A selection, now and then with another before or behind it.
    fn among_others(&mut self, selection: Selection, fragments: &[Fragment]) -> Vec<Selection> {
        let mut set = vec![selection];
        if self.random.chance(15) {
            let other = match self.random.below(4) {
                0 => self.spread(UNDEFINED_FRAGMENT),
                1 => {
                    let name = &self.random.pick(fragments).name;
                    self.spread(name)
                }
                _ => self.field(None),
            };
            let at = self.random.below(2);
            set.insert(at, other);
        }
        set
    }

    /// Fragments that raise the depth by 0, 1 or 2, met again and again at depths from 0 to 2.
    fn met_again(&mut self) -> Document {
        let fragments = self.random.between(1, 4);
        let meetings = self.random.between(3, 8);
        self.meetings(fragments, meetings)
    }

    /// As many fragments as there may be, or nearly.
    fn many_fragments(&mut self) -> Document {
        let fewer = if self.random.chance(70) { 0 } else { self.random.between(1, 3) };
        let fragments = limit::FRAGMENTS - fewer;
        let meetings = self.random.between(5, 20);
        self.meetings(fragments, meetings)
    }

    fn meetings(&mut self, count: usize, meetings: usize) -> Document {
        let name = |number: usize| format!("F{number}");
        let mut rises = Vec::new();
        let mut fragments = Vec::new();
        for number in 0..count {
            let rise = self.random.below(REFUSED);
            let inner = match self.random.below(4) {
                // The fragment before it, which may have been met or not.
                0 if number > 0 => vec![self.spread(&name(number - 1))],
                _ => vec![self.other(None)],
            };
            fragments.push(fragment(name(number), self.nested(rise, inner)));
            rises.push(rise);
        }
        // Few are met, so that they are met again; the last row's is among them.
        let some: Vec<usize> =
            (0..3).map(|_| self.random.below(count)).chain([count - 1]).collect();
        let mut met = vec![false; count];
        let mut operation = Vec::new();
        for _ in 0..meetings {
            let number = *self.random.pick(&some);
            let room = REFUSED - 1 - rises[number];
            let most = if met[number] || self.random.chance(20) { REFUSED - 1 } else { room };
            met[number] = true;
            let depth = self.random.between(0, most);
            let spread = self.spread(&name(number));
            operation.extend(self.nested(depth, vec![spread]));
        }
        (operation, fragments)
    }

    /// A set that stands within so many fields that count, and within others and inline fragments.
    fn nested(&mut self, depth: usize, mut set: Vec<Selection>) -> Vec<Selection> {
        for _ in 0..depth {
            if self.random.chance(25) {
                let inline = self.inline(set);
                set = vec![inline];
            }
            set = vec![self.list(Some(set))];
            if self.random.chance(15) {
                let other = self.other(Some(set));
                set = vec![other];
            }
        }
        set
    }

    /// A fragment that comes back to itself, by way of others or not, with or without a field that
    /// counts.
    fn within_itself(&mut self) -> Document {
        let count = self.random.between(1, 3);
        self.lists = *self.random.pick(&[0, 30, 60]);
        let name = |number: usize| format!("F{}", number % count);
        let mut fragments = Vec::new();
        for number in 0..count {
            let spread = self.spread(&name(number + 1));
            let set = match self.random.below(3) {
                0 => vec![self.field(Some(vec![spread]))],
                1 => vec![self.inline(vec![spread])],
                _ => vec![spread],
            };
            let mut before = vec![self.field(None)];
            before.truncate(self.random.below(2));
            fragments.push(fragment(name(number), [before, set].concat()));
        }
        let operation = vec![self.field(None), self.spread(&name(0))];
        (operation, fragments)
    }

    /// A set of at most so many levels.
    fn set(&mut self, levels: usize, known: &[String]) -> Vec<Selection> {
        let count = if self.random.chance(4) { 0 } else { self.random.between(1, 4) };
        let mut set = Vec::new();
        for _ in 0..count {
            if self.left == 0 {
                break;
            }
            self.left -= 1;
            set.push(self.selection(levels, known));
        }
        set
    }

    fn selection(&mut self, levels: usize, known: &[String]) -> Selection {
        if self.random.chance(self.spreads) {
            return if known.is_empty() || self.random.chance(10) {
                self.spread(UNDEFINED_FRAGMENT)
            } else {
                let name = self.random.pick(known);
                self.spread(name)
            };
        }
        let below = if levels > 1 && self.random.chance(70) {
            Some(self.set(levels - 1, known))
        } else {
            None
        };
        match below {
            Some(set) if self.random.chance(25) => self.inline(set),
            below => self.field(below),
        }
    }

    fn field(&mut self, set: Option<Vec<Selection>>) -> Selection {
        if self.random.chance(self.lists) {
            self.list(set)
        } else {
            self.other(set)
        }
    }

    /// A field that does not count.
    fn other(&mut self, set: Option<Vec<Selection>>) -> Selection {
        let name = *self.random.pick(&OTHERS);
        self.field_named(name, set)
    }

    /// A field that counts.
    fn list(&mut self, set: Option<Vec<Selection>>) -> Selection {
        let name = *self.random.pick(&RESERVED[8..]);
        self.field_named(name, set)
    }

    fn field_named(&mut self, name: &str, set: Option<Vec<Selection>>) -> Selection {
        let key = if self.random.chance(80) { name } else { *self.random.pick(&KEYS) };
        let arguments = if self.random.chance(3) {
            vec![("x".into(), Literal { value: LiteralValue::Null, place: 0 })]
        } else {
            Vec::new()
        };
        let attached = Type::named(ROOT);
        let field = Field { name: name.into(), key: key.into(), arguments, set, attached };
        self.finished(SelectionKind::Field(field))
    }

    fn spread(&mut self, name: &str) -> Selection {
        self.finished(SelectionKind::Spread(name.into()))
    }

    fn inline(&mut self, set: Vec<Selection>) -> Selection {
        let condition = if self.random.chance(20) { Some(ROOT.into()) } else { None };
        self.finished(SelectionKind::Inline { condition, set })
    }

    /// Gives a selection a place, mostly one that nothing else has, and conditions, mostly none.
    fn finished(&mut self, kind: SelectionKind) -> Selection {
        self.next_place += 1;
        let place = match self.random.below(100) {
            0 => 0,
            1 => self.random.next() as u32,
            _ => self.next_place,
        };
        Selection { skip: self.condition(), include: self.condition(), place, kind }
    }

    fn condition(&mut self) -> Condition {
        match self.random.below(30) {
            0 => Condition::Constant(true),
            1 => Condition::Constant(false),
            2 => Condition::Variable((*self.random.pick(&VARIABLES)).into()),
            _ => Condition::None,
        }
    }
}
