//! One set of modules at a time, linked in every order and every grouping: every answer of the library beside document 01 and the crate, and
//! every buffer.

use crate::compare::Tally;
use crate::lent::{numbers, Kept, Layout, Sizes};
use crate::linking::{beside_crate, disputed, link, shared};
use crate::random::Random;
use crate::reference::{reference, Notes, Object, BLOCKS, NAMES};
use crate::refusal::one;
use crate::valid;
use lc3::raw::{self, Answer, Lent};
use lc3::Refusal;
use lc3_ensemble::asm::ObjectFile;
use std::collections::BTreeMap;
use std::rc::Rc;

/// An order and a grouping.
#[derive(Clone, PartialEq, Eq, PartialOrd, Ord, Debug)]
pub enum Tree {
    Module(usize),
    Link(Rc<Tree>, Rc<Tree>),
}

/// An object that was accepted: as the library left it, as document 01 has it, and the crate's.
struct Made {
    kept: Kept,
    object: Object,
    file: ObjectFile,
}

type Outcome = Result<Rc<Made>, u16>;

/// The trees of so many modules that are tried where not all are.
const SOME: usize = 40;
/// The modules of which all trees are tried.
const EVERY: usize = 4;

/// Every grouping of modules in one order.
fn groupings(order: &[usize]) -> Vec<Rc<Tree>> {
    if let [one] = order {
        return vec![Rc::new(Tree::Module(*one))];
    }
    let pairs = |cut: usize| {
        let (left, right) = (groupings(&order[..cut]), groupings(&order[cut..]));
        left.into_iter().flat_map(move |a| right.clone().into_iter().map(move |b| Rc::new(Tree::Link(a.clone(), b))))
    };
    (1..order.len()).flat_map(pairs).collect()
}

/// Every order of so many modules.
fn orders(n: usize) -> Vec<Vec<usize>> {
    if n == 0 {
        return vec![vec![]];
    }
    let with = |before: Vec<usize>| (0..n).map(move |at| [&before[..at], &[n - 1], &before[at..]].concat());
    orders(n - 1).into_iter().flat_map(with).collect()
}

fn any_grouping(r: &mut Random, order: &[usize]) -> Rc<Tree> {
    if let [one] = order {
        return Rc::new(Tree::Module(*one));
    }
    let cut = 1 + r.below(order.len() - 1);
    Rc::new(Tree::Link(any_grouping(r, &order[..cut]), any_grouping(r, &order[cut..])))
}

/// All trees of a few modules, or some.
fn trees(r: &mut Random, n: usize) -> Vec<Rc<Tree>> {
    if n <= EVERY {
        return orders(n).iter().flat_map(|order| groupings(order)).collect();
    }
    let mut order: Vec<usize> = (0..n).collect();
    let mut any = || {
        (0..n).for_each(|i| order.swap(i, r.below(n)));
        any_grouping(r, &order)
    };
    (0..SOME).map(|_| any()).collect()
}

/// What was linked of one set.
pub struct Linked {
    pub tree: Rc<Tree>,
    pub sizes: Sizes,
    /// The words of all modules.
    pub words: usize,
    pub answer: Answer,
    pub listing: String,
}

impl Tree {
    /// How many modules it has.
    pub fn modules(&self) -> usize {
        match self {
            Tree::Module(_) => 1,
            Tree::Link(a, b) => a.modules() + b.modules(),
        }
    }
}

impl Tally {
    /// Compares all links of a set of modules, and gives some of the library's answers.
    pub fn modules(&mut self, sources: &[String]) -> Vec<Linked> {
        self.sets += 1;
        let shown = sources.join("\n---- ").into_bytes();
        let mut notes = Notes::default();
        let Some(made) = sources.iter().map(|src| self.assembled_module(src)).collect::<Option<Vec<_>>>() else {
            self.differs(&shown, "a module that does not assemble".to_string());
            return vec![];
        };
        let mut set = Set { modules: made, done: BTreeMap::new(), answers: BTreeMap::new() };
        let trees = trees(&mut self.random, sources.len());
        let outcomes: Vec<_> = trees.iter().map(|tree| set.outcome(tree, self, &shown, &mut notes)).collect();
        self.promised(&shown, &set, &outcomes);
        let mut linked = self.some(&set, &trees, &outcomes);
        linked.extend(self.other_rooms(&shown, &set));
        self.other_inputs(&shown, &set);
        if !set.modules.iter().chain(set.done.values().flatten()).all(|made| made.whole()) {
            self.differs(&shown, "a link changes an object that is lent".to_string());
        }
        notes.named.sort();
        notes.named.dedup();
        notes.named.iter().for_each(|name| *self.named.entry(name).or_default() += 1);
        notes.differences.into_iter().for_each(|what| self.differs(&shown, what));
        linked
    }

    fn assembled_module(&mut self, src: &str) -> Option<Rc<Made>> {
        let there = reference(src.as_bytes(), &mut Notes::default()).answer.ok()?;
        let answer = self.six.assemble(src.as_bytes(), Sizes::FULL);
        let layout = Layout::of(&there.object);
        self.expect(src.as_bytes(), "assemble a module", answer, numbers(Ok(layout.counts())));
        Some(Rc::new(Made { kept: self.six.kept(layout.counts()), object: there.object, file: there.file }))
    }

    /// Links two lent objects into buffers of these sizes: the answer, every buffer, and where it is accepted the object.
    fn linked(&mut self, shown: &[u8], a: Lent, b: Lent, sizes: Sizes, there: &Result<Object, Refusal>) -> Answer {
        self.links += 1;
        let layout = there.as_ref().map_or_else(|_| Layout::default(), Layout::of);
        let there = numbers(there.as_ref().map(|_| layout.counts()));
        let here = self.six.link(a, b, sizes);
        self.expect(shown, "link", here, there);
        *self.links_by_number.entry(here[0] as u16).or_default() += 1;
        if here == there {
            if let Some(buffer) = self.six.fault(sizes, &layout) {
                self.differs(shown, format!("after link with {sizes:?}, answer {here:?}: {buffer}"));
            }
        }
        here
    }

    /// Document 01's third demand, in its own words, where the list keeps to what it needs.
    fn promised(&mut self, shown: &[u8], set: &Set, outcomes: &[Outcome]) {
        let objects: Vec<&Object> = set.modules.iter().map(|made| &made.object).collect();
        let sum = |count: fn(&Object) -> usize| objects.iter().map(|o| count(o)).sum::<usize>();
        let [blocks, labels, relocations] = [sum(|o| o.blocks.len()), sum(|o| o.labels.len()), sum(|o| o.relocations.len())];
        if blocks > BLOCKS || labels > NAMES || relocations > NAMES || sum(words) > raw::WORDS {
            return;
        }
        self.promises += 1;
        let refused = clash(&objects);
        if outcomes.iter().any(|o| o.is_err() != refused) {
            self.differs(
                shown,
                format!("two entries clash: {refused}; refused: {:?}", outcomes.iter().map(|o| o.is_err()).collect::<Vec<_>>()),
            );
        }
        let mut all = outcomes.iter().flatten();
        let Some(first) = all.next() else { return };
        if all.any(|made| made.object != first.object || made.kept.six != first.kept.six) {
            self.differs(shown, "two orders or groupings give two objects".to_string());
        }
        if cells(&first.object) != promised_cells(&objects) {
            self.differs(shown, "the words of the result".to_string());
        }
    }

    /// Two of the modules linked with other rooms.
    fn other_rooms(&mut self, shown: &[u8], set: &Set) -> Vec<Linked> {
        let n = set.modules.len();
        let (i, j) = (self.random.below(n), self.random.below(n));
        let (a, b) = (&set.modules[i], &set.modules[j]);
        let (full, total) = (Sizes::FULL, a.kept.counts[1] + b.kept.counts[1]);
        let (total, less) = (total.min(raw::WORDS), total.min(raw::WORDS).saturating_sub(1));
        let table = [
            Sizes { blocks: full.blocks - 1, ..full },
            Sizes { labels: full.labels - 1, ..full },
            Sizes { relocations: full.relocations - 1, words: 0, ..full },
            Sizes { names: full.names - 1, ..full },
            Sizes { blocks: 0, words: 0, marks: 0, labels: 0, relocations: 0, names: 0 },
            Sizes::LONG,
            Sizes { words: 0, marks: 0, ..full },
        ];
        let rooms = [
            Sizes { words: total, marks: total, ..full },
            self.random.pick(&[Sizes { words: less, ..full }, Sizes { marks: less, ..full }]),
            self.random.pick(&table),
        ];
        let linked = |sizes: Sizes| {
            let there = expected_of(&a.object, &b.object, sizes);
            let answer = self.linked(shown, a.kept.lent(), b.kept.lent(), sizes, &there);
            let tree = Rc::new(Tree::Link(Rc::new(Tree::Module(i)), Rc::new(Tree::Module(j))));
            Linked { tree, sizes, words: set.words(), answer, listing: there.map_or(String::new(), |o| crate::compare::listing(&o)) }
        };
        rooms.map(linked).into()
    }

    /// Two of the modules with numbers changed, or with a short table.
    fn other_inputs(&mut self, shown: &[u8], set: &Set) {
        let n = set.modules.len();
        let [mut a, mut b] = [0, 1].map(|_| set.modules[self.random.below(n)].kept.clone());
        match self.random.below(6) {
            0 => shorten(&mut self.random, &mut a),
            1 => shorten(&mut self.random, &mut b),
            2 | 3 => change(&mut self.random, &mut a),
            4 => change(&mut self.random, &mut b),
            _ => {
                change(&mut self.random, &mut a);
                change(&mut self.random, &mut b);
            }
        }
        let before = (a.six.clone(), b.six.clone());
        let there = expected(&a.lent(), &b.lent(), Sizes::FULL);
        self.linked(shown, a.lent(), b.lent(), Sizes::FULL, &there);
        if before != (a.six, b.six) {
            self.differs(shown, "a link changes what is lent".to_string());
        }
    }

    /// Some of the trees with their answers: the first and any other.
    fn some(&mut self, set: &Set, trees: &[Rc<Tree>], outcomes: &[Outcome]) -> Vec<Linked> {
        let at = self.random.below(trees.len());
        let told = |i: usize| {
            let answer = set.answers.get(&trees[i]).copied();
            answer.map(|answer| {
                let listing = outcomes[i].as_ref().map_or(String::new(), |made| crate::compare::listing(&made.object));
                Linked { tree: trees[i].clone(), sizes: Sizes::FULL, words: set.words(), answer, listing }
            })
        };
        [0, at].into_iter().filter_map(told).collect()
    }
}

/// The modules of a set, and what has come of each tree so far.
struct Set {
    modules: Vec<Rc<Made>>,
    done: BTreeMap<Rc<Tree>, Outcome>,
    /// The library's answer to the link of each tree whose two sides are accepted.
    answers: BTreeMap<Rc<Tree>, Answer>,
}

impl Set {
    fn words(&self) -> usize {
        self.modules.iter().map(|made| made.kept.counts[1]).sum()
    }

    fn outcome(&mut self, tree: &Rc<Tree>, tally: &mut Tally, shown: &[u8], notes: &mut Notes) -> Outcome {
        let (left, right) = match &**tree {
            Tree::Module(i) => return Ok(self.modules[*i].clone()),
            Tree::Link(left, right) => (left, right),
        };
        if let Some(known) = self.done.get(tree) {
            return known.clone();
        }
        let (a, b) = (self.outcome(left, tally, shown, notes), self.outcome(right, tally, shown, notes));
        let outcome = match (a, b) {
            (Ok(a), Ok(b)) => self.link(tree, &a, &b, tally, shown, notes),
            (Err(number), _) | (_, Err(number)) => Err(number),
        };
        self.done.insert(tree.clone(), outcome.clone());
        outcome
    }

    fn link(&mut self, tree: &Rc<Tree>, a: &Made, b: &Made, tally: &mut Tally, shown: &[u8], notes: &mut Notes) -> Outcome {
        let there = link(&a.object, &b.object, raw::WORDS);
        let file = beside_crate(&a.file, &b.file, &there, notes);
        let room = (a.kept.counts[1] + b.kept.counts[1]).min(raw::WORDS);
        let sizes = Sizes { words: room, marks: room, ..Sizes::FULL };
        let here = tally.linked(shown, a.kept.lent(), b.kept.lent(), sizes, &there);
        self.answers.insert(tree.clone(), here);
        match (there, file) {
            (Ok(object), Some(file)) if here[0] == 0 => {
                let counts = Layout::of(&object).counts();
                Ok(Rc::new(Made { kept: tally.six.kept(counts), object, file }))
            }
            _ => Err(here[0] as u16),
        }
    }
}

impl Made {
    /// Whether the buffers still hold the object.
    fn whole(&self) -> bool {
        self.kept.six.starts_with(&Layout::of(&self.object))
    }
}

/// What document 01 answers, where so much is lent.
fn expected_of(a: &Object, b: &Object, sizes: Sizes) -> Result<Object, Refusal> {
    if sizes.short() {
        return Err(one(42, 0..0));
    }
    link(a, b, sizes.words.min(sizes.marks))
}

/// The same of whatever is lent.
fn expected(a: &Lent, b: &Lent, sizes: Sizes) -> Result<Object, Refusal> {
    if valid::short(a) || valid::short(b) || sizes.short() {
        return Err(one(42, 0..0));
    }
    if !valid::valid(a) || !valid::valid(b) {
        return Err(one(43, 0..0));
    }
    expected_of(&valid::object(a), &valid::object(b), sizes)
}

/// One or two numbers changed.
fn change(r: &mut Random, kept: &mut Kept) {
    for _ in 0..r.below(2) + 1 {
        kept.six.damage(r, &mut kept.counts);
    }
}

/// A table or the names one short.
fn shorten(r: &mut Random, kept: &mut Kept) {
    let s = &mut kept.sizes;
    let size = [&mut s.blocks, &mut s.labels, &mut s.relocations, &mut s.names].into_iter().nth(r.below(4)).unwrap();
    *size -= 1;
}

fn words(o: &Object) -> usize {
    o.blocks.iter().map(|(_, words)| words.len()).sum()
}

/// Each address of an object with its word.
fn cells(o: &Object) -> BTreeMap<u16, Option<u16>> {
    o.blocks.iter().flat_map(|(start, words)| words.iter().enumerate().map(|(i, word)| (*start + i as u16, *word))).collect()
}

/// "Two entries share an address or define one name at two addresses."
fn clash(objects: &[&Object]) -> bool {
    let pairs = objects.iter().enumerate().flat_map(|(i, a)| objects[..i].iter().map(move |b| (*a, *b)));
    pairs.into_iter().any(|(a, b)| shared(a, b) || a.labels.keys().any(|name| disputed(a, b, name)))
}

/// "Each relocation whose name some entry defines holds that address, every other word is as its entry had it."
fn promised_cells(objects: &[&Object]) -> BTreeMap<u16, Option<u16>> {
    let mut all: BTreeMap<_, _> = objects.iter().flat_map(|o| cells(o)).collect();
    let labels = || objects.iter().flat_map(|o| &o.labels);
    for (at, name) in objects.iter().flat_map(|o| &o.relocations) {
        if let Some((_, (address, _))) = labels().find(|(n, (_, external))| *n == name && !external) {
            all.insert(*at, Some(*address));
        }
    }
    all
}
