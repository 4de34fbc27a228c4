//! What stands in public after each payload, and whether the next one fits ("The key step").
use std::collections::BTreeSet;

/// A kind of keys, in their order, and an id.
type Role = (u8, u32);
/// A kind of links, the id of its source and that of its target.
type Edge = (u8, u32, u32);

const OWNER: u8 = 0;
const HOLDER: u8 = 1;
const CLEAR: u8 = 2;
const SUB: u8 = 3;
const BACK: u8 = 4;
const FILES: u8 = 5;
const DATA: u8 = 6;
const FILE: u8 = 7;
/// The kinds of keys at both ends of a link, by its kind, and what seals a content, by its kind.
#[rustfmt::skip]
const ENDS: [(u8, u8); 10] = [
    (0, 0), (OWNER, CLEAR), (HOLDER, CLEAR), (CLEAR, SUB), (SUB, BACK), (SUB, FILES), (SUB, SUB), (BACK, DATA), (BACK, BACK), (FILES, FILE),
];
const SEALING: [u8; 4] = [0, DATA, FILE, OWNER];
const DEPTH: usize = 64;

#[derive(Default)]
pub struct Folder {
    pub stands: bool,
    pub parent: u32, // 0 for none
    files: BTreeSet<u32>,
    folders: BTreeSet<u32>,
    holders: BTreeSet<u32>,
}

/// What a note does with edges and keys.
#[derive(Default)]
struct Change {
    cut: Vec<Role>,  // the targets of the edges removed
    left: Vec<Role>, // their sources, but for roots and what goes
    gone: Vec<Role>,
    wanted: Vec<Role>,
    new: Vec<Role>,
    added: Vec<Edge>,
    content: Option<(u8, u32)>,
}

/// Folders and files by their ids, each list with a place 0 for none.
#[derive(Default)]
pub struct State {
    version: u8,
    pub folders: Vec<Folder>,
    pub homes: Vec<u32>, // the folder of each file, 0 where it is gone
    pub holders: u32,
    pub next: u64, // serial
    serials: [Vec<u64>; 8],
    dirty: BTreeSet<Role>,
    /// Where the last content of each kind and id stands, and the last link of each kind and target: of the kinds that an owner opens,
    /// no two links that stand have one target.
    pub contents: [Vec<usize>; 4],
    pub links: [Vec<usize>; 10],
}

pub fn be32(bytes: &[u8]) -> u32 {
    u32::from_be_bytes(bytes[..4].try_into().unwrap())
}

fn put<T: Clone + Default>(list: &mut Vec<T>, id: u32, value: T) {
    list.resize(list.len().max(id as usize + 1), T::default());
    list[id as usize] = value;
}

impl State {
    pub fn new() -> State {
        let mut state = State { folders: vec![Folder::default()], homes: vec![0], ..State::default() };
        state.serials[OWNER as usize].push(0);
        state
    }

    /// Follows the payload that stands at this place; `None` where it doesn't fit.
    pub fn take(&mut self, payload: &[u8], place: usize) -> Option<()> {
        let code = payload[0];
        let fields = [0, 0, 36, 8, 8, 4, 4, 4, 4, 4, 8, 8, 8, 8, 0, 0][code as usize];
        let a = if fields > 0 { be32(&payload[1..]) } else { 1 };
        let b = if fields == 8 { be32(&payload[5..]) } else { 0 };
        self.fits(code, a, b).then_some(())?;
        let Change { cut, left, gone, wanted, new, added: mut due, content } = self.change(code, a, b);
        let strict = self.strict(code, left, &gone);
        self.dirty.extend(closure(cut, |role| self.edges_from(role), |(kind, _, target)| (ENDS[kind as usize].1, target)));
        self.detach(code, a, b);
        gone.iter().for_each(|role| _ = self.dirty.remove(role));
        let mut plan = BTreeSet::new();
        if !self.dirty.is_empty() {
            plan = closure(wanted, |role| self.edges_into(role), |(kind, source, _)| (ENDS[kind as usize].0, source));
            plan.retain(|role| self.dirty.remove(role));
            strict.iter().for_each(|role| _ = self.dirty.remove(role));
        }
        plan.extend(strict);
        for role in plan.iter().chain(&new) {
            let serial = self.serial();
            put(&mut self.serials[role.0 as usize], role.1, serial);
        }
        self.attach(code, a, b);
        if !plan.is_empty() {
            plan.iter().for_each(|role| due.extend([self.edges_from(*role), self.edges_into(*role)].concat()));
            due.sort();
            due.dedup();
        }
        self.records(&payload[1 + fields..], place + 1 + fields, &due, content)
    }

    /// Whether these are the records of the step, head by head; where they stand is kept.
    fn records(&mut self, payload: &[u8], place: usize, due: &[Edge], content: Option<(u8, u32)>) -> Option<()> {
        let mut at = 8;
        let counts = be32(payload) as usize == due.len() && be32(&payload[4..]) == content.is_some() as u32;
        counts.then_some(())?;
        for &(kind, source, target) in due {
            let (from, to) = ENDS[kind as usize];
            let serials = [self.serials[from as usize][source as usize], self.serials[to as usize][target as usize], self.serial()];
            (payload[at + 1] == kind && payload[at + 2..at + 34] == head([source, target], serials)).then_some(())?;
            put(&mut self.links[kind as usize], target, place + at);
            at += 98;
        }
        if let Some((kind, id)) = content {
            let sealing = self.serials[SEALING[kind as usize] as usize][if kind == 3 { 0 } else { id as usize }];
            let is_due = payload[at + 1] == kind && payload[at + 2..at + 22] == head([id], [sealing, self.serial()]);
            let is_empty = be32(&payload[at + 22..]) == 0;
            (is_due && is_empty == ((kind, id) == (1, 1))).then_some(())?;
            put(&mut self.contents[kind as usize], id, place + at);
        }
        Some(())
    }

    fn serial(&mut self) -> u64 {
        self.next += 1;
        self.next - 1
    }

    fn folder(&self, id: u32) -> &Folder {
        &self.folders[id as usize]
    }

    fn is_folder(&self, id: u32) -> bool {
        self.folders.get(id as usize).is_some_and(|folder| folder.stands)
    }

    /// The folder and those that it is under.
    pub fn up(&self, id: u32) -> impl Iterator<Item = u32> + '_ {
        std::iter::successors(Some(id), |id| Some(self.folder(*id).parent).filter(|parent| *parent > 0))
    }

    fn height(&self, id: u32) -> usize {
        let below = self.folder(id).folders.iter().map(|one| 1 + self.height(*one)).max().unwrap_or(0);
        below.max(!self.folder(id).files.is_empty() as usize)
    }

    fn fits(&self, code: u8, a: u32, b: u32) -> bool {
        let is_file = self.homes.get(a as usize).is_some_and(|home| *home > 0);
        let is_inner = self.is_folder(a) && a != 1;
        let has_room = |more: usize| self.is_folder(b) && self.up(b).count() + more <= DEPTH;
        match code {
            1 | 14 => self.folders.len() == 1,
            _ if !self.is_folder(1) => false,
            15 => self.version == 1,
            2 => a == self.holders + 1,
            3 => a as usize == self.folders.len() && has_room(0),
            4 => a as usize == self.homes.len() && has_room(0),
            5 | 6 | 8 => is_file,
            7 => is_inner,
            9 => is_inner && self.folder(a).folders.is_empty() && self.folder(a).files.is_empty(),
            10 => is_file && self.homes[a as usize] != b && has_room(0),
            11 => is_inner && has_room(self.height(a)) && self.folder(a).parent != b && self.up(b).all(|above| above != a),
            12 => (1..=self.holders).contains(&a) && self.is_folder(b) && !self.folder(b).holders.contains(&a),
            _ => self.is_folder(b) && self.folder(b).holders.contains(&a),
        }
    }

    fn change(&self, code: u8, a: u32, b: u32) -> Change {
        let five = || (CLEAR..=DATA).map(|kind| (kind, a)).collect();
        let none = Change::default();
        match code {
            1 | 14 => {
                Change { new: five(), added: vec![(1, 0, a), (3, a, a), (4, a, a), (5, a, a), (7, a, a)], content: Some((1, a)), ..none }
            }
            2 => Change { new: vec![(HOLDER, a)], content: Some((3, a)), ..none },
            3 => {
                let added = vec![(1, 0, a), (3, a, a), (4, a, a), (5, a, a), (6, b, a), (7, a, a), (8, a, b)];
                Change { wanted: vec![(SUB, b)], new: five(), added, content: Some((1, a)), ..none }
            }
            4 => Change { wanted: vec![(FILES, b)], new: vec![(FILE, a)], added: vec![(9, b, a)], content: Some((2, a)), ..none },
            5 | 6 => Change { wanted: vec![(FILE, a)], content: Some((2, a)), ..none },
            7 => Change { wanted: vec![(DATA, a)], content: Some((1, a)), ..none },
            8 => Change { cut: vec![(FILE, a)], left: vec![(FILES, self.homes[a as usize])], gone: vec![(FILE, a)], ..none },
            9 => Change { cut: vec![(CLEAR, a), (SUB, a)], left: vec![(SUB, self.folder(a).parent)], gone: five(), ..none },
            10 => {
                let left = vec![(FILES, self.homes[a as usize])];
                Change { cut: vec![(FILE, a)], left, wanted: vec![(FILES, b)], added: vec![(9, b, a)], ..none }
            }
            11 => {
                let parent = self.folder(a).parent;
                let (cut, left) = (vec![(SUB, a), (BACK, parent)], vec![(SUB, parent), (BACK, a)]);
                Change { cut, left, wanted: vec![(BACK, a), (SUB, b)], added: vec![(6, b, a), (8, a, b)], ..none }
            }
            12 => Change { added: vec![(2, a, b)], ..none },
            15 => none,
            _ => Change { cut: vec![(CLEAR, b)], wanted: vec![(CLEAR, b)], ..none },
        }
    }

    /// The roles that get new keys whether or not they are dirty.
    fn strict(&self, code: u8, left: Vec<Role>, gone: &[Role]) -> BTreeSet<Role> {
        if code == 15 {
            let standing = (1..self.folders.len() as u32).filter(|id| self.is_folder(*id));
            return standing.flat_map(|id| (CLEAR..=FILES).map(move |kind| (kind, id))).collect();
        }
        let mut found = BTreeSet::new();
        if self.version == 2 {
            found = closure(left, |role| self.edges_into(role), |(kind, source, _)| (ENDS[kind as usize].0, source));
            found.retain(|role| role.0 > HOLDER && !gone.contains(role));
        }
        found
    }

    /// Takes away what the note takes away.
    fn detach(&mut self, code: u8, a: u32, b: u32) {
        match code {
            8 | 10 => {
                let home = std::mem::take(&mut self.homes[a as usize]);
                self.folders[home as usize].files.remove(&a);
            }
            9 | 11 => {
                let parent = std::mem::take(&mut self.folders[a as usize].parent);
                self.folders[parent as usize].folders.remove(&a);
                if code == 9 {
                    self.folders[a as usize] = Folder::default();
                }
            }
            13 => _ = self.folders[b as usize].holders.remove(&a),
            _ => {}
        }
    }

    /// Adds what the note adds.
    fn attach(&mut self, code: u8, a: u32, b: u32) {
        if matches!(code, 1 | 14 | 15) {
            self.version = if code == 1 { 1 } else { 2 };
        }
        if matches!(code, 1 | 3 | 14) {
            self.folders.push(Folder { stands: true, ..Folder::default() });
        }
        match code {
            2 => self.holders = a,
            3 | 11 => {
                self.folders[a as usize].parent = b;
                self.folders[b as usize].folders.insert(a);
            }
            4 | 10 => {
                put(&mut self.homes, a, b);
                self.folders[b as usize].files.insert(a);
            }
            12 => _ = self.folders[b as usize].holders.insert(a),
            _ => {}
        }
    }

    /// The edges that begin at a key of a folder or file.
    fn edges_from(&self, (kind, id): Role) -> Vec<Edge> {
        match kind {
            CLEAR => vec![(3, id, id)],
            SUB => [(4, id, id), (5, id, id)].into_iter().chain(self.folder(id).folders.iter().map(|one| (6, id, *one))).collect(),
            BACK => std::iter::once((7, id, id)).chain(self.up(id).nth(1).map(|parent| (8, id, parent))).collect(),
            FILES => self.folder(id).files.iter().map(|one| (9, id, *one)).collect(),
            _ => vec![],
        }
    }

    fn edges_into(&self, (kind, id): Role) -> Vec<Edge> {
        match kind {
            CLEAR => std::iter::once((1, 0, id)).chain(self.folder(id).holders.iter().map(|one| (2, *one, id))).collect(),
            SUB => std::iter::once((3, id, id)).chain(self.up(id).nth(1).map(|parent| (6, parent, id))).collect(),
            BACK => std::iter::once((4, id, id)).chain(self.folder(id).folders.iter().map(|one| (8, *one, id))).collect(),
            FILES => vec![(5, id, id)],
            DATA => vec![(7, id, id)],
            FILE if self.homes[id as usize] > 0 => vec![(9, self.homes[id as usize], id)],
            _ => vec![],
        }
    }
}

/// The roles that edges lead to from these, and these.
fn closure(begun: Vec<Role>, edges: impl Fn(Role) -> Vec<Edge>, end: impl Fn(Edge) -> Role) -> BTreeSet<Role> {
    let (mut found, mut beyond) = (BTreeSet::new(), begun);
    while let Some(role) = beyond.pop() {
        if found.insert(role) {
            beyond.extend(edges(role).into_iter().map(&end));
        }
    }
    found
}

/// A record's ids and serials, as they are spelled.
fn head(ids: impl IntoIterator<Item = u32>, serials: impl IntoIterator<Item = u64>) -> Vec<u8> {
    ids.into_iter().flat_map(u32::to_be_bytes).chain(serials.into_iter().flat_map(u64::to_be_bytes)).collect()
}
