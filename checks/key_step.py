"""The key step of docs/FORMAT.md: what everybody can see of a store, which notes fit, and which keys and records each of them gives. The
store's version is part of what everybody can see.

A role is a pair of one of the kinds below and an id; an edge is a link's kind with the ids of its source and its target. Where a grant
names a file it does so by the file's clearance number, which is CLEARANCES and its number; Clear of that number stands while the file has a
grant.
"""
from collections import defaultdict, namedtuple

from store_limits import DEPTH, FILE_LIMIT, NAME_LIMIT

CLEARANCES = 1 << 31

OWNER, HOLDER, CLEAR, SUB, BACK, FILES, DATA, FILE = range(8)  # in their order
FOLDER_ROLES = (CLEAR, SUB, BACK, FILES, DATA)
LINKS = {1: (OWNER, CLEAR), 2: (HOLDER, CLEAR), 3: (CLEAR, SUB), 4: (SUB, BACK), 5: (SUB, FILES), 6: (SUB, SUB), 7: (BACK, DATA),
         8: (BACK, BACK), 9: (FILES, FILE), 10: (CLEAR, FILE), 11: (CLEAR, BACK)}
CONTENTS = {1: (DATA, 0, NAME_LIMIT), 2: (FILE, 2, 1 + NAME_LIMIT + FILE_LIMIT), 3: (OWNER, 32, 32)}  # what seals it, the lengths that its text may have
NAME_OF_FOLDER, BYTES_OF_FILE, KEY_OF_HOLDER = CONTENTS
NOTES = range(1, 16)
(ROOT, NEW_HOLDER, NEW_FOLDER, NEW_FILE, REWRITE, NAME_FILE, NAME_FOLDER, DROP_FILE, DROP_FOLDER, SHIFT_FILE, SHIFT_FOLDER, GIVE,
 TAKE, STRICT_ROOT, UPGRADE) = NOTES
VERSIONS = {ROOT: 1, STRICT_ROOT: 2, UPGRADE: 2}  # that a store has behind these notes

# what a key may read: the folders that are granted to it, those allowed and those named; the files that are granted in folders that aren't
# allowed, and all that are allowed
Rights = namedtuple("Rights", "entries allowed named entry_files files")
# what a note does: the edges removed, the roles gone, wanted and new, the edges added, the content's kind and id
Change = namedtuple("Change", "removed gone wanted new added content", defaults=((), (), (), (), (), None))
Head = namedtuple("Head", "kind ids serials nonce")  # of a link, source and target each; of a content, one each


def source(edge):
    return LINKS[edge[0]][0], edge[1]


def target(edge):
    return LINKS[edge[0]][1], edge[2]


def sealing_role(kind, number):
    """The role whose key seals a content of this kind and id."""
    return CONTENTS[kind][0], 0 if kind == KEY_OF_HOLDER else number


def closure(begun, edges, near, far):
    """The roles that were begun with, and those that edges lead to from them, from the near end to the far one."""
    following = defaultdict(list)
    for edge in edges:
        following[near(edge)].append(far(edge))
    found, new = set(begun), set(begun)
    while new:
        new = {role for one in new for role in following[one]} - found
        found |= new
    return found


class State:
    """The version; folders with their parents, files with their folders, the checks of the holders, the grants; of the keys the present
    serials, the edges between their roles and the dirty ones."""

    def __init__(self):
        self.version = None
        self.parents, self.homes, self.checks, self.grants = {}, {}, [], set()
        self.folders_made = self.files_made = 0
        self.serials, self.edges, self.dirty = {(OWNER, 0): 0}, set(), set()
        self.epoch = self.count = 0

    def begin_epoch(self, epoch):
        self.epoch, self.count = epoch, 0

    def ancestors(self, folder):
        """The folders that this one is under, the nearest first."""
        while folder != 1:
            folder = self.parents[folder]
            yield folder

    def rights(self, holder):
        """What a holder may read, or for 0 the owner."""
        entries = {folder for folder in self.parents if not holder or (holder, folder) in self.grants}
        allowed = {folder for folder in self.parents if folder in entries or not entries.isdisjoint(self.ancestors(folder))}
        entry_files = {file for file, home in self.homes.items() if (holder, CLEARANCES + file) in self.grants and home not in allowed}
        homes = {self.homes[file] for file in entry_files}
        named = allowed.union(homes, *map(self.ancestors, entries | homes))
        files = entry_files.union(file for file, home in self.homes.items() if home in allowed)
        return Rights(entries, allowed, named, entry_files, files)

    def granted_files(self):
        """The files with a grant, ascending."""
        return sorted({number - CLEARANCES for _, number in self.grants if number >= CLEARANCES})

    def is_granted(self, file):
        return any(number == CLEARANCES + file for _, number in self.grants)

    def depth(self, folder):
        return len(list(self.ancestors(folder)))

    def height(self, folder):
        heights = [1 + self.height(child) for child, parent in self.parents.items() if parent == folder]
        return max(heights + [1 for home in self.homes.values() if home == folder], default=0)

    def fits(self, code, fields):
        """Whether the note with this code and these fields fits."""
        if code in (ROOT, STRICT_ROOT):
            return self.folders_made == 0
        if 1 not in self.parents:
            return False
        if code == UPGRADE:
            return self.version == 1
        first, second = fields[0], fields[-1]
        if code == NEW_HOLDER:
            return first == len(self.checks) + 1
        if code in (NEW_FOLDER, NEW_FILE):
            made = self.folders_made if code == NEW_FOLDER else self.files_made
            return first == made + 1 < CLEARANCES and second in self.parents and self.depth(second) < DEPTH
        if code in (REWRITE, NAME_FILE, DROP_FILE):
            return first in self.homes
        if code == NAME_FOLDER:
            return first in self.parents and first != 1
        if code == DROP_FOLDER:
            return first in self.parents and first != 1 and first not in (*self.parents.values(), *self.homes.values())
        if code == SHIFT_FILE:
            return first in self.homes and second in self.parents and self.homes[first] != second and self.depth(second) < DEPTH
        if code == SHIFT_FOLDER:
            return self.fits_under(first, second)
        if code == GIVE:
            may_be_granted = second in self.parents or self.version == 2 and second - CLEARANCES in self.homes
            return 1 <= first <= len(self.checks) and may_be_granted and (first, second) not in self.grants
        return (first, second) in self.grants

    def fits_under(self, folder, into):
        if folder not in self.parents or into not in self.parents or folder == 1:
            return False
        if into in (self.parents[folder], folder) or folder in self.ancestors(into):
            return False
        return self.depth(into) + 1 + self.height(folder) <= DEPTH

    def change(self, code, fields):
        """What the note does with edges and roles."""
        first, second = fields[0] if fields else 1, fields[-1] if fields else 0
        five = [(role, first) for role in FOLDER_ROLES]
        own = [(1, 0, first)] + [(kind, first, first) for kind in (3, 4, 5, 7)]
        around = [(6, second, first), (8, first, second)]
        if code in (ROOT, STRICT_ROOT):
            return Change(new=five, added=own, content=(NAME_OF_FOLDER, first))
        if code == UPGRADE:
            return Change()
        if code == NEW_HOLDER:
            return Change(new=[(HOLDER, first)], content=(KEY_OF_HOLDER, first))
        if code == NEW_FOLDER:
            return Change(wanted=[(SUB, second)], new=five, added=own + around, content=(NAME_OF_FOLDER, first))
        if code == NEW_FILE:
            return Change(wanted=[(FILES, second)], new=[(FILE, first)], added=[(9, second, first)], content=(BYTES_OF_FILE, first))
        if code in (REWRITE, NAME_FILE):
            return Change(wanted=[(FILE, first)], content=(BYTES_OF_FILE, first))
        if code == NAME_FOLDER:
            return Change(wanted=[(DATA, first)], content=(NAME_OF_FOLDER, first))
        if code == DROP_FILE:
            gone = [(FILE, first)] + [(CLEAR, CLEARANCES + first)] * self.is_granted(first)
            return Change(removed=self.edges_at(gone), gone=gone)
        if code == DROP_FOLDER:
            return Change(removed=self.edges_at(five), gone=five)
        if code == SHIFT_FILE:
            home, clear, granted = self.homes[first], CLEARANCES + first, self.is_granted(first)
            return Change(removed=[(9, home, first)] + [(11, clear, home)] * granted, wanted=[(FILES, second)],
                          added=[(9, second, first)] + [(11, clear, second)] * granted)
        if code == SHIFT_FOLDER:
            parent = self.parents[first]
            return Change(removed=[(6, parent, first), (8, first, parent)], wanted=[(BACK, first), (SUB, second)], added=around)
        return self.change_of_grants(code, first, second)

    def change_of_grants(self, code, holder, number):
        """What a grant or a revocation does: a file's Clear comes with its first grant, and goes with its last."""
        file, grant = number - CLEARANCES, (2, holder, number)
        others = any(one != holder and its_number == number for one, its_number in self.grants)
        if code == GIVE:
            if number < CLEARANCES or others:
                return Change(added=[grant])
            return Change(new=[(CLEAR, number)], added=[(1, 0, number), grant, (10, number, file), (11, number, self.homes[file])])
        if number < CLEARANCES or others:
            return Change(removed=[grant], wanted=[(CLEAR, number)])
        return Change(removed=self.edges_at([(CLEAR, number)]), gone=[(CLEAR, number)])

    def edges_at(self, roles):
        """The edges with one of these roles at an end."""
        return [edge for edge in self.edges if source(edge) in roles or target(edge) in roles]

    def strict(self, code, change):
        """The roles that get new keys whether or not they are dirty, by the edges from before the command."""
        if code == UPGRADE:
            return {(role, folder) for folder in self.parents for role in (CLEAR, SUB, BACK, FILES)}
        if self.version != 2:
            return set()
        leading = closure([source(edge) for edge in change.removed], self.edges, target, source)
        return {role for role in leading if role[0] not in (OWNER, HOLDER)}.difference(change.gone)

    def take(self, code, fields):
        """Follows a note that fits: the roles that get keys, in their order, and the heads of all links and contents published."""
        change = self.change(code, fields)
        strict = self.strict(code, change)
        if change.removed:
            self.dirty |= closure([target(edge) for edge in change.removed], self.edges, source, target)
        self.edges.difference_update(change.removed)
        self.forget(change.gone)
        plan = self.dirty & closure(change.wanted, self.edges, target, source) if self.dirty else set()
        given = sorted(plan | strict) + sorted(change.new)
        self.dirty.difference_update(given)
        for role in given:
            self.serials[role] = self.next_serial()
        self.edges.update(change.added)
        due = [edge for edge in self.edges if edge in change.added or source(edge) in given or target(edge) in given]
        heads = [self.head(edge[0], edge[1:], (source(edge), target(edge))) for edge in sorted(due)]
        if change.content:
            kind, number = change.content
            heads.append(self.head(kind, (number,), (sealing_role(kind, number),)))
        self.change_tree(code, fields)
        return given, heads

    def forget(self, roles):
        self.dirty.difference_update(roles)
        for role in roles:
            del self.serials[role]

    def head(self, kind, ids, roles):
        return Head(kind, ids, tuple(self.serials[role] for role in roles), self.next_serial())

    def next_serial(self):
        self.count += 1
        return (self.epoch << 32) + self.count - 1

    def change_tree(self, code, fields):
        self.version = VERSIONS.get(code, self.version)
        if code in (ROOT, STRICT_ROOT):
            self.parents[1], self.folders_made = None, 1
        elif code == NEW_HOLDER:
            self.checks.append(fields[1])
        elif code == NEW_FOLDER:
            self.parents[fields[0]], self.folders_made = fields[1], fields[0]
        elif code == NEW_FILE:
            self.homes[fields[0]], self.files_made = fields[1], fields[0]
        elif code == DROP_FILE:
            del self.homes[fields[0]]
            self.take_grants(CLEARANCES + fields[0])
        elif code == DROP_FOLDER:
            del self.parents[fields[0]]
            self.take_grants(fields[0])
        elif code == SHIFT_FILE:
            self.homes[fields[0]] = fields[1]
        elif code == SHIFT_FOLDER:
            self.parents[fields[0]] = fields[1]
        elif code == GIVE:
            self.grants.add(tuple(fields))
        elif code == TAKE:
            self.grants.remove(tuple(fields))

    def take_grants(self, number):
        """All grants on a folder, or on a file by its clearance number, go."""
        self.grants = {grant for grant in self.grants if grant[1] != number}
