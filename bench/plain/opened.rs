//! What the owner's key opens of the records ("What a reader opens").
use crate::follow::{State, be32};
use crate::hashing::{Mac, xor};
use crate::log::{Batch, FILE_LIMIT};
use crate::{Fault, damaged, tampered};
use std::cell::OnceCell;
use std::collections::HashMap;
use std::ops::Range;

/// A key, and once something is opened with it, what tags and what enciphers under it.
#[derive(Default)]
pub struct Key {
    bytes: [u8; 32],
    derived: OnceCell<(Mac, [u8; 32])>,
}

impl Key {
    pub fn of(bytes: &[u8]) -> Key {
        Key { bytes: bytes.try_into().unwrap(), derived: OnceCell::new() }
    }

    fn derived(&self) -> &(Mac, [u8; 32]) {
        self.derived.get_or_init(|| {
            let own = Mac::new(&self.bytes);
            (Mac::new(&own.of(&[&[2]])), own.of(&[&[1]]))
        })
    }
}

/// A folder's keys, and its files' names and bytes: the places of the texts in the image.
#[derive(Default)]
struct FolderKeys {
    clear: Key,
    sub: Key,
    back: Key,
    files: Key,
    data: Key,
    name: Range<usize>,
}

#[derive(Default)]
struct FileKey {
    file: Key,
    text: Range<usize>,
}

/// The image with its payloads unmasked, in which records are opened in place, and what the payloads make.
pub struct Opened {
    image: Vec<u8>,
    batches: Vec<Batch>,
    state: State,
    folders: Vec<FolderKeys>,
    files: Vec<FileKey>,
}

impl Opened {
    pub fn follow(image: Vec<u8>, batches: Vec<Batch>) -> Result<Opened, Fault> {
        let mut state = State::new();
        for batch in &batches {
            if batch.begins_epoch {
                state.next = u64::from(batch.epoch) << 32;
            } else {
                state.take(&image[batch.payload..batch.check], batch.payload).ok_or_else(|| damaged(batch.payload))?;
            }
        }
        Ok(Opened { image, batches, state, folders: vec![], files: vec![] })
    }

    /// Opens the record at this place, whose text stands behind a head of this size.
    fn open(&mut self, key: &Key, at: usize, nonce: usize, text: Range<usize>) -> Result<Range<usize>, Fault> {
        let (tags, cipher) = key.derived();
        if tags.of(&[&self.image[at..text.end]]) != self.image[text.end..text.end + 32] {
            let batch = self.batches.partition_point(|batch| batch.payload <= at) - 1;
            return Err(tampered(self.batches[batch].number, at));
        }
        let nonce = u64::from_be_bytes(self.image[nonce..nonce + 8].try_into().unwrap());
        xor(cipher, nonce, &mut self.image[text.clone()]);
        Ok(text)
    }

    fn link(&mut self, key: &Key, kind: usize, target: usize) -> Result<Key, Fault> {
        let at = self.state.links[kind][target];
        let bytes = self.open(key, at, at + 26, at + 34..at + 66)?;
        Ok(Key::of(&self.image[bytes]))
    }

    fn content(&mut self, key: &Key, kind: usize, id: usize) -> Result<Range<usize>, Fault> {
        let at = self.state.contents[kind][id];
        let text = self.open(key, at, at + 14, at + 26..at + 26 + be32(&self.image[at + 22..]) as usize)?;
        let is_formed = match (kind, &self.image[text.clone()]) {
            (1, name) => is_name(name) || id == 1,
            (2, [length, rest @ ..]) => {
                let parts = rest.split_at_checked(*length as usize);
                parts.is_some_and(|(name, bytes)| is_name(name) && bytes.len() <= FILE_LIMIT)
            }
            _ => true,
        };
        if is_formed { Ok(text) } else { Err(damaged(at)) }
    }

    /// Opens every key, name and file, and for writing the holders' keys.
    pub fn open_all(&mut self, owner: &Key, is_writing: bool) -> Result<(), Fault> {
        if is_writing && self.state.folders.len() == 1 {
            return Err(damaged(42));
        }
        let standing: Vec<usize> = (1..self.state.folders.len()).filter(|id| self.state.folders[*id].stands).collect();
        let mut folders: Vec<FolderKeys> = self.state.folders.iter().map(|_| FolderKeys::default()).collect();
        for &id in &standing {
            folders[id].clear = self.link(owner, 1, id)?;
            folders[id].sub = self.link(&folders[id].clear, 3, id)?;
        }
        for &id in &standing {
            folders[id].back = self.link(&folders[id].sub, 4, id)?;
            folders[id].files = self.link(&folders[id].sub, 5, id)?;
        }
        for &id in &standing {
            folders[id].data = self.link(&folders[id].back, 7, id)?;
            folders[id].name = self.content(&folders[id].data, 1, id)?;
        }
        let mut files: Vec<FileKey> = self.state.homes.iter().map(|_| FileKey::default()).collect();
        for id in (1..files.len()).filter(|id| self.state.homes[*id] > 0).collect::<Vec<_>>() {
            files[id].file = self.link(&folders[self.state.homes[id] as usize].files, 9, id)?;
            files[id].text = self.content(&files[id].file, 2, id)?;
        }
        for holder in 1..=if is_writing { self.state.holders } else { 0 } {
            self.content(owner, 3, holder as usize)?;
        }
        (self.folders, self.files) = (folders, files);
        Ok(())
    }

    /// What each folder has by its name: a folder or a file, and its id.
    pub fn index(&self) -> HashMap<(u32, &[u8]), (bool, usize)> {
        let mut found = HashMap::new();
        for (id, folder) in self.state.folders.iter().enumerate().filter(|(_, folder)| folder.stands) {
            found.entry((folder.parent, &self.image[self.folders[id].name.clone()])).or_insert((true, id));
        }
        for (id, home) in self.state.homes.iter().enumerate().filter(|(_, home)| **home > 0) {
            found.entry((*home, self.file(id).0)).or_insert((false, id));
        }
        found
    }

    /// A file's name and bytes.
    fn file(&self, id: usize) -> (&[u8], &[u8]) {
        let text = &self.image[self.files[id].text.clone()];
        text[1..].split_at(text[0] as usize)
    }

    /// A folder's path, that of the root without its `/`.
    fn path(&self, id: u32) -> Vec<u8> {
        let mut path = vec![];
        let up: Vec<u32> = self.state.up(id).collect();
        for id in up.iter().rev().skip(1) {
            path.push(b'/');
            path.extend_from_slice(&self.image[self.folders[*id as usize].name.clone()]);
        }
        path
    }

    /// The lines of all folders and files, by the bytes of their paths.
    pub fn lines(&self) -> Vec<u8> {
        let paths: Vec<Vec<u8>> = (0..self.folders.len()).map(|id| self.path(id as u32)).collect();
        let mut rows: Vec<(Vec<u8>, Option<&[u8]>)> = vec![];
        for (id, folder) in self.state.folders.iter().enumerate().filter(|(_, folder)| folder.stands) {
            rows.push((if folder.parent == 0 { b"/".to_vec() } else { paths[id].clone() }, None));
        }
        for (id, home) in self.state.homes.iter().enumerate().filter(|(_, home)| **home > 0) {
            let (name, bytes) = self.file(id);
            rows.push(([&paths[*home as usize], &b"/"[..], name].concat(), Some(bytes)));
        }
        rows.sort_by(|one, other| one.0.cmp(&other.0));
        let mut lines = vec![];
        for (path, bytes) in rows {
            lines.extend_from_slice(if bytes.is_some() { b"file " } else { b"folder " });
            lines.extend_from_slice(&path);
            if let Some(bytes) = bytes {
                lines.push(b' ');
                lines.extend(bytes.iter().flat_map(|byte| [byte >> 4, byte & 15]).map(|digit| b"0123456789abcdef"[digit as usize]));
            }
            lines.push(b'\n');
        }
        lines
    }
}

fn is_name(name: &[u8]) -> bool {
    let is_of_form = |byte: &u8| byte.is_ascii_alphanumeric() || b"._-".contains(byte);
    (1..=64).contains(&name.len()) && name.iter().all(is_of_form) && name != b"." && name != b".."
}
