//! The batches of the log ("The file"), and the form of their payloads ("Notes and payloads").
use crate::follow::be32;
use crate::hashing::{Mac, xor};
use crate::{Fault, damaged, tampered};

pub const HEADER: usize = 42;
const FRAME: usize = 110;
const LIMIT: usize = 1_073_741_824;
pub const FILE_LIMIT: usize = 1_048_576;

/// A batch, with the places of its payload and of its check.
pub struct Batch {
    pub number: u32,
    pub epoch: u32,
    pub begins_epoch: bool,
    pub payload: usize,
    pub check: usize,
}

/// The batch at this place, behind one of this number and epoch.
fn batch_at(image: &[u8], at: usize, number: u32, epoch: u32) -> Option<Batch> {
    let head = image.get(at..at + FRAME)?;
    let (begins_epoch, length) = (head[0] == 2, be32(&head[9..]) as usize);
    let batch = Batch { number: number + 1, epoch: epoch + begins_epoch as u32, begins_epoch, payload: at + 45, check: at + 45 + length };
    let is_next = be32(&head[1..]) == batch.number && be32(&head[5..]) == batch.epoch && batch.epoch > 0;
    let has_type = head[0] == 1 || begins_epoch && length == 0;
    (is_next && has_type && at + FRAME + length <= image.len().min(LIMIT)).then_some(batch)
}

/// The batches of the log, their payloads unmasked in place; and where slots are to be written, what.
pub fn read_log(image: &mut [u8], owner: &Mac, is_writing: bool) -> Result<(Vec<Batch>, Vec<(usize, [u8; 32])>), Fault> {
    let tags = Mac::new(&owner.of(&[&[5]]));
    let (mut at, mut number, mut epoch, mut before) = (HEADER, 0, 0, image[9..41].to_vec());
    let (mut batches, mut slots) = (vec![], vec![]);
    while image[at - 1] == 1 {
        let batch = batch_at(image, at, number, epoch).ok_or_else(|| damaged(at))?;
        let (slot, payload, tag) = (at + 13, batch.payload..batch.check, batch.check + 32);
        if tags.of(&[&before, &image[at..slot], &image[batch.payload..tag]]) != image[tag..tag + 32] {
            return Err(tampered(batch.number, tag));
        }
        let mut veil: [u8; 32] = image[slot..slot + 32].try_into().unwrap();
        if is_writing {
            veil = owner.of(&[&[3], &batch.epoch.to_be_bytes(), &batch.number.to_be_bytes()]);
            if veil != image[slot..slot + 32] {
                slots.push((slot, veil));
            }
        } else if Mac::new(&veil).of(&[&image[payload.clone()]]) != image[batch.check..tag] {
            if image[tag + 32] == 1 {
                return Err(tampered(batch.number, slot));
            }
            break;
        }
        xor(&veil, 0, &mut image[payload.clone()]);
        if !batch.begins_epoch {
            Form(&image[payload], 0).test().map_err(|place| damaged(batch.payload + place))?;
        }
        before.copy_from_slice(&image[tag..tag + 32]);
        (at, number, epoch) = (tag + 33, batch.number, batch.epoch);
        batches.push(batch);
    }
    Ok((batches, slots))
}

/// A payload, and the place in it that was come to. A fault is the place of a bad field.
struct Form<'a>(&'a [u8], usize);

impl Form<'_> {
    fn skip(&mut self, size: usize) -> Result<&[u8], usize> {
        let field = self.0[self.1..].get(..size).ok_or(self.1)?;
        self.1 += size;
        Ok(field)
    }

    fn number(&mut self, size: usize, least: usize, most: usize) -> Result<usize, usize> {
        let number = self.skip(size)?.iter().fold(0, |number, byte| number << 8 | *byte as usize);
        if (least..=most).contains(&number) { Ok(number) } else { Err(self.1 - size) }
    }

    fn all(&mut self, sizes: &[usize]) -> Result<(), usize> {
        sizes.iter().try_for_each(|size| self.skip(*size).map(|_| ()))
    }

    fn test(mut self) -> Result<(), usize> {
        match self.number(1, 1, 15)? {
            1 | 14 | 15 => {}
            2 => self.all(&[4, 32])?,
            3 | 4 | 10.. => self.all(&[4, 4])?,
            _ => self.all(&[4])?,
        }
        let (links, contents) = (self.number(4, 0, usize::MAX)?, self.number(4, 0, usize::MAX)?);
        for _ in 0..links {
            self.number(1, 1, 1)?;
            self.number(1, 1, 9)?;
            self.all(&[4, 4, 8, 8, 8, 32, 32])?;
        }
        for _ in 0..contents {
            self.number(1, 2, 2)?;
            let kind = self.number(1, 1, 3)?;
            self.all(&[4, 8, 8])?;
            let (least, most) = [(0, 64), (2, FILE_LIMIT + 65), (32, 32)][kind - 1];
            let length = self.number(4, least, most)?;
            self.all(&[length, 32])?;
        }
        if self.1 < self.0.len() { Err(self.1) } else { Ok(()) }
    }
}
