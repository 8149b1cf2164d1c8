//! A table in one pass over its text.

use crate::prepared::{NAME_SLOT, NAMES, TABLE_LENGTH, TRANSITION_SLOT, TRANSITIONS};
use crate::reply::{Refusal, Reply};
use crate::table::{MAX_LABELS, MAX_STATES, MAX_STEM, MAX_TRANSITIONS, is_name_byte};

pub fn read_table(text: &[u8], table: &mut [u8]) -> Reply {
    let Some(lent) = table.first_chunk_mut::<TABLE_LENGTH>() else {
        return Refusal::ShortBuffer(TABLE_LENGTH).into();
    };
    // A refusal may come on the last line and must leave every lent byte.
    let mut form = [0; TABLE_LENGTH];
    let mut reader = Reader { unread: text, line: 0 };
    match reader.read(&mut form) {
        Ok(()) => {
            *lent = form;
            Reply::accepted(0)
        }
        Err(refusal) => refusal.into(),
    }
}

struct Reader<'a> {
    unread: &'a [u8],
    line: usize,
}

impl Reader<'_> {
    fn read(&mut self, form: &mut [u8; TABLE_LENGTH]) -> Result<(), Refusal> {
        let [states, labels, transitions, start] = self.numbers()?;
        let in_range = states.wrapping_sub(1) < MAX_STATES as u32
            && labels <= MAX_LABELS as u32
            && transitions <= MAX_TRANSITIONS as u32
            && start < states;
        if !in_range {
            return Err(Refusal::Range(self.line));
        }
        form[0..2].copy_from_slice(&(states as u16).to_le_bytes());
        form[2] = labels as u8;
        form[3..5].copy_from_slice(&(transitions as u16).to_le_bytes());
        form[5] = start as u8;
        self.names(labels, &mut form[NAMES..TRANSITIONS])?;
        let slots = &mut form[TRANSITIONS..][..transitions as usize * TRANSITION_SLOT];
        self.transitions(states, labels, slots)?;
        match self.unread {
            [] => Ok(()),
            _ => Err(Refusal::Layout(self.line + 1)),
        }
    }

    fn names(&mut self, labels: u32, slots: &mut [u8]) -> Result<(), Refusal> {
        let mut known = [0u128; MAX_LABELS];
        for label in 0..labels as usize {
            let (number, slot) = self.name().ok_or(Refusal::Layout(self.line))?;
            if number as usize != label + 1 {
                return Err(Refusal::Range(self.line));
            }
            let name = u128::from_le_bytes(slot);
            if known[..label].contains(&name) {
                return Err(Refusal::NameUsed(self.line));
            }
            known[label] = name;
            slots[label * NAME_SLOT..][..NAME_SLOT].copy_from_slice(&slot);
        }
        Ok(())
    }

    fn name(&mut self) -> Option<(u32, [u8; NAME_SLOT])> {
        self.line += 1;
        let (head, rest) = self.unread.split_first_chunk::<7>()?;
        let number = field(head.first_chunk()?)?;
        let stem = rest.iter().take(MAX_STEM).take_while(|&&byte| is_name_byte(byte)).count();
        let length = stem + usize::from(matches!(rest.get(stem), Some(b'?' | b'!')));
        let starts = rest.first().is_some_and(u8::is_ascii_lowercase);
        if head[6] != b' ' || !starts || rest.get(length) != Some(&b'\n') {
            return None;
        }
        let mut slot = [0; NAME_SLOT];
        slot[0] = length as u8;
        slot[1..=length].copy_from_slice(&rest[..length]);
        self.unread = &rest[length + 1..];
        Some((number, slot))
    }

    fn transitions(&mut self, states: u32, labels: u32, slots: &mut [u8]) -> Result<(), Refusal> {
        let mut least = 0;
        for slot in slots.chunks_exact_mut(TRANSITION_SLOT) {
            let [from, label, to] = self.numbers()?;
            if from >= states || label > labels || to >= states {
                return Err(Refusal::Range(self.line));
            }
            let key = from << 16 | label << 8 | to;
            if key < least {
                return Err(Refusal::NotAbove(self.line));
            }
            least = key + 1;
            slot.copy_from_slice(&[from as u8, label as u8, to as u8]);
        }
        Ok(())
    }

    fn numbers<const COUNT: usize>(&mut self) -> Result<[u32; COUNT], Refusal> {
        self.line += 1;
        let refused = Refusal::Layout(self.line);
        let (line, rest) = self.unread.split_at_checked(COUNT * 6 + 1).ok_or(refused)?;
        let mut numbers = [0; COUNT];
        for (number, columns) in numbers.iter_mut().zip(line.as_chunks::<6>().0) {
            *number = field(columns).ok_or(refused)?;
        }
        if line[COUNT * 6] != b'\n' {
            return Err(refused);
        }
        self.unread = rest;
        Ok(numbers)
    }
}

/// All six columns at once, as the last bytes of eight: blanks in front taken for zeros, then
/// digits only, none of them a zero in front of others.
fn field(columns: &[u8; 6]) -> Option<u32> {
    const BLANKS: u64 = u64::from_le_bytes([b' '; 8]);
    const ZEROS: u64 = u64::from_le_bytes([b'0'; 8]);
    let [first, second, third, fourth, fifth, sixth] = *columns;
    let bytes = u64::from_le_bytes([b' ', b' ', first, second, third, fourth, fifth, sixth]);
    let blanks = (bytes ^ BLANKS).trailing_zeros() & !7;
    let behind = u64::MAX.checked_shl(blanks)?;
    let digits = (bytes ^ ZEROS) & behind;
    let others = (digits.wrapping_add(0x7676_7676_7676_7676) | digits) & 0x8080_8080_8080_8080;
    let leading_zero = digits >> blanks & 0xff == 0 && blanks < 56;
    if others != 0 || leading_zero {
        return None;
    }
    // Two, then four, then eight digits become one number.
    let pairs = digits.wrapping_mul(10 << 8 | 1) >> 8 & 0x00ff_00ff_00ff_00ff;
    let fours = pairs.wrapping_mul(100 << 16 | 1) >> 16 & 0x0000_ffff_0000_ffff;
    Some((fours.wrapping_mul(10_000 << 32 | 1) >> 32) as u32)
}

#[cfg(test)]
mod tests {
    use super::field;
    use crate::columns;

    #[test]
    fn a_field_is_read_as_columns_are() {
        let bytes = b" 0159a\n/:\xb0";
        for index in 0..bytes.len().pow(6) {
            let place = |place: u32| bytes[index / bytes.len().pow(place) % bytes.len()];
            let field_bytes = [5, 4, 3, 2, 1, 0].map(place);
            assert_eq!(field(&field_bytes), columns::read(&field_bytes), "{field_bytes:?}");
        }
    }
}
