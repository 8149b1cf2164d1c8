//! Numbers in six columns: decimal, right-justified with blanks, without leading zeros.

use std::io::Write;

pub const COLUMNS: usize = 6;

/// A number of more digits takes as many columns as it has.
pub fn write(number: u64, text: &mut Vec<u8>) {
    write!(text, "{number:>COLUMNS$}").expect("a vector takes every byte");
}

/// The number whose six columns these bytes are, if there is one.
pub fn read(field: &[u8]) -> Option<u32> {
    let digits = field.iter().position(|&byte| byte != b' ')?;
    let number: u32 = str::from_utf8(&field[digits..]).ok()?.parse().ok()?;
    // Writing it again rules out signs, leading zeros and other widths.
    let mut again = Vec::with_capacity(COLUMNS);
    write(number.into(), &mut again);
    (again == field && field.len() == COLUMNS).then_some(number)
}

/// A line of numbers and nothing else.
pub fn read_line<const COUNT: usize>(line: &[u8]) -> Option<[u32; COUNT]> {
    if line.len() != COUNT * COLUMNS {
        return None;
    }
    let mut numbers = [0; COUNT];
    for (number, field) in numbers.iter_mut().zip(line.chunks(COLUMNS)) {
        *number = read(field)?;
    }
    Some(numbers)
}

pub fn write_line(numbers: &[u64], text: &mut Vec<u8>) {
    for &number in numbers {
        write(number, text);
    }
    text.push(b'\n');
}

#[cfg(test)]
mod tests {
    use super::*;

    #[test]
    fn a_field_has_one_form() {
        assert_eq!(read(b"     0"), Some(0));
        assert_eq!(read(b"   256"), Some(256));
        assert_eq!(read(b"999999"), Some(999_999));
        for field in [
            b"      ",
            b"    00",
            b"000001",
            b"1     ",
            b"   1  ",
            b"    +1",
            b"    -1",
            b"   1 1",
            b"\t    1",
            b"     a",
            b"    \xb2 ",
        ] {
            assert_eq!(read(field), None, "{}", field.escape_ascii());
        }
        assert_eq!(read(b"    1"), None);
        assert_eq!(read(b"      1"), None);
        assert_eq!(read(b"1000000"), None);
    }

    #[test]
    fn a_wide_number_takes_its_own_width() {
        let mut text = Vec::new();
        write_line(&[7, 1_234_567, 42], &mut text);
        assert_eq!(text, b"     71234567    42\n");
    }
}
