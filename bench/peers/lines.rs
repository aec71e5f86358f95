//! Splits a text into lines and fields, for the peers that read one.

fn is_blank(byte: &u8) -> bool {
    matches!(byte, b' ' | b'\t' | b'\r')
}

/// Calls `take` with each line that is neither blank nor a comment: with its number, counted from 1 over all lines,
/// and with its first fields, at most `N`. Stops at the first error of `take`. Returns the number of lines of the text.
pub fn each_line<'t, const N: usize, E>(
    text: &'t [u8],
    mut take: impl FnMut(u128, &[&'t [u8]]) -> Result<(), E>,
) -> Result<u128, E> {
    let mut number = 0;
    let mut rest = text;
    while !rest.is_empty() {
        let end = rest.iter().position(|byte| *byte == b'\n');
        let line = &rest[..end.unwrap_or(rest.len())];
        rest = &rest[end.map_or(rest.len(), |end| end + 1)..];
        number += 1;
        let mut first: [&[u8]; N] = [&[]; N];
        let mut count = 0;
        for field in line.split(is_blank).filter(|field| !field.is_empty()) {
            if count == N || (count == 0 && field[0] == b'c') {
                break;
            }
            first[count] = field;
            count += 1;
        }
        if count > 0 {
            take(number, &first[..count])?;
        }
    }
    Ok(number)
}
