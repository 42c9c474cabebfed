//! Decimal fields in fixed columns, and the lines of a text.

/// The number in columns FIRST to LAST of a line, counted from 1.
#[inline(always)]
pub fn field<const FIRST: usize, const LAST: usize>(line: &[u8]) -> Option<u32> {
    let columns = line.get(FIRST - 1..LAST)?;
    let blanks = columns.iter().take_while(|&&byte| byte == b' ').count();
    match &columns[blanks..] {
        [] => None,
        [b'0'] => Some(0),
        [b'0', ..] => None,
        digits => digits.iter().try_fold(0, |number, &byte| {
            let digit = byte.wrapping_sub(b'0');
            (digit <= 9).then(|| 10 * number + u32::from(digit))
        }),
    }
}

/// Where the first LF stands. Blocks are searched without an early exit, so that several bytes are
/// compared at once.
#[inline]
fn line_end(text: &[u8]) -> Option<usize> {
    let (blocks, rest) = text.as_chunks::<8>();
    let is_end = |byte: &u8| *byte == b'\n';
    let ends = |block: &[u8; 8]| block.iter().fold(false, |met, byte| met | is_end(byte));
    match blocks.iter().position(ends) {
        Some(index) => {
            let at = blocks[index].iter().position(is_end)?;
            Some(8 * index + at)
        }
        None => {
            let at = rest.iter().position(is_end)?;
            Some(8 * blocks.len() + at)
        }
    }
}

/// The lines of a text without their LF; none in place of bytes after the last LF.
#[inline]
pub fn lines(text: &[u8]) -> impl Iterator<Item = Option<&[u8]>> {
    let mut rest = text;
    std::iter::from_fn(move || {
        if rest.is_empty() {
            return None;
        }
        let Some(end) = line_end(rest) else {
            rest = &[];
            return Some(None);
        };
        let line = &rest[..end];
        rest = &rest[end + 1..];
        Some(Some(line))
    })
}

/// How many lines a text has, an unended one included. Blocks are short enough to be counted in
/// bytes, many at once.
pub fn count_lines(text: &[u8]) -> usize {
    let ends = |block: &[u8]| {
        block
            .iter()
            .map(|&byte| u8::from(byte == b'\n'))
            .sum::<u8>()
    };
    let ended: usize = text.chunks(255).map(|block| usize::from(ends(block))).sum();
    let unended = text.last().is_some_and(|&byte| byte != b'\n');
    ended + usize::from(unended)
}
