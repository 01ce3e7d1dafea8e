//! What a function leaves in a lent buffer, byte for byte. Buffers are allocated at their exact size, so that a tool which watches
//! memory sees a byte past them.

use std::sync::LazyLock;
use yunthirel::raw::{self, LISTING_ROOM};

/// Bytes past the largest answer.
const MORE: usize = 64;

/// What a buffer holds before the call.
static OLD: LazyLock<Vec<u8>> = LazyLock::new(|| (0..LISTING_ROOM + MORE).map(|at| (at % 251) as u8 ^ 0xA5).collect());

/// The code and the answer's bytes, `size_of(code)` many and never more than `room`; for a refusal, no bytes. Else what is wrong:
/// past the answer and after a refusal a buffer must hold what it held; one without a byte, one of half the answer and one that is a
/// byte too short are refused with 8 and left, and one that just fits is filled with the same bytes, whatever it held.
pub fn filled(
    ask: impl Fn(&mut [u8]) -> u64,
    room: usize,
    size_of: impl Fn(u64) -> usize,
) -> Result<(u64, Vec<u8>), String> {
    let before = &OLD[..room + MORE];
    let mut out = before.to_vec();
    let code = ask(&mut out);
    if raw::number(code) != 0 {
        if out != before {
            return Err(format!("refused with {code:#x} and wrote"));
        }
        if ask(&mut []) != code {
            return Err(format!("refused with {code:#x}, and otherwise without a buffer"));
        }
        return Ok((code, Vec::new()));
    }
    let size = size_of(code);
    if size > room || out[size..] != before[size..] {
        return Err(format!("{code:#x}, and wrote past {size} bytes"));
    }
    out.truncate(size);
    // Half of an even number of rows ends with a row, half of an odd number within one.
    for short in [0, size / 2, size.saturating_sub(1)].into_iter().filter(|&short| short < size) {
        let mut buffer = before[..short].to_vec();
        let again = ask(&mut buffer);
        if again != 8 || buffer != before[..short] {
            return Err(format!("{again:#x} in {short} bytes of {size}, not 8, or wrote"));
        }
    }
    let mut exact: Vec<u8> = before[..size].iter().map(|&byte| !byte).collect();
    let again = ask(&mut exact);
    if again != code || exact != out {
        return Err(format!("{again:#x} in the {size} bytes of {code:#x}, or other bytes"));
    }
    Ok((code, out))
}
