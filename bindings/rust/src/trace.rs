//! A whole trace judged over plain buffers.

use crate::calls;
use crate::refusal::Refusal;

/// The most events of one call.
pub const MOST_EVENTS: usize = 4_096;
/// The most pairs of a table. With so many every `u16` is the number of a pair.
pub const MOST_PAIRS: usize = 65_536;

/// Judges a whole trace over plain buffers, and gives the number of events. Nothing is allocated.
///
/// | buffer | what it holds |
/// |---|---|
/// | `events` | [`Event::BYTES`](crate::Event::BYTES) bytes for each of up to [`MOST_EVENTS`] events |
/// | `pairs` | the pair number of each event |
/// | `table` | the set of each of up to [`MOST_PAIRS`] pairs, before the call and after it |
/// | `verdicts`, `duties`, `afters` | after the call, a byte for each event |
///
/// [`Judge`](crate::Judge) does the same with types in place of bytes.
///
/// ```
/// use korehyumo::{judge_trace, Refusal};
///
/// let events = [
///     1, 0, 0, 0, 0, 1, 1, 5, 0, 0, 0, 0, 0, 7, 0, // SnpShared, SnpRespData_SC_PD
///     2, 0, 0, 0, 0, 1, 1, 3, 0, 0, 0, 0, 0, 7, 0, // SnpClean, SnpRespData_SD
/// ];
/// let (mut table, mut verdicts, mut duties, mut afters) = ([127], [0; 2], [0; 2], [0; 2]);
/// let n = judge_trace(&events, &[0, 0], &mut table, &mut verdicts, &mut duties, &mut afters)?;
/// assert_eq!(n, 2);
/// assert_eq!((verdicts, duties, afters), ([0, 1], [1, 0], [33, 0]));
/// assert_eq!(table, [0]);
/// # Ok::<(), Refusal>(())
/// ```
///
/// # Errors
///
/// Any [`Refusal`] except [`Refusal::Room`]. Every buffer is then as it was lent.
pub fn judge_trace(
    events: &[u8],
    pairs: &[u16],
    table: &mut [u8],
    verdicts: &mut [u8],
    duties: &mut [u8],
    afters: &mut [u8],
) -> Result<usize, Refusal> {
    let result = calls::trace(events, pairs, table, verdicts, duties, afters);
    let n = Refusal::unless_accepted(result)?;
    Ok(n as usize)
}
