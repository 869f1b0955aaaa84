use crate::calls::wontabeli_tray;
use crate::numbers::{BOARD_ADC, BOARD_HCLK, BOARD_NUMBER, BOARD_PCLK1, BOARD_PCLK1_TIM, BOARD_PCLK2, BOARD_PCLK2_TIM};
use crate::numbers::{BOARD_SIZE, BOARD_SYSCLK, PROFILE_SIZE};
use crate::{result, Checked, Clocks, Refusal};

/// Checks the profiles of a tray, which lie back to back, ten bytes each, and writes the record of each board, `BOARD_SIZE` bytes, to the start of `out`.
/// Gives back the records, which are the part of `out` that was written; the bytes beyond stay. `boards` reads them. A refused board has its refusal in its
/// record, and the tray is not refused for it.
///
/// Refused by `OutputTooShort` where `out` has less than `BOARD_SIZE` bytes for each whole ten of `profiles`, then by `ProfileLength` where their length is
/// not a multiple of ten. Nothing is written then.
///
/// ```
/// use wontabeli::{boards, numbers::BOARD_SIZE, tray, Refusal};
///
/// // the default, HSI's 20 MHz; an HSE of 4,999,999 Hz
/// let profiles = [0, 0, 0, 0, 0, 0x18, 0, 0, 0, 0x34, 0x80, 0x13, 0x12, 0xcf, 0xc0, 0x18, 0, 0, 0, 0x34];
/// // room for more boards than there are
/// let mut out = [0; 3 * BOARD_SIZE];
/// let mut found = boards(tray(&profiles, &mut out)?);
/// assert_eq!(found.next().unwrap()?.clocks.sysclk, 20_000_000);
/// assert_eq!(found.next(), Some(Err(Refusal::HseOutOfRange)));
/// assert_eq!(found.next(), None);
/// # Ok::<(), wontabeli::Refusal>(())
/// ```
pub fn tray<'a>(profiles: &[u8], out: &'a mut [u8]) -> Result<&'a [u8], Refusal> {
    result(unsafe { wontabeli_tray(profiles.as_ptr(), profiles.len(), out.as_mut_ptr(), out.len()) })?;
    Ok(&out[..profiles.len() / PROFILE_SIZE * BOARD_SIZE])
}

/// What the records of a tray say, board by board: what `check` gives for each board's profile. Fewer than `BOARD_SIZE` bytes at the end are no record,
/// and are left out. A record whose number is no refusal's, which no tray writes, is given as `CodeNotAllowed`.
pub fn boards(records: &[u8]) -> impl Iterator<Item = Result<Checked, Refusal>> + '_ {
    records.chunks_exact(BOARD_SIZE).map(board)
}

fn board(record: &[u8]) -> Result<Checked, Refusal> {
    let number = |at: usize| u32::from_be_bytes([record[at], record[at + 1], record[at + 2], record[at + 3]]);
    // A number that has no room in a byte is no refusal's, and neither is 255.
    result(u8::try_from(number(BOARD_NUMBER)).unwrap_or(u8::MAX))?;
    let clocks = Clocks {
        sysclk: number(BOARD_SYSCLK),
        hclk: number(BOARD_HCLK),
        pclk1: number(BOARD_PCLK1),
        pclk2: number(BOARD_PCLK2),
        pclk1_tim: number(BOARD_PCLK1_TIM),
        pclk2_tim: number(BOARD_PCLK2_TIM),
    };
    Ok(Checked { clocks, adc: number(BOARD_ADC) })
}
