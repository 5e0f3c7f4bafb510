//! Running a whole script, with as much room as its answers need.

use crate::{Refusal, buffer};

/// Enough for the answers of most scripts.
const FIRST_ROOM: usize = 16 * buffer::MOST_ANSWER;

/// Runs a script on a fresh shelf, and gives the answers of all its calls, one behind the other.
///
/// Calls and answers are netstrings, as docs/SCRIPTS.md says. A call that is refused is answered too, by `-N@P`: the
/// refusal's number, and the place of the call in the script.
///
/// The shelf has 1,024 records, 16,384 bytes for added text and 64 places for documents. The run takes less than 100 KiB of
/// stack.
///
/// ```
/// let script = b"11:3:put,2:ab,,11:4:mark,1:1,,18:3:cut,1:9,1:0,1:0,,";
/// let answers = vault::run_script(script)?;
/// assert_eq!(answers, b"1:1,32:0000014500000240000000e00000018d,5:-5@30,");
/// # Ok::<(), vault::Refusal>(())
/// ```
///
/// # Errors
///
/// [`Refusal::TooLong`] where the script has more than 16,384 bytes.
pub fn run_script(script: &[u8]) -> Result<Vec<u8>, Refusal> {
    let mut room = FIRST_ROOM;
    loop {
        let mut answers = vec![0; room];
        let run = buffer::run_script(script, &mut answers)?;
        if run.next == script.len() {
            answers.truncate(run.len);
            return Ok(answers);
        }
        // Each run is on a fresh shelf, so the next one answers the same calls the same.
        room *= 2;
    }
}
