//! The hub over lent buffers.

use crate::constants::{
    ADDED, BLOCK_VALUES, BLOCK_VALUE_ANSWER, BLOCK_VALUE_CODE, BLOCK_VALUE_COUNT, BLOCK_VALUE_TAKEN, HUB_ANSWER_SIZE,
    HUB_CONTROL_SIZE, HUB_VALUE_ANSWER, HUB_VALUE_CODE, HUB_VALUE_COUNT, LINE_SIZE, MESSAGE, MESSAGE_SIZE, REPEATED,
};
use crate::hub::{BlockTold, HubBlock, HubTold};
use crate::numbers::{byte, done, front, told};
use crate::{calls, Event, Refusal};

/// A hub just switched on. Its control value has [`HUB_CONTROL_SIZE`].
pub fn on(control: &mut [u8]) -> Result<(), Refusal> {
    done(calls::hub_on(control))
}

/// One event. Pieces wait in the gather buffer; a whole message then stands at the front of the message room
/// ([`MESSAGE_SIZE`]), the answer at the front of the answer room ([`HUB_ANSWER_SIZE`]).
#[inline]
pub fn hear<'a>(
    control: &mut [u8],
    line: &mut [u8; LINE_SIZE],
    gather: &mut [u8; MESSAGE_SIZE],
    answer: &'a mut [u8],
    message: &'a mut [u8],
    event: Event,
) -> HubTold<'a> {
    // The short way knows no rooms and stands for an event with rooms of full size, so their sizes are looked at first.
    let full = control.len() >= HUB_CONTROL_SIZE && answer.len() >= HUB_ANSWER_SIZE && message.len() >= MESSAGE_SIZE;
    if full && calls::go_on(control, line, event.number()) {
        return HubTold::Nothing;
    }
    hear_whole(control, line, gather, answer, message, event)
}

/// The event by the call that takes every event, and refuses rooms.
#[inline(never)]
fn hear_whole<'a>(
    control: &mut [u8],
    line: &mut [u8; LINE_SIZE],
    gather: &mut [u8; MESSAGE_SIZE],
    answer: &'a mut [u8],
    message: &'a mut [u8],
    event: Event,
) -> HubTold<'a> {
    let (number, values) = calls::hub_hear(control, line, gather, answer, message, event.number());
    let answer = front(answer, values[HUB_VALUE_ANSWER]);
    match told(number) {
        Ok(ADDED) => HubTold::Added { answer },
        Ok(REPEATED) => HubTold::Repeated { answer },
        Ok(MESSAGE) => {
            let message = front(message, values[HUB_VALUE_COUNT]);
            HubTold::Message { code: byte(values[HUB_VALUE_CODE]), message, answer }
        }
        Ok(_) => HubTold::Nothing,
        Err(why) => HubTold::Refused { why, answer },
    }
}

/// A block of up to [`BLOCK_SIZE`](crate::constants::BLOCK_SIZE) bytes with no gap among them, which does what [`hear`]
/// does with them one by one. All answers stand one after the other at the front of the answer room. It leaves at once
/// where a message is whole, and where fewer than [`HUB_ANSWER_SIZE`] bytes of the answer room are left; bytes that
/// were not taken are for a next call. However they are cut into calls, messages, answers in a row and the state behind
/// them are the same.
///
/// Refused are rooms and control bytes of too small a size (13), then too many bytes (15): nothing is changed, and no
/// byte is taken. Else a byte at least is taken where there is one, so that giving again ends:
///
/// ```
/// use motikhund::constants::{HUB_ANSWER_SIZE, HUB_CONTROL_SIZE, LINE_SIZE, MESSAGE_SIZE};
/// use motikhund::{lent::hub, BlockTold};
///
/// let (mut control, mut line, mut gather) = ([0; HUB_CONTROL_SIZE], [0; LINE_SIZE], [0; MESSAGE_SIZE]);
/// let (mut answer, mut message) = ([0; 4 * HUB_ANSWER_SIZE], [0; MESSAGE_SIZE]); // room for four answers
/// hub::on(&mut control)?;
/// let mut received: &[u8] = &[6, 0xF3, 0, 2, 0x1B, 0x38, 0xFE, 0xB2, 5, 0xF3, 0, 0, 0x1B, 0xFE, 0xED];
/// while !received.is_empty() {
///     let block = hub::hear_block(&mut control, &mut line, &mut gather, &mut answer, &mut message, received)?;
///     assert_eq!(block.answer, [[0x04, 0xD0, 0x04, 0x00, 0xFF, 0x28]; 2].concat());
///     assert_eq!(block.told, BlockTold::Message { code: 0x1B, message: b"8" });
///     received = &received[block.taken..];
/// }
/// # Ok::<(), motikhund::Refusal>(())
/// ```
pub fn hear_block<'a>(
    control: &mut [u8],
    line: &mut [u8; LINE_SIZE],
    gather: &mut [u8; MESSAGE_SIZE],
    answer: &'a mut [u8],
    message: &'a mut [u8],
    bytes: &[u8],
) -> Result<HubBlock<'a>, Refusal> {
    let (number, values) = calls::hub_hear_block(control, line, gather, answer, message, bytes);
    block(number, values, answer, message)
}

/// What a block brought, of its number, its values and the rooms; or why the call was refused.
pub(crate) fn block<'a>(
    number: u32,
    values: [usize; BLOCK_VALUES],
    answer: &'a [u8],
    message: &'a [u8],
) -> Result<HubBlock<'a>, Refusal> {
    let told = match told(number) {
        Ok(MESSAGE) => {
            let message = front(message, values[BLOCK_VALUE_COUNT]);
            BlockTold::Message { code: byte(values[BLOCK_VALUE_CODE]), message }
        }
        Ok(_) => BlockTold::Nothing,
        Err(why @ (Refusal::Room | Refusal::Long)) => return Err(why),
        Err(why) => BlockTold::Refused(why),
    };
    Ok(HubBlock { taken: values[BLOCK_VALUE_TAKEN], answer: front(answer, values[BLOCK_VALUE_ANSWER]), told })
}
