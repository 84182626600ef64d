//! The writer: one call a field, into lent octets, over a lent book.

pub mod call;
mod plan;
pub mod state;

use crate::book::Book;
use crate::limits;
use crate::refusal::{refuse, Answer};
use call::Call;
use plan::{Asked, Plan};
use state::State;

/// One call. Answers the next state and used count; a refusal stands at the
/// state's place and changes no octet.
pub fn call(
    state: State,
    buffer: &mut [u8],
    book: &mut [u8],
    used: u64,
    call: &Call,
) -> Answer<(State, u64)> {
    let plan = match decide(state, buffer, book, used, call) {
        Ok(plan) => plan,
        Err(number) => return refuse(number, state.place),
    };
    let used = carry_out(&plan, state, buffer, book, used);
    Ok((plan.next, used))
}

/// The plan of a call or the number of its refusal: 17, 20, the call's own, 23.
fn decide(state: State, buffer: &[u8], book: &[u8], used: u64, call: &Call) -> Result<Plan, u8> {
    let book = Book::lent(book, used).ok_or(17)?;
    let room = buffer.len().min(limits::DOCUMENT) as u64;
    if !state.is_sound(room) || !call.is_in_turn(state.turn) {
        return Err(20);
    }
    let plan = Asked { state, buffer, book: &book }.plan(call)?;
    if plan.put.len() as u64 > room - state.place {
        return Err(23);
    }
    Ok(plan)
}

/// Makes the changes of a plan; answers the new used count.
fn carry_out(plan: &Plan, state: State, buffer: &mut [u8], book: &mut [u8], used: u64) -> u64 {
    let (start, place) = (state.start as usize, state.place as usize);
    buffer[place..place + plan.put.len()].copy_from_slice(&plan.put);
    if let Some(length) = plan.length {
        buffer[start + 8..start + 12].copy_from_slice(&length.to_be_bytes());
    }
    if plan.zeroed {
        buffer[start..place].fill(0);
    }
    let Some(layout) = &plan.layout else {
        return used;
    };
    let end = used as usize + layout.len();
    book[used as usize..end].copy_from_slice(layout);
    end as u64
}
