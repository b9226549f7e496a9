//! A gateway with its state: the one that is lent to the calls, the model's, and what the lent one has to be by the model.

use deebqoshaan::raw::State;
use model::Record;

use crate::account;
use crate::call::{Answer, Call, Gateway, Room};
use crate::{layout, modelled};

pub struct Site {
    pub lent: Box<State>,
    expected: Box<State>,
    model: Box<model::State>,
    /// The state before it was made unsound, and how many calls it stays so.
    spell: Option<(Box<State>, Box<model::State>, usize)>,
}

/// A call that both sides answered alike.
pub struct Done {
    pub answer: Answer,
    /// The room after the call.
    pub room: Vec<u8>,
    /// The records before the call.
    pub before: [Record; 32],
}

impl Site {
    pub fn new() -> Site {
        let lent = Box::new(layout::empty());
        Site { expected: lent.clone(), model: Box::new(layout::read(&lent)), lent, spell: None }
    }

    /// The state that calls are made for: that of before, if it is unsound now.
    pub fn view(&self) -> &model::State {
        self.spell.as_ref().map_or(&self.model, |(_, model, _)| model)
    }

    pub fn is_unsound(&self) -> bool {
        self.spell.is_some()
    }

    /// Puts another state in the place of this one, on both sides. An unsound one stays for so many calls.
    pub fn poke(&mut self, state: State, calls: usize) {
        let model = layout::read(&state);
        if !model.is_sound() {
            self.spell = Some((self.lent.clone(), self.model.clone(), calls));
        }
        *self.expected = state.clone();
        *self.lent = state;
        *self.model = model;
    }

    /// Counts a call; at the end of its spell an unsound state becomes what it was.
    pub fn pass(&mut self) {
        match self.spell.take() {
            Some((lent, model, 0)) => {
                self.expected = lent.clone();
                (self.lent, self.model) = (lent, model);
            }
            Some((lent, model, left)) => self.spell = Some((lent, model, left - 1)),
            None => {}
        }
    }

    /// Performs the call on both sides and compares all that they answer and leave. What differs is told in lines.
    pub fn perform(&mut self, gateway: &mut dyn Gateway, call: &Call, room: &Room) -> Result<Done, Vec<String>> {
        let before = self.model.records;
        let (mut lent_call, mut lent_room, mut room) = (call.clone(), room.clone(), room.clone());
        let given = gateway.perform(&mut self.lent, &mut lent_call, &mut lent_room);
        let answer = modelled::perform(&mut self.model, call, room.lent());
        if matches!(call, Call::Load { .. }) {
            *self.expected = layout::empty();
            self.spell = None;
        }
        layout::lay(&self.model, touched(call, &answer), &mut self.expected);
        if answer == given && room == lent_room && self.is_as_expected() && lent_call == *call {
            return Ok(Done { answer, room: room.lent().to_vec(), before });
        }
        let mut lines = account::before(&self.model, &before, call);
        lines.extend(account::answers(&answer, &given));
        lines.extend(account::rooms(room.whole(), lent_room.whole()));
        lines.extend(self.difference());
        lines.extend((lent_call != *call).then(|| format!("what is lent to be read was changed: {lent_call:?}")));
        Err(lines)
    }

    fn is_as_expected(&self) -> bool {
        self.lent == self.expected
    }

    /// Where the lent state isn't what it has to be, in lines.
    pub fn difference(&self) -> Vec<String> {
        if self.is_as_expected() { Vec::new() } else { account::states(&self.expected, &self.lent) }
    }
}

/// The place of the host whose record an accepted call writes.
fn touched(call: &Call, answer: &Answer) -> Option<usize> {
    let host = match call {
        _ if answer.number != 0 => return None,
        Call::Request { .. } => answer.host,
        Call::Command { .. } => answer.order.client,
        Call::Proof { host, .. } | Call::Reply { host, .. } | Call::Close { host } => *host,
        _ => return None,
    };
    usize::from(host).checked_sub(1)
}
