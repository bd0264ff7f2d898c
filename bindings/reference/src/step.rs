//! The steps, without the tests of the public calls: the table is accepted, the board sound.

use crate::answer::Answer;
use crate::board::{Board, CLAIMED, CONSUMED, MESSAGES, MOST_CENTS, PENDING, Phase, SENDERS, State, WOKEN, held, kept};
use crate::calls::Sent;
use crate::look::Wanted;
use crate::table::{Chord, Table};

impl Board {
    pub fn core_add(&mut self, table: &Table, sender: u16, sent: Sent) -> Answer {
        match self.add_refusal(table, sender, sent) {
            Some(number) => Answer::Refused(number),
            None => {
                self.put_message(sent);
                self.accept(table, sender as usize)
            }
        }
    }

    fn add_refusal(&self, table: &Table, sender: u16, sent: Sent) -> Option<u8> {
        let Some(at) = self.senders.get(sender as usize) else { return Some(8) };
        if at.state != State::Idle {
            Some(9)
        } else if sent.channel >= table.channel_count.into() {
            Some(10)
        } else if self.is_closed(sent.day) {
            Some(19)
        } else if !(-MOST_CENTS..=MOST_CENTS).contains(&sent.cents) {
            Some(11)
        } else if self.has_used_up(sender.into()) {
            Some(26)
        } else {
            None
        }
    }

    fn put_message(&mut self, sent: Sent) {
        let at = self.messages as usize;
        self.columns.channels[at] = sent.channel as u8;
        self.columns.properties[at] = sent.property;
        self.columns.cents[at] = sent.cents;
        self.columns.days[at] = sent.day;
        self.columns.units[at] = sent.unit;
        self.columns.statuses[at] = PENDING;
        self.columns.matched[at] = 0;
        self.columns.wakers[at] = 0;
    }

    /// The message that stands after the counted ones is counted, also for its sender, whose own message it is.
    fn accept(&mut self, table: &Table, i: usize) -> Answer {
        let message = self.messages;
        self.messages += 1;
        self.counts[i] += 1;
        let sender = &mut self.senders[i];
        sender.own = Some(message);
        (sender.waker, sender.reply, sender.matched) = (None, None, None);
        sender.signalled = false;
        self.begin_job(table, i, message);
        Answer::Item(message)
    }

    pub fn core_step(&mut self, table: &Table, sender: u16) -> Answer {
        let i = sender as usize;
        if i >= SENDERS {
            return Answer::Refused(8);
        }
        if self.senders[i].at_rest() {
            return Answer::Refused(13);
        }
        if self.senders[i].state == State::Blocked {
            return self.answer_signal(table, i);
        }
        match self.senders[i].phase {
            Phase::Look(at) => self.look(table, i, at.into()),
            Phase::Claim(at) => self.claim(table, i, at.into()),
            Phase::Revert { at, made } => self.revert(table, i, at, made),
            Phase::Consume { at, matched } => self.consume(table, i, at.into(), matched),
            Phase::Tell(at) => self.tell(table, i, at.into()),
            Phase::Wake => self.wake(table, i),
            Phase::Free(at) => self.free(table, i, at.into()),
            Phase::Signal => self.signal_woken(table, i),
            Phase::PassEnd => self.end_pass(table, i),
            Phase::Backoff(left) => self.rest(table, i, left),
        }
    }

    /// The chord of the sender's place.
    fn chord_of<'a>(&self, table: &'a Table, i: usize) -> &'a Chord {
        table.chord(self.senders[i].chord)
    }

    fn look(&mut self, table: &Table, i: usize, at: usize) -> Answer {
        let chord = self.chord_of(table, i);
        let hand = self.senders[i].subject;
        let (property, unit) = (self.columns.properties[hand as usize], self.columns.units[hand as usize]);
        let wanted = Wanted { channel: chord.channels[at], equality: chord.equality, property, unit };
        let found = if chord.first_of(self.channel(hand)) == Some(at) {
            Some(hand)
        } else {
            self.columns.oldest_pending(self.messages, wanted, &self.senders[i].chosen[..at])
        };
        let Some(message) = found else { return self.miss(table, i, wanted) };
        let sender = &mut self.senders[i];
        sender.chosen[at] = message;
        sender.phase = if at + 1 < chord.len.into() { Phase::Look(at as u8 + 1) } else { Phase::Claim(0) };
        Answer::Looked(message)
    }

    fn miss(&mut self, table: &Table, i: usize, wanted: Wanted) -> Answer {
        if self.columns.any_claimed(self.messages, wanted) {
            self.senders[i].retry = true;
        }
        self.next_chord(table, i);
        Answer::Missed
    }

    fn claim(&mut self, table: &Table, i: usize, at: usize) -> Answer {
        let chord = self.chord_of(table, i);
        let message = self.senders[i].chosen[at];
        let last = at + 1 == chord.len.into();
        let matches = last && self.due_to_match(table, i);
        if self.status(message) != PENDING || (matches && self.matches as usize == MESSAGES) {
            return self.lose(table, i, at, message);
        }
        self.set_status(message, CLAIMED);
        if matches {
            return self.record_match(i);
        }
        self.senders[i].phase = if last { Phase::Wake } else { Phase::Claim(at as u8 + 1) };
        Answer::Claimed(message)
    }

    /// The message in hand is of a waiting channel, or the chord names none.
    fn due_to_match(&self, table: &Table, i: usize) -> bool {
        table.is_waiting(self.channel(self.senders[i].subject)) || self.chord_of(table, i).waiting.is_none()
    }

    fn lose(&mut self, table: &Table, i: usize, at: usize, message: u16) -> Answer {
        self.senders[i].retry = true;
        if at == 0 {
            self.next_chord(table, i);
        } else {
            self.senders[i].phase = Phase::Revert { at: 0, made: at as u8 };
        }
        Answer::Lost(message)
    }

    fn record_match(&mut self, i: usize) -> Answer {
        let number = self.matches;
        let sender = &mut self.senders[i];
        self.columns.chords[number as usize] = sender.chord;
        self.columns.messages[number as usize] = sender.chosen;
        self.matches += 1;
        sender.phase = Phase::Consume { at: 0, matched: Some(number) };
        Answer::Matched(number)
    }

    fn revert(&mut self, table: &Table, i: usize, at: u8, made: u8) -> Answer {
        let message = self.senders[i].chosen[at as usize];
        self.set_status(message, PENDING);
        if at + 1 < made {
            self.senders[i].phase = Phase::Revert { at: at + 1, made };
        } else {
            self.next_chord(table, i);
        }
        Answer::Reverted(message)
    }

    fn consume(&mut self, table: &Table, i: usize, at: usize, matched: Option<u16>) -> Answer {
        let message = self.senders[i].chosen[at];
        self.set_status(message, CONSUMED);
        self.columns.matched[message as usize] = kept(matched);
        if self.senders[i].own == Some(message) {
            self.senders[i].matched = matched;
        }
        if at + 1 < self.chord_of(table, i).len.into() {
            self.senders[i].phase = Phase::Consume { at: at as u8 + 1, matched };
        } else {
            self.tell_from(table, i, 0);
        }
        Answer::Consumed(message)
    }

    /// The `nth` waiting message of the chosen ones, other than the message in hand.
    pub fn told(&self, table: &Table, i: usize, nth: usize) -> Option<u16> {
        let sender = &self.senders[i];
        let chosen = &sender.chosen[..self.chord_of(table, i).len.into()];
        let waits = |&message: &u16| message != sender.subject && table.is_waiting(self.channel(message));
        chosen.iter().copied().filter(waits).nth(nth)
    }

    fn tell_from(&mut self, table: &Table, i: usize, nth: usize) {
        match self.told(table, i, nth) {
            Some(_) => self.senders[i].phase = Phase::Tell(nth as u8),
            None => self.end_job(table, i),
        }
    }

    fn tell(&mut self, table: &Table, i: usize, nth: usize) -> Answer {
        let message = self.told(table, i, nth).unwrap_or(0);
        self.signal(message);
        self.tell_from(table, i, nth + 1);
        Answer::Told(message)
    }

    /// The place that is woken: the chord's first member of a waiting channel.
    fn woken_place(&self, table: &Table, i: usize) -> usize {
        self.chord_of(table, i).waiting.unwrap_or(0).into()
    }

    fn wake(&mut self, table: &Table, i: usize) -> Answer {
        let message = self.senders[i].chosen[self.woken_place(table, i)];
        self.set_status(message, WOKEN);
        self.columns.wakers[message as usize] = kept(Some(self.senders[i].subject));
        self.free_from(table, i, 0);
        Answer::Woke(message)
    }

    /// The place of the `nth` member other than the woken one.
    pub fn freed_place(&self, table: &Table, i: usize, nth: usize) -> Option<usize> {
        let at = nth + usize::from(nth >= self.woken_place(table, i));
        (at < self.chord_of(table, i).len.into()).then_some(at)
    }

    fn free_from(&mut self, table: &Table, i: usize, nth: usize) {
        let left = self.freed_place(table, i, nth).is_some();
        self.senders[i].phase = if left { Phase::Free(nth as u8) } else { Phase::Signal };
    }

    fn free(&mut self, table: &Table, i: usize, nth: usize) -> Answer {
        let at = self.freed_place(table, i, nth).unwrap_or(0);
        let message = self.senders[i].chosen[at];
        self.set_status(message, PENDING);
        self.free_from(table, i, nth + 1);
        Answer::Freed(message)
    }

    fn signal_woken(&mut self, table: &Table, i: usize) -> Answer {
        let message = self.senders[i].chosen[self.woken_place(table, i)];
        self.signal(message);
        self.end_job(table, i);
        Answer::Signalled(message)
    }

    fn end_pass(&mut self, table: &Table, i: usize) -> Answer {
        let status = self.status(self.senders[i].subject);
        if !self.senders[i].retry || status == CONSUMED || status == WOKEN {
            self.end_job(table, i);
            return Answer::Ended;
        }
        let sender = &mut self.senders[i];
        sender.retry = false;
        sender.retries = sender.retries.saturating_add(1);
        match self.backoff.rests(sender.retries) {
            0 => self.begin_pass(table, i),
            rests => sender.phase = Phase::Backoff(rests - 1),
        }
        Answer::Again
    }

    fn rest(&mut self, table: &Table, i: usize, left: u8) -> Answer {
        self.senders[i].retry = false;
        match left.checked_sub(1) {
            Some(left) => self.senders[i].phase = Phase::Backoff(left),
            None => self.begin_pass(table, i),
        }
        Answer::Rested
    }

    fn begin_job(&mut self, table: &Table, i: usize, message: u16) {
        let sender = &mut self.senders[i];
        sender.state = State::Working;
        sender.subject = message;
        sender.retries = 0;
        self.begin_pass(table, i);
    }

    fn begin_pass(&mut self, table: &Table, i: usize) {
        self.senders[i].retry = false;
        self.go_to_chord(table, i, 0);
    }

    fn next_chord(&mut self, table: &Table, i: usize) {
        self.go_to_chord(table, i, self.senders[i].chord + 1);
    }

    /// To the first chord from `start` on that names the channel of the message in hand, or to the end of the pass.
    fn go_to_chord(&mut self, table: &Table, i: usize, start: u8) {
        let next = table.chord_naming(self.channel(self.senders[i].subject), start);
        let sender = &mut self.senders[i];
        sender.phase = if next.is_some() { Phase::Look(0) } else { Phase::PassEnd };
        sender.chord = next.unwrap_or(0);
    }

    fn end_job(&mut self, table: &Table, i: usize) {
        let sender = self.senders[i];
        if !sender.own.is_some_and(|own| table.is_waiting(self.channel(own))) {
            return self.go_idle(i, None);
        }
        let waker = sender.waker.filter(|&waker| waker != sender.subject && self.status(waker) != CONSUMED);
        match (waker, sender.matched) {
            (Some(waker), _) => self.begin_job(table, i, waker),
            (None, Some(number)) => self.go_idle(i, Some(number)),
            (None, None) => self.senders[i].state = State::Blocked,
        }
    }

    fn go_idle(&mut self, i: usize, reply: Option<u16>) {
        let sender = &mut self.senders[i];
        sender.state = State::Idle;
        sender.signalled = false;
        sender.reply = reply;
    }

    /// The step of a blocked sender with a signal.
    fn answer_signal(&mut self, table: &Table, i: usize) -> Answer {
        let own = self.senders[i].own.unwrap_or(0);
        self.senders[i].signalled = false;
        match self.status(own) {
            CONSUMED => {
                let number = held(self.columns.matched[own as usize]);
                self.go_idle(i, number);
                Answer::Answered(number.unwrap_or(0))
            }
            WOKEN => {
                self.set_status(own, PENDING);
                self.senders[i].waker = held(self.columns.wakers[own as usize]);
                self.begin_job(table, i, own);
                Answer::Resumed
            }
            _ => Answer::Ended,
        }
    }
}
