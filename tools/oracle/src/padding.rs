//! Padding put in and taken out. Before pairs are doubled and sent that may be done anywhere. Of what
//! was received it may be done where it is harmless: no repeat is awaited, or no pair follows that is
//! not refused, or the next such pair is not the awaited repeat, or the awaited command has no event.

use crate::line::{Arrived, Pair};
use crate::queue::is_command;
use crate::random::Random;
use crate::receiver::{heard, Heard, PADDING};
use crate::sender::is_odd;
use cea608_types::Cea608State;

/// At one in so many places where it may be put in stands padding, 0 is none; and how many pairs of
/// it at most. Whether half of the padding that may be taken out is.
#[derive(Clone, Copy)]
pub struct Padding {
    pub one_in: u32,
    pub most: u32,
    pub takes_out: bool,
}

#[derive(Default)]
pub struct Changed {
    pub put_in: usize,
    pub taken_out: usize,
    /// Where a repeat is awaited: another pair is next, none is, the command has no event.
    pub where_awaited: [usize; 3],
}

impl Changed {
    pub fn reached_everything(&self) {
        assert!(self.put_in > 1000, "too little padding put in");
        assert!(self.taken_out > 1000, "too little padding taken out");
        for count in self.where_awaited {
            assert!(
                count > 50,
                "a harmless place is missing: {:?}",
                self.where_awaited
            );
        }
    }
}

impl Padding {
    /// How many pairs of padding are put in at a place where that may be done.
    fn put_in(&self, random: &mut Random, changed: &mut Changed) -> usize {
        if self.one_in == 0 || random.below(self.one_in) != 0 {
            return 0;
        }
        let many = 1 + random.below(self.most) as usize;
        changed.put_in += many;
        many
    }

    fn take_out(&self, random: &mut Random, changed: &mut Changed) -> bool {
        let out = self.takes_out && random.below(2) == 0;
        changed.taken_out += usize::from(out);
        out
    }

    /// Pairs that are to be sent, padded anew.
    pub fn before_sending(
        &self,
        pairs: &[Pair],
        random: &mut Random,
        changed: &mut Changed,
    ) -> Vec<Pair> {
        let mut all = vec![];
        for &pair in pairs {
            all.extend(vec![PADDING; self.put_in(random, changed)]);
            if pair != PADDING || !self.take_out(random, changed) {
                all.push(pair);
            }
        }
        all.extend(vec![PADDING; self.put_in(random, changed)]);
        all
    }

    /// What was received, padded anew where that is harmless.
    pub fn as_received(
        &self,
        arrived: &[Arrived],
        random: &mut Random,
        changed: &mut Changed,
    ) -> Vec<Arrived> {
        let padding = Arrived {
            pair: PADDING,
            corrupted: false,
        };
        let mut all = vec![];
        let mut last = None;
        for place in 0..=arrived.len() {
            let rest = &arrived[place..];
            if let Some(why) = harmless(last, rest) {
                let many = self.put_in(random, changed);
                if many > 0 {
                    note(why, changed);
                    all.extend(vec![padding; many]);
                    last = Some(PADDING);
                }
            }
            let Some(&next) = rest.first() else { break };
            let may_go = next.pair == PADDING && harmless(last, &rest[1..]).is_some();
            if !may_go || !self.take_out(random, changed) {
                last = after(last, next.pair);
                all.push(next);
            }
        }
        all
    }
}

fn note(why: Why, changed: &mut Changed) {
    match why {
        Why::NoneAwaited => {}
        Why::AnotherNext => changed.where_awaited[0] += 1,
        Why::NoneFollows => changed.where_awaited[1] += 1,
        Why::NoEvent => changed.where_awaited[2] += 1,
    }
}

/// Why padding is harmless at a place.
enum Why {
    NoneAwaited,
    NoneFollows,
    AnotherNext,
    NoEvent,
}

/// The pair that a receiver remembers after another one.
fn after(last: Option<Pair>, pair: Pair) -> Option<Pair> {
    if !is_odd(pair) {
        return last;
    }
    let is_repeat = is_command(pair) && last == Some(pair);
    (!is_repeat).then_some(pair)
}

fn harmless(last: Option<Pair>, rest: &[Arrived]) -> Option<Why> {
    let Some(awaited) = last.filter(|&pair| is_command(pair)) else {
        return Some(Why::NoneAwaited);
    };
    let Some(next) = rest.iter().find(|next| is_odd(next.pair)) else {
        return Some(Why::NoneFollows);
    };
    if next.pair != awaited {
        return Some(Why::AnotherNext);
    }
    let event = heard(&mut Cea608State::default(), awaited);
    (event == Heard::Nothing).then_some(Why::NoEvent)
}

/// The places of a stream at which padding would be noticed.
pub fn noticed_places(arrived: &[Arrived]) -> Vec<usize> {
    let mut last = None;
    let mut places = vec![];
    for place in 0..=arrived.len() {
        if harmless(last, &arrived[place..]).is_none() {
            places.push(place);
        }
        if let Some(next) = arrived.get(place) {
            last = after(last, next.pair);
        }
    }
    places
}
