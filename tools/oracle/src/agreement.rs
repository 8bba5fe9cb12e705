//! Demand 3 of the letter, as a run. Codes are pushed into a fresh sender, pairs are sent and drained,
//! and it is asked how it stands, in random order until it is idle. A line corrupts pairs as the demand
//! allows, and padding is put in and taken out: before the pairs are doubled and sent, anywhere; or in
//! what was received, where that is harmless. A fresh receiver decodes what arrives. `replay` is asked
//! every call and every decode. That what is decoded agrees with what was queued is checked here, on the
//! very answers that `replay` is held to: pairs and events are the crate's, and the repeats are the
//! model's in `sender`.

use crate::any_code::any_code;
use crate::line::{carry, Arrived, Hits, Pair};
use crate::names::{COMMANDS, LETTERS};
use crate::padding::{noticed_places, Changed, Padding};
use crate::queue::{self, is_command, is_half_command, plain};
use crate::random::{Random, SEED};
use crate::receiver::{heard, Heard, Receiver, HI, PADDING};
use crate::rounds::Beside;
use crate::sender::{is_odd, Asked, Sent};
use crate::sender_sets::any_drain;
use crate::shown::{each_alone, shown};
use crate::transcript::Transcript;
use cea608_types::tables::{Channel, Code, Field};
use cea608_types::{Cea608, Cea608State, Mode, Text};

/// At least so many pairs arrive, all sessions together.
const PAIRS: usize = 300_000;

/// One stretch in so many is hit; 0 is none.
const HITS: [u32; 4] = [0, 6, 2, 1];

/// How often padding is put in, and how much of it at most.
const PADDINGS: [(u32, u32); 5] = [(0, 1), (9, 1), (3, 1), (1, 1), (1, 9)];

/// When padding is put in and taken out.
#[derive(Clone, Copy)]
enum When {
    BeforeSending,
    AsReceived,
}

/// What happens to what was queued on its way to the receiver.
#[derive(Clone, Copy)]
struct Way {
    hits: u32,
    padding: Padding,
    when: When,
}

fn ways() -> Vec<Way> {
    let mut all = vec![];
    for when in [When::AsReceived, When::BeforeSending] {
        for takes_out in [false, true] {
            for (one_in, most) in PADDINGS {
                all.extend(HITS.map(|hits| Way {
                    hits,
                    padding: Padding {
                        one_in,
                        most,
                        takes_out,
                    },
                    when,
                }));
            }
        }
    }
    all
}

/// What all sessions came to.
#[derive(Default)]
struct Met {
    queue: queue::Met,
    sessions: usize,
    arrived: usize,
    drained: usize,
    noticed: usize,
    shown: usize,
    packed_otherwise: usize,
    hits: Hits,
    before_sending: Changed,
    as_received: Changed,
}

impl Met {
    /// A comparison that never came to a case would say nothing of it.
    fn reached_everything(&self) {
        self.queue.reached_everything();
        self.hits.reached_everything();
        self.as_received.reached_everything();
        let anywhere = &self.before_sending;
        assert!(anywhere.put_in > 1000 && anywhere.taken_out > 1000);
        assert!(self.drained > 1000, "too few pairs drained");
        assert!(self.noticed > 100, "padding was hardly ever noticed");
        assert!(self.shown > 500 && self.packed_otherwise > 500);
    }
}

/// Sessions, each from a fresh sender and a fresh receiver, each way in turn.
pub fn sessions(to: &mut Transcript, random: &mut Random) {
    limits(to);
    let mut met = Met::default();
    for way in ways().into_iter().cycle() {
        let bursts = 1 + random.below(5);
        session(to, random, bursts, way, &mut met);
        if met.arrived >= PAIRS {
            break;
        }
    }
    met.reached_everything();
    print!(
        "{} pairs received in {} sessions, {} drained, {} corrupted, padding put in {} and {} times, noticed {} times, shown as by codes sent alone {} times, {} of them in other pairs: ",
        met.arrived,
        met.sessions,
        met.drained,
        met.hits.corrupted,
        met.before_sending.put_in,
        met.as_received.put_in,
        met.noticed,
        met.shown,
        met.packed_otherwise
    );
}

fn session(to: &mut Transcript, random: &mut Random, bursts: u32, way: Way, met: &mut Met) {
    let spoken = speak(to, random, bursts, met);
    let arrived = match way.when {
        When::BeforeSending => {
            let padded =
                way.padding
                    .before_sending(&spoken.popped, random, &mut met.before_sending);
            carry(&doubled(&padded), random, way.hits, &mut met.hits)
        }
        When::AsReceived => {
            let came = carry(&spoken.sent, random, way.hits, &mut met.hits);
            notice(to, random, &came, met);
            let padded = way.padding.as_received(&came, random, &mut met.as_received);
            let same = answers_to_others(&came) == answers_to_others(&padded);
            assert!(same, "padding where it is harmless changes an answer");
            padded
        }
    };
    let story = hear(to, &arrived);
    check(&spoken, &arrived, &story);
    check_shown(&spoken, &story.told, met);
    met.sessions += 1;
    met.arrived += arrived.len();
}

/// Each command twice in a row, text once.
fn doubled(pairs: &[Pair]) -> Vec<Pair> {
    let copies = |&pair: &Pair| vec![pair; 1 + usize::from(is_command(pair))];
    pairs.iter().flat_map(copies).collect()
}

/// Padding at a place that is not harmless changes the answer to another pair.
fn notice(to: &mut Transcript, random: &mut Random, came: &[Arrived], met: &mut Met) {
    let places = noticed_places(came);
    if places.is_empty() || random.below(4) != 0 {
        return;
    }
    let place = random.pick(&places);
    let mut padded = came.to_vec();
    let padding = Arrived {
        pair: PADDING,
        corrupted: false,
    };
    padded.insert(place, padding);
    hear(to, &padded);
    let same = answers_to_others(came) == answers_to_others(&padded);
    assert!(!same, "padding at place {place} is not noticed");
    met.noticed += 1;
}

/// The crate's answers to all pairs but padding.
fn answers_to_others(arrived: &[Arrived]) -> Vec<Heard> {
    let mut state = Cea608State::default();
    let answers = arrived
        .iter()
        .map(|next| (next.pair, heard(&mut state, next.pair)));
    answers
        .filter(|&(pair, _)| pair != PADDING)
        .map(|(_, answer)| answer)
        .collect()
}

/// The codes that were accepted, what was sent, and of that what the queue gave, which is all but the
/// repeats, with the codes of each pair.
#[derive(Default)]
struct Spoken {
    accepted: Vec<Code>,
    sent: Vec<Pair>,
    popped: Vec<Pair>,
    codes: Vec<Vec<Code>>,
}

impl Spoken {
    fn push(&mut self, asked: &mut Asked, code: Code) {
        let before = asked.n_codes();
        asked.push(code);
        if asked.n_codes() > before {
            self.accepted.push(code);
        }
    }

    fn note(&mut self, sent: Sent) {
        self.sent.push(sent.pair);
        if let Some(taken) = sent.taken {
            self.popped.push(sent.pair);
            self.codes.push(taken);
        }
    }

    /// A send or, now and then, a drain; and now and then it is asked how the sender stands.
    fn send(&mut self, asked: &mut Asked, random: &mut Random, met: &mut Met) {
        match random.below(8) {
            0 => {
                let drained = asked.drain(any_drain(random));
                met.drained += drained.len();
                drained.into_iter().for_each(|sent| self.note(sent));
            }
            1 => asked.look(),
            _ => self.note(asked.send()),
        }
    }

    /// T-04's law over the whole run: each accepted code is in one of the queue's pairs, in order, and
    /// what is a command by its codes is sent twice in a row, any other pair once.
    fn check_codes(&self) {
        assert_eq!(self.codes.concat(), self.accepted);
        let mut by_codes = vec![];
        for (&pair, codes) in self.popped.iter().zip(&self.codes) {
            let copies = 1 + usize::from(queue::made_as_command(codes));
            by_codes.extend(vec![pair; copies]);
        }
        assert_eq!(self.sent, by_codes);
    }

    fn send_until_idle(&mut self, asked: &mut Asked) {
        while !asked.ask_idle() {
            self.note(asked.send());
        }
    }
}

/// Calls in random order, the sends now and then going on while there is nothing to say, and then
/// sends until idle.
fn speak(to: &mut Transcript, random: &mut Random, bursts: u32, met: &mut Met) -> Spoken {
    let mut asked = Asked::new(to);
    let mut spoken = Spoken::default();
    let mut code = any_code(random);
    for _ in 0..bursts {
        for _ in 0..random.pick(&[0, 1, 2, 3, 10, 30, 70]) {
            // Now and then the code before once more, which makes a stretch of more than two copies.
            if random.below(4) != 0 {
                code = any_code(random);
            }
            spoken.push(&mut asked, code);
            if random.below(6) == 0 {
                spoken.send(&mut asked, random, met);
            }
        }
        for _ in 0..random.pick(&[0, 1, 2, 5, 30, 100]) {
            spoken.send(&mut asked, random, met);
        }
    }
    spoken.send_until_idle(&mut asked);
    spoken.check_codes();
    met.queue.add(&asked.model.writer.met);
    spoken
}

/// What a receiver answered, and its state at the end: the field, and the channel by what it says to
/// text after all else.
#[derive(Debug, PartialEq)]
struct Told {
    events: Vec<Cea608>,
    field: Option<Field>,
    text_after: Heard,
}

/// A receiver's story, and for each pair whether it was refused.
struct Story {
    told: Told,
    refused: Vec<bool>,
}

fn hear(to: &mut Transcript, arrived: &[Arrived]) -> Story {
    let mut receiver = Receiver::fresh(to);
    let heard: Vec<Heard> = arrived
        .iter()
        .map(|arrived| receiver.decode(arrived.pair))
        .collect();
    Story {
        told: Told {
            events: events(&heard),
            field: receiver.field(),
            text_after: receiver.decode(HI),
        },
        refused: heard
            .iter()
            .map(|heard| *heard == Heard::InvalidParity)
            .collect(),
    }
}

fn events(heard: &[Heard]) -> Vec<Cea608> {
    let event = |heard: &Heard| match *heard {
        Heard::Event(event) => Some(event),
        Heard::Nothing | Heard::InvalidParity => None,
    };
    heard.iter().filter_map(event).collect()
}

/// What pairs give when each is read once: padding after a pair makes the crate forget it, so that
/// the next one is no repeat to it.
fn read_once(pairs: &[Pair]) -> Told {
    let mut state = Cea608State::default();
    let mut all = vec![];
    for &pair in pairs {
        all.push(heard(&mut state, pair));
        assert_eq!(heard(&mut state, PADDING), Heard::Nothing);
    }
    Told {
        events: events(&all),
        field: state.last_received_field(),
        text_after: heard(&mut state, HI),
    }
}

/// The agreement of demand 3, or the end of the run.
fn check(spoken: &Spoken, arrived: &[Arrived], story: &Story) {
    let once = read_once(&spoken.popped);
    let corrupted: Vec<bool> = arrived.iter().map(|arrived| arrived.corrupted).collect();
    if story.told == once && story.refused == corrupted {
        return;
    }
    let came: Vec<Pair> = arrived.iter().map(|arrived| arrived.pair).collect();
    panic!(
        "the agreement of demand 3 fails\n  sent: {:02X?}\n  arrived: {came:02X?}\n  \
         heard: {:?}\n  queued: {once:?}\n  refused: {:?}\n  corrupted: {corrupted:?}",
        spoken.sent, story.told, story.refused
    );
}

/// What is shown depends on the accepted codes alone: it is what each of them shows when it is sent alone.
/// Half a command is the exception.
fn check_shown(spoken: &Spoken, told: &Told, met: &mut Met) {
    if spoken.accepted.iter().any(|&code| is_half_command(code)) {
        return;
    }
    let alone = read_once(&each_alone(&spoken.accepted));
    assert_eq!(shown(&told.events), shown(&alone.events));
    assert_eq!(told.field, alone.field);
    assert_eq!(told.text_after, alone.text_after);
    met.shown += 1;
    met.packed_otherwise += usize::from(told.events != alone.events);
}

/// A line that does what demand 3 does not allow, and the events with it and without.
struct Beyond {
    codes: Vec<Code>,
    arrived: Vec<Pair>,
    heard: Vec<Cea608>,
    queued: Vec<Cea608>,
}

const SCROLL: Pair = [0x94, 0xAD];
const SCROLLS: Cea608 = Cea608::CarriageReturn(Channel::ONE);

/// Two hits in one stretch lose a command, whether it was queued once or twice, and a hit on text
/// loses words.
fn losses() -> Vec<Beyond> {
    let (scroll, roll_up) = (plain(COMMANDS[13]), plain(COMMANDS[5]));
    let rolls_up = Cea608::NewMode(Channel::ONE, Mode::RollUp2);
    let (hit, other_hit) = ([0x14, 0xAD], [0x94, 0xAC]);
    let said = Cea608::Text(Text {
        needs_backspace: false,
        char1: Some('H'),
        char2: Some('i'),
        channel: Channel::ONE,
    });
    vec![
        Beyond {
            codes: vec![scroll],
            arrived: vec![hit, other_hit],
            heard: vec![],
            queued: vec![SCROLLS],
        },
        Beyond {
            codes: vec![scroll, scroll],
            arrived: vec![hit, SCROLL, other_hit, SCROLL],
            heard: vec![SCROLLS],
            queued: vec![SCROLLS, SCROLLS],
        },
        Beyond {
            codes: vec![roll_up, LETTERS[0x28], LETTERS[0x49]],
            arrived: vec![[0x94, 0x25], [0x94, 0x25], [0x48, 0xE9]],
            heard: vec![rolls_up],
            queued: vec![rolls_up, said],
        },
    ]
}

/// An error that parity does not show is decoded as another command, and padding between two copies
/// scrolls a window twice.
fn additions() -> Vec<Beyond> {
    let scroll = plain(COMMANDS[13]);
    vec![
        Beyond {
            codes: vec![scroll],
            arrived: vec![SCROLL, [0x94, 0xAE]],
            heard: vec![SCROLLS, Cea608::EraseNonDisplay(Channel::ONE)],
            queued: vec![SCROLLS],
        },
        Beyond {
            codes: vec![scroll],
            arrived: vec![SCROLL, PADDING, SCROLL],
            heard: vec![SCROLLS, SCROLLS],
            queued: vec![SCROLLS],
        },
    ]
}

/// Each condition that demand 3 makes of the line is needed.
fn limits(to: &mut Transcript) {
    for case in losses().into_iter().chain(additions()) {
        let mut asked = Asked::new(to);
        let mut spoken = Spoken::default();
        for code in case.codes {
            asked.push(code);
        }
        spoken.send_until_idle(&mut asked);
        let arrived: Vec<Arrived> = case
            .arrived
            .into_iter()
            .map(|pair| Arrived {
                pair,
                corrupted: !is_odd(pair),
            })
            .collect();
        let told = hear(to, &arrived).told;
        assert_eq!(told.events, case.heard);
        assert_eq!(read_once(&spoken.popped).events, case.queued);
        assert_ne!(case.heard, case.queued, "nothing is beyond demand 3 here");
    }
}

/// The limits, and from a fixed seed a session on a clean line, on one that hits every stretch, and
/// two with padding put in and taken out: before sending, and in what was received.
pub fn sample(to: &mut Transcript) {
    limits(to);
    let mut random = Random::from_seed(SEED);
    let mut met = Met::default();
    for (hits, one_in, when) in [
        (0, 0, When::AsReceived),
        (1, 0, When::AsReceived),
        (1, 2, When::BeforeSending),
        (1, 2, When::AsReceived),
    ] {
        let padding = Padding {
            one_in,
            most: 2,
            takes_out: one_in != 0,
        };
        let way = Way {
            hits,
            padding,
            when,
        };
        session(to, &mut random, 5, way, &mut met);
    }
    let changed = [&met.before_sending, &met.as_received];
    for changed in changed {
        assert!(changed.put_in > 5 && changed.taken_out > 5);
    }
    assert!(met.hits.corrupted > 5 && met.drained > 5);
}
