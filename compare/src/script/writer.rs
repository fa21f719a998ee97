//! Writes a script line by line. A model runs along, so that the writer knows
//! what is seated and pending and most lines do something.

mod searches;

use super::damage;
use super::pools::Pools;
use super::{Script, Step};
use crate::graph::{LEVELS, SEATS};
use crate::model::{Message, Model, Phase, State, NO_CONTACT};
use crate::random::Random;
use crate::text::{self, Command};
use std::collections::VecDeque;

/// Where the numbers of joins lie.
#[derive(Clone, Copy)]
enum Towards {
    Anywhere,
    /// Next above, or next below, all that are seated.
    Above,
    Below,
    /// In turn above and below.
    Outwards,
}

/// The order in which a drain takes pending messages.
#[derive(Clone, Copy)]
enum Order {
    Random,
    Smallest,
    Largest,
    Oldest,
    Newest,
    /// Those to one seat only when nothing else is left.
    SeatLast(u8),
    LevelLast(u8),
    KindLast(u8),
}

pub struct Writer {
    pub random: Random,
    pools: Pools,
    model: Model,
    script: Script,
    limit: usize,
    order: Order,
    towards: Towards,
    /// What deliveries sent, in order; some of it is no longer pending.
    sent: VecDeque<Message>,
    /// The last message taken away.
    taken: Option<Message>,
}

impl Writer {
    pub fn new(random: Random, pools: Pools, limit: usize) -> Writer {
        Writer {
            random,
            pools,
            model: Model::open(),
            script: Script::new(),
            limit,
            order: Order::Random,
            towards: Towards::Anywhere,
            sent: VecDeque::new(),
            taken: None,
        }
    }

    pub fn is_done(&self) -> bool {
        self.script.len() >= self.limit
    }

    /// Mostly brings the record to rest. One time in four the last newline is
    /// taken away, after a line longer than any command half of these times.
    pub fn finish(mut self) -> Script {
        if self.limit > 0 && !self.random.one_in(4) {
            for line in ["A", "P", "T", "A", "P", "T", "P"] {
                self.say(line);
            }
            for _ in 0..3 {
                self.find_from_all();
            }
        }
        if self.random.one_in(4) {
            if self.limit > 0 && self.random.one_in(2) {
                let good = self.some_good_line();
                let line = damage::overlong(&good, &mut self.random);
                self.say(line);
            }
            if let Some(last) = self.script.last_mut() {
                last.pop();
            }
        }
        self.script
    }

    pub fn step(&mut self, step: Step) {
        match step {
            Step::Join => self.join(),
            Step::Arrivals => self.arrivals(),
            Step::Fill => self.fill(),
            Step::Leave => self.leave(),
            Step::Departures => self.departures(),
            Step::Deliver => self.deliver(),
            Step::Drain => self.drain(),
            Step::Turn => self.say("T"),
            Step::Settle => self.settle(),
            Step::Clear => self.clear(),
            Step::Depart => self.depart(),
            Step::Empty => self.empty(),
            Step::Find => self.find(),
            Step::FindFromAll => self.find_from_all(),
            Step::FindPastLeavers => self.find_past_leavers(),
            Step::Print => self.say("P"),
            Step::Absent => self.absent(),
            Step::Refused => self.refused(),
            Step::Damaged => self.damaged(),
        }
    }

    /// Adds a line and runs it on the model.
    fn say(&mut self, line: impl AsRef<[u8]>) {
        let line = line.as_ref();
        let command = text::parse(line);
        if let Some(Command::Deliver(message)) = command {
            self.note_delivery(message);
        }
        text::answer(&mut self.model, command);
        self.script.push([line, b"\n"].concat());
    }

    fn note_delivery(&mut self, message: Message) {
        if self.model.is_pending(message) {
            self.sent.extend(self.model.effect(message).sends);
            self.taken = Some(message);
        }
    }

    fn join(&mut self) {
        if self.model.phase() == Phase::Clearing && !self.random.one_in(4) {
            return self.deliver();
        }
        let seats = self.seats(None);
        let free = |seat: &u8| !seats.contains(seat);
        let free: Vec<u8> = self.pools.seats.iter().copied().filter(free).collect();
        let used = |number: &u64| self.model.seated().any(|(_, lot)| lot.number == *number);
        let unused = |number: &u64| !used(number);
        let numbers: Vec<u64> = self.pools.numbers.iter().copied().filter(unused).collect();
        if free.is_empty() || numbers.is_empty() {
            return match self.random.one_in(4) {
                true => self.refused_join(),
                false => self.leave(),
            };
        }
        let seat = self.random.pick(&free);
        let number = self.next_number(&numbers);
        let contact = match seats.is_empty() {
            true => NO_CONTACT,
            false => self.random.pick(&seats),
        };
        self.say_join(seat, number, contact);
    }

    /// One of the unused numbers, where the joins lead.
    fn next_number(&mut self, unused: &[u64]) -> u64 {
        let seated = || self.model.seated().map(|(_, lot)| lot.number);
        let above = |number: &&u64| seated().all(|other| other < **number);
        let below = |number: &&u64| seated().all(|other| **number < other);
        let above = unused.iter().filter(above).min();
        let below = unused.iter().filter(below).max();
        let is_even = self.model.counts().lots.is_multiple_of(2);
        let next = match self.towards {
            Towards::Anywhere => None,
            Towards::Above => above,
            Towards::Below => below,
            Towards::Outwards if is_even => above,
            Towards::Outwards => below,
        };
        next.copied().unwrap_or_else(|| self.random.pick(unused))
    }

    fn say_join(&mut self, seat: u8, number: u64, contact: u8) {
        let vector = self.random.pick(&self.pools.vectors);
        self.say(format!("J {seat} {number} {vector} {contact}"));
    }

    fn arrivals(&mut self) {
        for _ in 0..1 + self.random.below(6) {
            self.join();
            for _ in 0..self.random.below(4) {
                self.deliver();
            }
        }
    }

    fn fill(&mut self) {
        let way = self.random.below(6);
        let anywhere = Towards::Anywhere;
        let towards = [
            anywhere,
            anywhere,
            Towards::Above,
            Towards::Below,
            Towards::Outwards,
        ];
        self.towards = self.random.pick(&towards);
        for _ in self.seats(None).len()..self.pools.seats.len() {
            self.join();
            match way {
                0 => {}
                1 => self.deliver(),
                _ => self.say("A"),
            }
        }
        self.towards = anywhere;
    }

    fn leave(&mut self) {
        let staying = self.seats(Some(State::Staying));
        let no_use = staying.is_empty() || self.model.phase() == Phase::Clearing;
        if no_use && !self.random.one_in(4) {
            return self.deliver();
        }
        if staying.is_empty() {
            return self.refused_leave();
        }
        let seat = self.random.pick(&staying);
        self.say(format!("L {seat}"));
    }

    fn departures(&mut self) {
        let staying = self.seats(Some(State::Staying)).len();
        for _ in 0..self.random.below(staying + 1) {
            self.leave();
        }
    }

    fn deliver(&mut self) {
        if let Some(message) = self.next_message() {
            self.say_deliver(message);
        }
    }

    fn say_deliver(&mut self, m: Message) {
        let Message {
            kind,
            to,
            about,
            level,
            side,
        } = m;
        self.say(format!("D {kind} {to} {about} {level} {side}"));
    }

    fn drain(&mut self) {
        self.order = self.some_order();
        while !self.model.pending().is_empty() && !self.is_done() {
            self.deliver();
            if self.random.one_in(20) {
                self.say("P");
            }
        }
        self.order = self.some_order();
        self.find_if_settled();
    }

    fn settle(&mut self) {
        self.say("A");
        self.find_if_settled();
    }

    fn some_order(&mut self) -> Order {
        match self.random.below(10) {
            0 => Order::Smallest,
            1 => Order::Largest,
            2 => Order::Oldest,
            3 => Order::Newest,
            4 => Order::SeatLast(self.random.pick(&self.pools.seats)),
            5 => Order::LevelLast(self.random.below(LEVELS) as u8),
            6 => Order::KindLast(1 + self.random.below(7) as u8),
            _ => Order::Random,
        }
    }

    fn next_message(&mut self) -> Option<Message> {
        let pending = self.model.pending();
        match self.order {
            Order::Smallest => pending.first().copied(),
            Order::Largest => pending.last().copied(),
            Order::Oldest => self.next_sent(VecDeque::pop_front),
            Order::Newest => self.next_sent(VecDeque::pop_back),
            Order::Random => self.random_message(&|_| false),
            Order::SeatLast(seat) => self.random_message(&|m| m.to == seat),
            Order::LevelLast(level) => self.random_message(&|m| m.level == level),
            Order::KindLast(kind) => self.random_message(&|m| m.kind == kind),
        }
    }

    fn next_sent(
        &mut self,
        take: fn(&mut VecDeque<Message>) -> Option<Message>,
    ) -> Option<Message> {
        while let Some(message) = take(&mut self.sent) {
            if self.model.is_pending(message) {
                return Some(message);
            }
        }
        self.random_message(&|_| false)
    }

    /// Any pending message, one that is to come last only if all are.
    fn random_message(&mut self, is_last: &dyn Fn(&Message) -> bool) -> Option<Message> {
        let pending = self.model.pending();
        let early = pending.iter().filter(|m| !is_last(m)).count();
        if early > 0 {
            let index = self.random.below(early);
            return pending.iter().filter(|m| !is_last(m)).nth(index).copied();
        }
        let index = self.random.below(pending.len().max(1));
        pending.iter().nth(index).copied()
    }

    fn clear(&mut self) {
        for _ in 0..2 {
            self.settle_somehow();
            self.say("T");
        }
        self.say("P");
        self.find_if_settled();
    }

    fn settle_somehow(&mut self) {
        match self.random.one_in(3) {
            true => self.settle(),
            false => self.drain(),
        }
        self.say("P");
    }

    fn depart(&mut self) {
        self.say("A");
        if self.model.phase() == Phase::Clearing {
            self.say("T");
        }
        self.departures();
        self.find_if_settled();
        self.say("T");
        self.say("P");
        self.drain();
        self.say("P");
        self.say("T");
        self.find_if_settled();
    }

    fn empty(&mut self) {
        for _ in self.seats(Some(State::Staying)) {
            self.leave();
        }
        self.clear();
    }

    /// A number of the pool or next to one.
    fn some_number(&mut self) -> u64 {
        let number = self.random.pick(&self.pools.numbers);
        self.near(number)
    }

    fn near(&mut self, number: u64) -> u64 {
        match self.random.below(4) {
            0 => number.saturating_add(1),
            1 => number.saturating_sub(1),
            _ => number,
        }
    }

    /// A seat of the pool, or a number at an edge.
    fn some_seat(&mut self) -> u8 {
        let edges = [0, 62, 63, 64, 65, 127, 128, 254, 255];
        match self.random.one_in(3) {
            true => self.random.pick(&edges),
            false => self.random.pick(&self.pools.seats),
        }
    }

    fn refused(&mut self) {
        match self.random.below(4) {
            0 => self.refused_leave(),
            1 => {
                let start = self.some_seat();
                let number = self.some_number();
                self.say(format!("F {start} {number}"));
            }
            _ => self.refused_join(),
        }
    }

    fn refused_leave(&mut self) {
        let leaving = self.seats(Some(State::Leaving));
        let seat = match leaving.is_empty() || self.random.one_in(2) {
            true => self.some_seat(),
            false => self.random.pick(&leaving),
        };
        self.say(format!("L {seat}"));
    }

    fn refused_join(&mut self) {
        let seats = self.seats(None);
        let free = (0..SEATS as u8).filter(|seat| !seats.contains(seat));
        let free: Vec<u8> = free.collect();
        let seat = match free.is_empty() || self.random.one_in(2) {
            true => self.some_seat(),
            false => self.random.pick(&free),
        };
        let seated: Vec<u64> = self.model.seated().map(|(_, lot)| lot.number).collect();
        let number = match seated.is_empty() || self.random.one_in(2) {
            true => self.some_number(),
            false => self.random.pick(&seated),
        };
        let contact = self.some_seat();
        self.say_join(seat, number, contact);
    }

    /// Five numbers near a pending or a taken message, or any at all.
    fn absent(&mut self) {
        let pending = self.random_message(&|_| false);
        let message = match self.random.below(4) {
            0 => self.any_message(),
            1 => self.taken.unwrap_or(self.any_message()),
            _ => {
                let near = pending.or(self.taken);
                let near = near.unwrap_or(self.any_message());
                self.altered(near)
            }
        };
        self.say_deliver(message);
    }

    fn any_message(&mut self) -> Message {
        let kind = match self.random.one_in(4) {
            true => self.random.pick(&[0, 8, 9, 128, 255]),
            false => 1 + self.random.below(7) as u8,
        };
        Message {
            kind,
            to: self.some_seat(),
            about: self.some_seat(),
            level: self.some_level(),
            side: self.some_side(),
        }
    }

    fn altered(&mut self, message: Message) -> Message {
        let any = self.any_message();
        message.with_number_of(any, self.random.below(5))
    }

    fn some_level(&mut self) -> u8 {
        match self.random.one_in(4) {
            true => self.random.pick(&[7, 8, 9, 10, 255]),
            false => self.random.below(LEVELS) as u8,
        }
    }

    fn some_side(&mut self) -> u8 {
        self.random.pick(&[0, 0, 0, 1, 1, 2, 255])
    }

    fn damaged(&mut self) {
        let good = self.some_good_line();
        let line = damage::damaged(&good, &mut self.random);
        for part in text::lines(&[&line[..], b"\n"].concat()) {
            self.say(part);
        }
    }

    /// A line of the right form, mostly one that would be accepted.
    fn some_good_line(&mut self) -> Vec<u8> {
        let (seat, number) = (self.some_seat(), self.some_number());
        let contact = self.seats(None).first().copied().unwrap_or(NO_CONTACT);
        let line = match self.random.below(7) {
            0 => String::from("T"),
            1 => String::from("A"),
            2 => String::from("P"),
            3 => format!("L {seat}"),
            4 => format!("F {contact} {number}"),
            5 => format!("J {seat} {number} {} {contact}", self.random.byte()),
            _ => match self.next_message() {
                Some(m) => format!("D {} {} {} {} {}", m.kind, m.to, m.about, m.level, m.side),
                None => String::from("D 1 0 1 0 0"),
            },
        };
        line.into_bytes()
    }

    /// The seats of the lots of one state, or of all.
    fn seats(&self, state: Option<State>) -> Vec<u8> {
        let wanted = |lot_state| state.is_none_or(|state| state == lot_state);
        let lots = self.model.seated().filter(|(_, lot)| wanted(lot.state));
        lots.map(|(seat, _)| seat).collect()
    }
}
