//! What a script reaches: lengths of lines and inputs, counts, orders and
//! answers, each a mark. The driver says which marks the generated scripts leave
//! out; the fixed scripts reach every one of them.

mod searches;

use crate::graph::{LEVELS, SEATS};
use crate::model::{Kind, Message, Model, Phase, State};
use crate::text::{self, Answer, Command};
use std::collections::BTreeSet;

/// The bytes that a program may read at once. Input that crosses a multiple of
/// it comes in two pieces.
pub const PIECE: usize = 4096;

/// Lengths around the longest command, around 64 bytes and around a piece.
pub const LENGTHS: [usize; 17] = [
    33, 34, 35, 62, 63, 64, 65, 66, 127, 128, 4094, 4095, 4096, 4097, 8191, 8192, 8193,
];

/// Deliveries of one `A`: the most of each size that is looked for. The last is
/// more than one bundle can make.
const SETTLED: [u64; 7] = [0, 1, 100, 1_000, 10_000, 20_000, 65_800];
/// What the largest bundle makes, and one more.
const BUNDLES: [u64; 2] = [u16::MAX as u64, u16::MAX as u64 + 1];
const PENDING: [usize; 4] = [0, 1, 10, 100];
const CLEARINGS: [usize; 3] = [1, 2, 10];
/// The last is the longest answer of all.
const PRINTED: [usize; 4] = [4_096, 8_192, 12_288, 13_692];
const COUNTED: [usize; 5] = [0, 1, 2, 63, 64];

/// That many joins, or deliveries, in one order.
const ROW: usize = 20;

#[derive(Clone, Copy, PartialEq, Eq, PartialOrd, Ord, Debug)]
pub enum Mark {
    InputLength(usize),
    OnlyNewlines,
    /// A line that a newline ends.
    LineLength(usize),
    /// The last line, without a newline.
    UnfinishedLength(usize),
    UnfinishedCommand(char),
    /// A newline is the last, or the first, byte of a piece.
    NewlineEndsPiece,
    NewlineStartsPiece,
    /// A command whose bytes or whose newline lie in two pieces.
    AcrossPieces(char),
    /// In a line of another form.
    Byte(u8),
    Bad,
    Accepted(char),
    Refused(char, u8),
    Joined(u8),
    JoinedAt(u8),
    Vector(u8),
    Left(u8),
    /// Kind, level and side of a delivered message.
    Delivered(u8, u8, u8),
    /// At least that many deliveries in one `A`.
    Settled(u64),
    /// Exactly that many.
    SettledExactly(u64),
    AllSeated,
    /// All 64 lots leave in one clearing.
    AllLeave,
    BothEndsSeated,
    /// Joins in a row, each number above those seated, below them, or in turn
    /// above and below.
    JoinsAscending,
    JoinsDescending,
    JoinsAlternating,
    /// Deliveries in a row until nothing is pending, the largest first or the
    /// smallest first.
    LargestFirst,
    SmallestFirst,
    /// A contact that is leaving.
    LeavingContact,
    JoinWhilePending,
    LeaveWhilePending,
    /// A seat, or a number, that a lot before it had.
    SeatAgain,
    NumberAgain,
    /// At least that many clearings in one script.
    Clearings(usize),
    EmptyAgain,
    /// Searches of one full record from each seat.
    SearchFromAll,
    SearchFor(u64),
    /// A search that a lot which is leaving, in phase open, does not make wait.
    SearchWithLeaver,
    SearchFromLeaver,
    /// At least that many leaving lots in a row that a search goes past.
    LeaversPassed(u32),
    /// The first of them has the scanned number, or is the start, where the walk
    /// ends, or the left neighbour of a lot above the scanned number, where it ends.
    SearchForLeaver,
    StartPassed,
    NeighbourOfEndPassed,
    /// None, since all lots not above the scanned number are leaving.
    NobodyStays,
    /// `F` refused by a row, in phase open or clearing, with something pending or
    /// not.
    SearchRefused(u8, Clearing, Pending),
    Holder(u8),
    Nobody,
    Hops(u32),
    /// `P` in phase open or clearing, with something pending or not.
    Printed(Clearing, Pending),
    /// Seated lots, and at least so many pending messages, that `P` counted.
    CountedLots(usize),
    CountedPending(usize),
    /// At least that many bytes of one answer.
    PrintedLength(usize),
    /// One list of all 64 lots at a level.
    ListOfAll(usize),
    /// 32 lists of one level.
    MostLists(usize),
}

type Clearing = bool;
type Pending = bool;

/// Every mark that a script can reach.
pub fn all() -> BTreeSet<Mark> {
    use Mark::*;
    let seats = 0..SEATS as u8;
    let mut all = BTreeSet::from([OnlyNewlines, NewlineEndsPiece, NewlineStartsPiece, Bad]);
    all.extend([AllSeated, AllLeave, BothEndsSeated, EmptyAgain]);
    all.extend([JoinsAscending, JoinsDescending, JoinsAlternating]);
    all.extend([LargestFirst, SmallestFirst, LeavingContact]);
    all.extend([JoinWhilePending, LeaveWhilePending, SeatAgain, NumberAgain]);
    all.extend(INPUTS.map(InputLength));
    all.extend(LENGTHS.map(LineLength));
    all.extend(LENGTHS.map(UnfinishedLength));
    all.extend(['J', 'L', 'D', 'T', 'A', 'F', 'P'].map(UnfinishedCommand));
    all.extend(['J', 'L', 'D', 'T', 'A', 'F', 'P'].map(AcrossPieces));
    all.extend(['J', 'L', 'D', 'T', 'A', 'F', 'P'].map(Accepted));
    all.extend((0..=u8::MAX).filter(|&byte| byte != b'\n').map(Byte));
    for (letter, numbers) in REFUSALS {
        all.extend(numbers.iter().map(|&number| Refused(letter, number)));
    }
    all.extend(seats.clone().map(Joined));
    all.extend(seats.clone().map(JoinedAt));
    all.extend(seats.map(Left));
    all.extend((0..=u8::MAX).map(Vector));
    all.extend(delivered());
    all.extend(SETTLED.map(Settled));
    all.extend(BUNDLES.map(SettledExactly));
    all.extend(CLEARINGS.map(Clearings));
    all.extend(COUNTED.map(CountedLots));
    all.extend(PENDING.map(CountedPending));
    all.extend(PRINTED.map(PrintedLength));
    all.extend((0..LEVELS).map(ListOfAll));
    // Fewer bits than five make fewer lists.
    all.extend((5..LEVELS).map(MostLists));
    for clearing in [false, true] {
        all.extend([false, true].map(|pending| Printed(clearing, pending)));
    }
    all.extend(searches::all());
    all
}

const INPUTS: [usize; 8] = [0, 1, 4095, 4096, 4097, 8191, 8192, 8193];

/// The refusals that a line of the program can meet.
const REFUSALS: [(char, &[u8]); 5] = [
    ('J', &[3, 4, 5, 6, 7]),
    ('L', &[3, 7, 8, 9]),
    ('D', &[10]),
    ('T', &[11]),
    ('F', &[3, 8, 13]),
];

/// The kinds with their levels, and with both sides where the side is used.
fn delivered() -> Vec<Mark> {
    let mut marks = Vec::new();
    for kind in 1..=7 {
        let top = match kind {
            _ if kind == Kind::Probe as u8 || kind == Kind::Pull as u8 => LEVELS - 1,
            _ => LEVELS,
        };
        let sided = [Kind::Pull, Kind::Going, Kind::None].map(|sided| sided as u8);
        let sides = if sided.contains(&kind) { 2 } else { 1 };
        for level in 0..top as u8 {
            marks.extend((0..sides).map(|side| Mark::Delivered(kind, level, side)));
        }
    }
    marks
}

/// The marks of a script, line by line.
#[derive(Default)]
pub struct Reach {
    marks: BTreeSet<Mark>,
    clearings: usize,
    /// Joins in a row by their order: ascending, descending, alternating.
    ascending: usize,
    descending: usize,
    alternating: usize,
    was_above: bool,
    largest: usize,
    smallest: usize,
    /// The seats that searches of the present record started from.
    starts: BTreeSet<u8>,
    seats: BTreeSet<u8>,
    numbers: BTreeSet<u64>,
}

impl Reach {
    pub fn of_input(input: &[u8]) -> Reach {
        let mut reach = Reach::default();
        reach.lengths(input);
        reach.pieces(input);
        reach
    }

    pub fn marks(self) -> BTreeSet<Mark> {
        self.marks
    }

    fn note(&mut self, mark: Mark) {
        self.marks.insert(mark);
    }

    fn note_if(&mut self, condition: bool, mark: Mark) {
        if condition {
            self.note(mark);
        }
    }

    /// The largest of some sizes that is reached, and the smaller ones.
    fn note_sizes<T: Copy + PartialOrd>(&mut self, sizes: &[T], reached: T, mark: fn(T) -> Mark) {
        for &size in sizes {
            self.note_if(size <= reached, mark(size));
        }
    }

    fn lengths(&mut self, input: &[u8]) {
        self.note_if(
            INPUTS.contains(&input.len()),
            Mark::InputLength(input.len()),
        );
        let newlines = input.iter().all(|&byte| byte == b'\n');
        self.note_if(newlines && !input.is_empty(), Mark::OnlyNewlines);
        for piece in input.split_inclusive(|&byte| byte == b'\n') {
            let line = piece.strip_suffix(b"\n");
            let length = line.unwrap_or(piece).len();
            let mark = match line {
                Some(_) => Mark::LineLength(length),
                None => Mark::UnfinishedLength(length),
            };
            self.note_if(LENGTHS.contains(&length), mark);
            if line.is_none() && text::parse(piece).is_some() {
                self.note(Mark::UnfinishedCommand(char::from(piece[0])));
            }
        }
    }

    fn pieces(&mut self, input: &[u8]) {
        for end in (PIECE..=input.len()).step_by(PIECE) {
            self.note_if(input[end - 1] == b'\n', Mark::NewlineEndsPiece);
            let Some(&next) = input.get(end) else {
                continue;
            };
            self.note_if(next == b'\n', Mark::NewlineStartsPiece);
            let start = input[..end].iter().rposition(|&byte| byte == b'\n');
            let start = start.map_or(0, |newline| newline + 1);
            let rest = input[end..].iter().position(|&byte| byte == b'\n');
            let line = &input[start..rest.map_or(input.len(), |newline| end + newline)];
            if start < end && text::parse(line).is_some() {
                self.note(Mark::AcrossPieces(char::from(line[0])));
            }
        }
    }

    /// A line with the record before and after it, and how many deliveries it
    /// made.
    pub fn line(
        &mut self,
        line: &[u8],
        answer: &Answer,
        before: &Model,
        after: &Model,
        deliveries: u64,
    ) {
        let Some(call) = text::parse(line) else {
            self.note(Mark::Bad);
            return line.iter().for_each(|&byte| self.note(Mark::Byte(byte)));
        };
        let letter = char::from(line[0]);
        if let Answer::No(refusal) = answer {
            if let Command::Find { .. } = call {
                self.refused_search(*refusal, before);
            }
            return self.note(Mark::Refused(letter, refusal.number()));
        }
        self.note(Mark::Accepted(letter));
        if !matches!(call, Command::Find { .. } | Command::Print) {
            self.starts.clear();
        }
        if !matches!(call, Command::Deliver(_)) {
            (self.largest, self.smallest) = (0, 0);
        }
        match call {
            Command::Join { .. } => self.join(call, before, after),
            Command::Leave { seat } => {
                self.note(Mark::Left(seat));
                self.note_if(is_pending(before), Mark::LeaveWhilePending);
            }
            Command::Deliver(message) => self.delivery(message, before, after),
            Command::Turn => self.turn(before, after),
            Command::Settle => {
                self.note_sizes(&SETTLED, deliveries, Mark::Settled);
                let exactly = Mark::SettledExactly(deliveries);
                self.note_if(BUNDLES.contains(&deliveries), exactly);
            }
            Command::Find { start, number } => self.search(start, number, answer, before),
            Command::Print => self.print(answer),
        }
    }

    fn join(&mut self, call: Command, before: &Model, after: &Model) {
        let Command::Join {
            seat,
            number,
            vector,
            contact,
        } = call
        else {
            return;
        };
        self.note(Mark::Joined(seat));
        self.note(Mark::Vector(vector));
        self.note_if(usize::from(contact) < SEATS, Mark::JoinedAt(contact));
        let leaving = |(seat, state)| seat == contact && state == State::Leaving;
        self.note_if(states(before).any(leaving), Mark::LeavingContact);
        self.note_if(is_pending(before), Mark::JoinWhilePending);
        self.note_if(after.counts().lots == SEATS, Mark::AllSeated);
        let ends = after
            .seated()
            .filter(|(_, lot)| lot.number == 0 || lot.number == u64::MAX);
        self.note_if(ends.count() == 2, Mark::BothEndsSeated);
        let (new_seat, new_number) = (self.seats.insert(seat), self.numbers.insert(number));
        self.note_if(!new_seat, Mark::SeatAgain);
        self.note_if(!new_number, Mark::NumberAgain);
        self.join_order(number, before);
    }

    fn join_order(&mut self, number: u64, before: &Model) {
        let above = before.seated().all(|(_, lot)| lot.number < number);
        let below = before.seated().all(|(_, lot)| number < lot.number);
        let count = |so_far: usize, is_next: bool| if is_next { so_far + 1 } else { 0 };
        self.ascending = count(self.ascending, above);
        self.descending = count(self.descending, below);
        let turned = if self.was_above { below } else { above };
        self.alternating = count(self.alternating, turned);
        self.was_above = above;
        self.note_if(self.ascending >= ROW, Mark::JoinsAscending);
        self.note_if(self.descending >= ROW, Mark::JoinsDescending);
        self.note_if(self.alternating >= ROW, Mark::JoinsAlternating);
    }

    fn delivery(&mut self, message: Message, before: &Model, after: &Model) {
        let Message {
            kind, level, side, ..
        } = message;
        self.note(Mark::Delivered(kind, level, side));
        let is_end = |end: Option<&Message>| end == Some(&message);
        self.largest = if is_end(before.pending().last()) {
            self.largest + 1
        } else {
            0
        };
        self.smallest = if is_end(before.pending().first()) {
            self.smallest + 1
        } else {
            0
        };
        let ended = !is_pending(after);
        self.note_if(ended && self.largest >= ROW, Mark::LargestFirst);
        self.note_if(ended && self.smallest >= ROW, Mark::SmallestFirst);
    }

    fn turn(&mut self, before: &Model, after: &Model) {
        let turned = (before.phase(), after.phase());
        if turned == (Phase::Open, Phase::Clearing) {
            self.clearings += 1;
            let leavers = states(before).filter(|&(_, state)| state == State::Leaving);
            self.note_if(leavers.count() == SEATS, Mark::AllLeave);
            self.note_sizes(&CLEARINGS, self.clearings, Mark::Clearings);
        }
        let emptied = turned == (Phase::Clearing, Phase::Open) && after.counts().lots == 0;
        self.note_if(emptied, Mark::EmptyAgain);
    }

    fn print(&mut self, answer: &Answer) {
        let Answer::Listing(counts, lists) = answer else {
            return;
        };
        let clearing = counts.phase == Phase::Clearing;
        self.note(Mark::Printed(clearing, counts.pending > 0));
        self.note_if(
            COUNTED.contains(&counts.lots),
            Mark::CountedLots(counts.lots),
        );
        self.note_sizes(&PENDING, counts.pending, Mark::CountedPending);
        let mut text = Vec::new();
        answer.print(&mut text);
        self.note_sizes(&PRINTED, text.len(), Mark::PrintedLength);
        for level in 0..LEVELS {
            let of_level = || lists.iter().filter(|list| list.level == level);
            let whole = of_level().any(|list| list.numbers.len() == SEATS);
            self.note_if(whole, Mark::ListOfAll(level));
            self.note_if(of_level().count() == SEATS / 2, Mark::MostLists(level));
        }
    }
}

fn is_pending(model: &Model) -> bool {
    !model.pending().is_empty()
}

fn states(model: &Model) -> impl Iterator<Item = (u8, State)> + '_ {
    model.seated().map(|(seat, lot)| (seat, lot.state))
}
