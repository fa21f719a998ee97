//! A round: a record from a seed and a run of calls on it. Most calls go on from
//! where the one before ended; between them are calls on damaged copies.

use crate::judge::{Difference, Judge};
use crate::tally::{Source, Tally};
use compare::call::Call;
use compare::inputs::{self, Style};
use compare::lent;
use compare::random::Random;
use compare::script::Pools;

/// Calls in a round.
pub const CALLS: u64 = 500;
/// A style of calls lasts that many on average.
const STYLE: usize = 40;
/// One call in so many is on a damaged copy.
const DAMAGED: usize = 4;
/// One call in so many is made on the model too.
const MODEL: usize = 1000;

/// A call that showed a difference, and the record before it.
#[derive(Debug)]
pub struct Failure {
    pub record: Vec<u8>,
    pub call: Call,
    pub fill: u64,
    pub difference: Difference,
}

pub struct Round<'a> {
    judge: &'a mut Judge,
    tally: &'a mut Tally,
    random: Random,
    pools: Pools,
    style: Style,
    record: Vec<u8>,
}

/// Runs round `index` of a seed.
pub fn run(
    judge: &mut Judge,
    tally: &mut Tally,
    seed: u64,
    index: u64,
) -> Result<(), Box<Failure>> {
    let mut random = Random::of_script(seed, index);
    let pools = inputs::pools(&mut random);
    let record = match random.one_in(2) {
        true => inputs::sound_record(&pools, &mut random),
        false => opened(),
    };
    let mut round = Round {
        judge,
        tally,
        random,
        pools,
        style: Style::Busy,
        record,
    };
    (0..CALLS).try_for_each(|_| round.step())
}

/// The bytes that open writes.
pub fn opened() -> Vec<u8> {
    let mut record = vec![0; lent::SIZE];
    lent::open(&mut record).expect("the record has the right size");
    record
}

impl Round<'_> {
    fn step(&mut self) -> Result<(), Box<Failure>> {
        if self.random.one_in(STYLE) {
            self.style = self.random.pick(&Style::ALL);
        }
        let call = inputs::call(&self.record, self.style, &self.pools, &mut self.random);
        if !self.random.one_in(DAMAGED) {
            let record = std::mem::take(&mut self.record);
            let after = self.call(&record, call, Source::Calls);
            self.record = record;
            after?;
            return self.go_on();
        }
        let mut damaged = self.record.clone();
        inputs::damage(&mut damaged, &mut self.random);
        self.call(&damaged, call, Source::Damage)?;
        // A record that is sound in spite of it may go on, a few times.
        let sound = lent::validate(self.judge.after()).is_ok();
        match sound && self.random.one_in(4) {
            true => self.go_on(),
            false => Ok(()),
        }
    }

    fn call(&mut self, record: &[u8], call: Call, source: Source) -> Result<(), Box<Failure>> {
        let fill = self.random.next();
        let mut made = self.judge.call(record, call, fill);
        if let (Ok(answer), true) = (made, self.random.one_in(MODEL)) {
            let tied = self.judge.tie_to_model(record, call, answer);
            made = tied.map(|()| answer);
            self.tally.on_model += 1;
        }
        match made {
            Ok(answer) => {
                self.tally.count(call, answer, record, source);
                Ok(())
            }
            Err(difference) => Err(Box::new(Failure {
                record: record.to_vec(),
                call,
                fill,
                difference,
            })),
        }
    }

    fn go_on(&mut self) -> Result<(), Box<Failure>> {
        self.record.clear();
        self.record.extend_from_slice(self.judge.after());
        Ok(())
    }
}
