//! One text, both sides: the report, every lent byte, run and coefficients.

use crate::batch::{drawn_valuations, equal_on_all, run_columns, run_routine};
use crate::guard::{Lent, Pool};
use crate::judge::{judge_lent, Judgement};
use crate::limits::{MOST_VARIABLES, WORK};
use crate::maps;
use crate::random::Random;
use crate::reading::read;
use crate::report::{CoefficientsAnswer, Report, RunAnswer, Verdict, WRONG_NUMBER};
use crate::routine::Routine;
use crate::trials::{self, Trials, MOST_TRIALS};
use crate::unroll::unrolled;

/// The compared implementation.
pub trait Side {
    /// Judges a text with these trials in three lent buffers.
    fn judge(
        &self,
        text: &[u8],
        trials: Trials,
        left: &mut [u8],
        right: &mut [u8],
        list: &mut [u8],
    ) -> Report;
    /// Runs a text on given bytes.
    fn run(&self, text: &[u8], bytes: &[u8]) -> RunAnswer;
    /// A text's number of variables, refusal and line.
    fn read(&self, text: &[u8]) -> [u64; 3];
    /// The coefficients of a map.
    fn coefficients(&self, list: &[u8]) -> CoefficientsAnswer;
}

/// Bytes beyond the needed ones that a lent buffer may have.
const MOST_EXTRA: usize = 64;
/// Random valuations on which an equal text is run.
const VALUATIONS: usize = 16;
/// A work buffer after a text that was not refused.
static ZEROS: [u8; WORK] = [0; WORK];

/// What one text gave.
pub struct Outcome {
    pub report: Report,
    /// Refusal numbers of the other calls: too little lent, run on a wrong number of bytes,
    /// coefficients.
    pub others: Vec<u64>,
    /// Whether the text is accepted and has a let, so that its unrolled form was judged too.
    pub unrolled: bool,
}

/// The compared side with its buffers.
pub struct Comparison<'a> {
    side: &'a dyn Side,
    random: Random,
    pool: Pool,
    left: Lent,
    right: Lent,
    list: Lent,
}

/// What is wrong unless the condition holds.
fn ask(condition: bool, wrong: impl FnOnce() -> String) -> Result<(), String> {
    if condition {
        return Ok(());
    }
    Err(wrong())
}

/// What is wrong unless both are the same.
fn same<T: PartialEq + std::fmt::Debug>(what: &str, product: &T, own: &T) -> Result<(), String> {
    ask(product == own, || {
        format!("{what}: {product:?}, expected {own:?}")
    })
}

impl<'a> Comparison<'a> {
    /// A comparison with this side; the seed begins its random numbers.
    pub fn new(side: &'a dyn Side, seed: u64) -> Self {
        let mut random = Random::new(seed);
        let pool = Pool::new(&mut random, WORK + MOST_EXTRA);
        Comparison {
            side,
            random,
            pool,
            left: Lent::new(),
            right: Lent::new(),
            list: Lent::new(),
        }
    }

    /// Compares all operations on one text; an error says what differs.
    pub fn check(&mut self, text: &[u8]) -> Result<Outcome, String> {
        let trials = self.draw_trials();
        let judgement = self.check_judge(text, trials, true)?;
        let (mut others, mut unrolled) = (vec![], false);
        if self.random.one_in(64) {
            let many = Trials {
                count: MOST_TRIALS + 1 + self.random.below(2) as u32 * 0x7fff_0000,
                ..trials
            };
            others.push(self.check_judge(text, trials, false)?.report.refusal);
            others.push(self.check_judge(text, many, true)?.report.refusal);
            others.push(self.check_judge(text, many, false)?.report.refusal);
        }
        match read(text) {
            Ok(routine) => {
                same(
                    "read",
                    &self.side.read(text),
                    &[routine.variables as u64, 0, 0],
                )?;
                self.check_meaning(text, &routine, &judgement)?;
                others.extend(self.check_runs(text, &routine)?);
                unrolled = self.check_unrolled(text, trials, &routine, &judgement)?;
            }
            Err(refusal) => {
                let told = [0, refusal.number, refusal.line];
                same("read", &self.side.read(text), &told)?;
                let count = self.random.below(MOST_VARIABLES + 2);
                let answer = self.run_drawn(text, count).1;
                same("run", &answer, &RunAnswer::refused(refusal))?;
            }
        }
        if self.random.one_in(4) {
            others.extend(self.check_coefficients()?);
        }
        let report = judgement.report;
        Ok(Outcome {
            report,
            others,
            unrolled,
        })
    }

    /// The lengths of the lent buffers, all enough or one of them too short.
    fn draw_lengths(&mut self, enough: bool) -> [usize; 3] {
        let mut lengths = [WORK, WORK, MOST_VARIABLES];
        for length in &mut lengths {
            if self.random.one_in(4) {
                *length += self.random.between(1, MOST_EXTRA);
            }
        }
        if !enough {
            let at = self.random.below(3);
            let needed = [WORK, WORK, MOST_VARIABLES][at];
            lengths[at] = match self.random.one_in(2) {
                true => needed - 1,
                false => self.random.below(needed),
            };
        }
        lengths
    }

    /// The trials that are asked for: the defaults, or so many from a drawn number; seldom all that may be.
    fn draw_trials(&mut self) -> Trials {
        if self.random.one_in(2) {
            return trials::DEFAULT;
        }
        let count = match self.random.one_in(256) {
            true => MOST_TRIALS,
            false => [0, 1, 31, 32, 256, 300][self.random.below(6)],
        };
        let start = (0..4).fold(0, |start, _| start << 8 | self.random.byte() as u32);
        Trials { count, start }
    }

    /// Compares judge: the report, and every byte of the lent buffers and of their guards.
    fn check_judge(
        &mut self,
        text: &[u8],
        trials: Trials,
        enough: bool,
    ) -> Result<Judgement, String> {
        let lengths = self.draw_lengths(enough);
        let lent = [&mut self.left, &mut self.right, &mut self.list];
        for (buffer, length) in lent.into_iter().zip(lengths) {
            buffer.prepare(&self.pool, &mut self.random, length);
        }
        let (left, right) = (self.left.inner(), self.right.inner());
        let list = self.list.inner();
        let report = self.side.judge(text, trials, left, right, list);
        let own = judge_lent(text, trials, lengths);
        same("report", &report, &own.report)?;
        let work = match own.report.verdict {
            Verdict::Refused => &[],
            _ => &ZEROS[..],
        };
        let held = |buffer: &Lent, front| buffer.holds(&self.pool, front);
        ask(held(&self.left, work), || "first work buffer".into())?;
        ask(held(&self.right, work), || "second work buffer".into())?;
        let list_wrong = || format!("byte list, expected {:02x?}", own.bytes);
        ask(held(&self.list, &own.bytes), list_wrong)?;
        Ok(own)
    }

    /// Runs a text on drawn bytes.
    fn run_drawn(&mut self, text: &[u8], count: usize) -> (Vec<u8>, RunAnswer) {
        let bytes: Vec<u8> = (0..count).map(|_| self.random.byte()).collect();
        let answer = self.side.run(text, &bytes);
        (bytes, answer)
    }

    /// Compares run on drawn bytes, and seldom on a wrong number of bytes.
    fn check_runs(&mut self, text: &[u8], routine: &Routine) -> Result<Vec<u64>, String> {
        let (bytes, answer) = self.run_drawn(text, routine.variables);
        let own = RunAnswer::taken(run_routine(routine, &bytes));
        same("run", &answer, &own)?;
        if !self.random.one_in(8) {
            return Ok(vec![]);
        }
        let count = self.random.below(MOST_VARIABLES + 2);
        let count = count + (count >= routine.variables) as usize;
        let answer = self.run_drawn(text, count).1;
        same("run", &answer, &RunAnswer::refused(WRONG_NUMBER))?;
        Ok(vec![WRONG_NUMBER.number])
    }

    /// Checks a verdict by running: differs and found on their bytes, equal on drawn valuations and, for up to
    /// two variables, on all.
    fn check_meaning(
        &mut self,
        text: &[u8],
        routine: &Routine,
        judgement: &Judgement,
    ) -> Result<(), String> {
        match judgement.report.verdict {
            Verdict::Differs | Verdict::Found => {
                let answer = self.side.run(text, &judgement.bytes);
                let own = RunAnswer::taken(run_routine(routine, &judgement.bytes));
                same("run", &answer, &own)?;
                let shown = answer.original != answer.joined;
                ask(shown, || "differs or found, but run gives one byte".into())
            }
            Verdict::Equal => {
                let random = &mut self.random;
                let n = routine.variables;
                let columns = drawn_valuations(n, VALUATIONS, || random.byte());
                let (original, joined) = run_columns(routine, &columns, VALUATIONS);
                let wrong = || "equal, but run gives two bytes".into();
                ask(original == joined && equal_on_all(routine), wrong)
            }
            Verdict::Unknown | Verdict::Refused => Ok(()),
        }
    }

    /// Judges and runs the unrolled form of a text with a let: the answers are those of the text,
    /// and the line of unknown and found comes from the text's.
    fn check_unrolled(
        &mut self,
        text: &[u8],
        trials: Trials,
        routine: &Routine,
        judgement: &Judgement,
    ) -> Result<bool, String> {
        let Some(form) = unrolled(text) else {
            return Ok(false);
        };
        let mut own = self.check_judge(&form.text, trials, true)?;
        own.report.line = form.source(own.report.line);
        same("unrolled form", &own, judgement)?;
        let (bytes, answer) = self.run_drawn(&form.text, routine.variables);
        let run = RunAnswer::taken(run_routine(routine, &bytes));
        same("run of the unrolled form", &answer, &run)?;
        Ok(true)
    }

    /// Compares coefficients of a drawn list, seldom of a wrong length.
    fn check_coefficients(&mut self) -> Result<Option<u64>, String> {
        let length = match self.random.one_in(8) {
            true => self.random.below(20),
            false => 9,
        };
        let list: Vec<u8> = (0..length).map(|_| self.random.byte()).collect();
        let answer = self.side.coefficients(&list);
        let mut own = CoefficientsAnswer::default();
        match maps::coefficients(&list) {
            Some(coefficients) => own.list = coefficients,
            None => own.refusal = 12,
        }
        same("coefficients", &answer, &own)?;
        Ok((own.refusal != 0).then_some(own.refusal))
    }
}
