//! A case, put through the port.

use crate::case::Case;
use crate::case::Record;
use crate::fill::Left;
use jitamoro::sys;

const NO_OP: u8 = 9;

/// Calls a function of the port with a case's record, after a pass if it takes one.
macro_rules! call {
    ($function:path $(, $pass:expr)?; $section:expr, $case:expr, $r:expr) => {
        $function(
            $($pass,)? $r.r_type, $section, $r.offset, $r.flags, $case.kind, $case.executable,
            $r.address, $r.addend,
        )
    };
}

pub struct Relaxed<'a> {
    pub section: Vec<u8>,
    pub left: Vec<Left<'a>>,
    /// Whether a kind was chosen for the first record.
    pub chosen: bool,
    /// Whether a kind was chosen for any record that isn't NoOp.
    pub rewritten: bool,
}

impl<'a> Relaxed<'a> {
    fn take(&mut self, record: &'a Record, answer: &sys::RelaxedAnswer) -> Result<(), u8> {
        let choice = &answer.choice;
        if choice.refusal != 0 {
            return Err(choice.refusal);
        }
        if !choice.chosen {
            self.left.push(Left::unchanged(record));
            return Ok(());
        }
        self.chosen |= self.left.is_empty();
        self.rewritten |= choice.kind != NO_OP;
        let (r_type, offset, addend) = (choice.new_type, answer.offset, answer.addend);
        self.left.push(Left {
            record,
            r_type,
            offset,
            addend,
        });
        Ok(())
    }

    fn one(&mut self, case: &Case, record: &'a Record) -> Result<(), u8> {
        let answer = call!(sys::relax; &mut self.section, case, record);
        self.take(record, &answer)
    }

    fn step(&mut self, pass: &mut sys::Pass, case: &Case, record: &'a Record) -> Result<(), u8> {
        let answer = call!(sys::pass_step, pass; &mut self.section, case, record);
        if answer.skipped {
            return Ok(());
        }
        self.take(record, &answer.relaxed)
    }
}

/// What the port makes of a case, or its refusal. Several records go through a pass.
pub fn relax(case: &Case) -> Result<Relaxed<'_>, u8> {
    let section = case.before.clone();
    let mut relaxed = Relaxed {
        section,
        left: Vec::new(),
        chosen: false,
        rewritten: false,
    };
    if let [record] = &case.records[..] {
        relaxed.one(case, record)?;
        return Ok(relaxed);
    }
    let mut pass = sys::jitamoro_pass_fresh();
    for record in &case.records {
        relaxed.step(&mut pass, case, record)?;
    }
    match sys::jitamoro_pass_end(&mut pass) {
        0 => Ok(relaxed),
        refusal => Err(refusal),
    }
}
