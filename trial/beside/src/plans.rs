//! Planning and printing beside the reference.

use crate::lent::{same, Answered, Lent};
use reference::best::planned_cycles;
use reference::printout::Printed;
use reference::random::Random;
use reference::{algorithm1, printout, Plan, Reason, Room, Tally};
use vadivuzhen::raw::{self, PlanAnswer, PrintAnswer};
use vadivuzhen::Cycle;

/// What is lent to planning: any tables, with room for the outcome.
#[derive(Clone)]
pub struct Input {
    /// The number of pairs.
    pub n: usize,
    /// The floor.
    pub floor: u32,
    /// Compatibilities.
    pub m: Vec<u8>,
    /// Weights.
    pub w: Vec<u16>,
    /// The shuffle.
    pub shuffle: Vec<u16>,
    /// The lengths of the tables to be filled.
    pub room: Room,
}

/// What the library answers to a plan of the reference.
fn answered(plan: &Plan, tally: Tally) -> PlanAnswer {
    PlanAnswer {
        refusal: 0,
        cycles: plan.cycles(),
        weight: plan.weight.into(),
        comparisons: tally.comparisons,
        products: tally.products,
        rounds: tally.rounds,
    }
}

/// What the library answers to a refusal of the reference.
fn refused(reason: Reason) -> PlanAnswer {
    PlanAnswer {
        refusal: reason.number().into(),
        ..PlanAnswer::default()
    }
}

/// Plans, and gives the plan on which both agree, or the refusal.
pub fn plans(random: &mut Random, input: &Input) -> Result<Result<(Plan, Tally), Reason>, String> {
    let &Input { n, floor, room, .. } = input;
    let mut m = Lent::of(random, &input.m);
    let mut w = Lent::of(random, &input.w);
    let mut shuffle = Lent::of(random, &input.shuffle);
    let mut weights = Lent::empty(random, room.weights);
    let mut choices = Lent::empty(random, room.choices);
    let mut donors = Lent::empty(random, room.donors);
    let mut recipients = Lent::empty(random, room.recipients);
    let mut records = Lent::empty(random, room.records);
    let answer = raw::plan(
        n,
        floor,
        m.read(),
        w.read(),
        shuffle.read(),
        raw::Planned {
            weights: weights.fill(),
            choices: choices.fill(),
            donors: donors.fill(),
            recipients: recipients.fill(),
            records: records.fill(),
        },
    );
    m.unchanged("M")?;
    w.unchanged("W")?;
    shuffle.unchanged("the shuffle")?;

    let plan = reference::plan(n, floor, &input.m, &input.w, &input.shuffle, room);
    // A refusal fills nothing.
    let nothing = Plan::default();
    let (expected, left) = match &plan {
        Ok((plan, tally)) => (answered(plan, *tally), plan),
        Err(reason) => (refused(*reason), &nothing),
    };
    same("the answer", answer, expected)?;
    weights.filled("weights", &left.weights)?;
    choices.filled("choices", &left.choices)?;
    donors.filled("donors", &left.donors)?;
    recipients.filled("recipients", &left.recipients)?;
    let cycles: Vec<Cycle> = left.records.iter().map(cycle).collect();
    records.filled("records", &cycles)?;
    Ok(plan)
}

fn cycle(&[first, second, third]: &[u16; 3]) -> Cycle {
    Cycle {
        first,
        second,
        third,
    }
}

/// Plans what has no fault. The plan must be that of Algorithm 1 as well, with
/// every cycle above the floor, and its tally that of demand 3.
pub fn made(random: &mut Random, input: &Input) -> Result<(Plan, Tally), String> {
    let &Input { n, floor, .. } = input;
    let (plan, tally) = plans(random, input)?
        .map_err(|reason| format!("both refuse sound tables: {}", reason.number()))?;
    same("the tally, by demand 3", tally, Tally::demanded(n))?;
    let (donors, recipients) = algorithm1(n, floor, &input.m, &input.w, &input.shuffle);
    same("donors, by Algorithm 1", &plan.donors, &donors)?;
    same("recipients, by Algorithm 1", &plan.recipients, &recipients)?;
    if let Some(light) = weights(input, &plan)
        .iter()
        .find(|&&weight| weight <= floor)
    {
        return Err(format!(
            "a planned cycle weighs {light}, with floor {floor}"
        ));
    }
    Ok((plan, tally))
}

/// The weight of each planned cycle by the lent tables, in order of choice; of
/// one that is not executable, 0.
pub fn weights(input: &Input, plan: &Plan) -> Vec<u32> {
    let cycles = planned_cycles(input.n, &input.m, &input.w, plan);
    cycles.into_iter().map(|(_, weight)| weight).collect()
}

/// Prints a plan into a buffer of `room` bytes.
pub fn prints(random: &mut Random, printed: Printed<'_>, room: usize) -> Answered {
    let mut ids = Lent::of(random, printed.ids);
    let mut donors = Lent::of(random, printed.donors);
    let mut recipients = Lent::of(random, printed.recipients);
    let mut out = Lent::empty(random, room);
    let answer = raw::print_plan(
        printed.pairs,
        PlanAnswer {
            refusal: 0,
            cycles: printed.cycles,
            weight: printed.weight,
            comparisons: printed.tally.comparisons,
            products: printed.tally.products,
            rounds: printed.tally.rounds,
        },
        ids.read(),
        donors.read(),
        recipients.read(),
        out.fill(),
    );
    ids.unchanged("ids")?;
    donors.unchanged("donors")?;
    recipients.unchanged("recipients")?;
    answered_text(answer, &mut out, printed.fitted(room))
}

/// Prints a refusal by any number into a buffer of `room` bytes.
pub fn prints_refusal(random: &mut Random, number: u32, place: usize, room: usize) -> Answered {
    let mut out = Lent::empty(random, room);
    let answer = raw::print_refusal(number, place, out.fill());
    let text = printout::refused_by(number, place);
    let fitted = if text.len() <= room {
        Ok(text)
    } else {
        Err(Reason::TooShort)
    };
    answered_text(answer, &mut out, fitted)
}

/// The answer and the buffer are those of this text, or of this refusal.
fn answered_text(
    answer: PrintAnswer,
    out: &mut Lent<u8>,
    text: Result<String, Reason>,
) -> Answered {
    match text {
        Ok(text) => {
            let expected = PrintAnswer {
                refusal: 0,
                length: text.len(),
            };
            same("the answer", answer, expected)?;
            out.filled("the text", text.as_bytes())?;
            Ok(0)
        }
        Err(reason) => {
            let expected = PrintAnswer {
                refusal: reason.number().into(),
                length: 0,
            };
            same("the answer", answer, expected)?;
            out.unchanged("the buffer")?;
            Ok(reason.number())
        }
    }
}
