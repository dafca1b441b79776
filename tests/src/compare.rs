//! One call of the panel's planner, held to the model: the answer, both areas whole, what lies around them, and the looks that
//! were said in advance.

use crate::model;
use crate::panel::{self, Answer, Row};
use crate::random::Random;

/// Entries before and behind a lent area that must stay as they are.
const AROUND: usize = 32;

/// The answer and the two areas after the call.
pub struct Planned {
    pub answer: Answer,
    pub plan: Vec<u16>,
    pub arrivals: Vec<u16>,
}

/// Calls the planner with areas of these lengths, filled with a pattern, and holds what it does to the model.
pub fn agree(
    random: &mut Random,
    nodes: u16,
    rows: &[Row],
    plan_len: usize,
    arrivals_len: usize,
) -> Result<Planned, String> {
    let plan_before = random.pattern(plan_len + 2 * AROUND);
    let arrivals_before = random.pattern(arrivals_len + 2 * AROUND);
    let lent = rows.to_vec();
    let mut plan = plan_before.clone();
    let mut arrivals = arrivals_before.clone();
    let answer = panel::plan(
        nodes,
        &lent,
        &mut plan[AROUND..AROUND + plan_len],
        &mut arrivals[AROUND..AROUND + arrivals_len],
    );

    let mut plan_model = plan_before;
    let mut arrivals_model = arrivals_before;
    let answer_model = model::plan(
        nodes,
        rows,
        &mut plan_model[AROUND..AROUND + plan_len],
        &mut arrivals_model[AROUND..AROUND + arrivals_len],
    );
    if answer != answer_model {
        return Err(format!(
            "answers {answer:?}, and the model {answer_model:?}"
        ));
    }
    if let Some(i) = (0..plan.len()).find(|&i| plan[i] != plan_model[i]) {
        return Err(format!(
            "plan entry {} is {}, and the model's {}",
            i as i64 - AROUND as i64,
            plan[i],
            plan_model[i]
        ));
    }
    if let Some(i) = (0..arrivals.len()).find(|&i| arrivals[i] != arrivals_model[i]) {
        return Err(format!(
            "arrivals entry {} is {}, and the model's {}",
            i as i64 - AROUND as i64,
            arrivals[i],
            arrivals_model[i]
        ));
    }
    hold_looks(nodes, &lent, answer.looks)?;
    if lent != rows {
        return Err("the lent rows have changed".to_string());
    }
    plan.truncate(AROUND + plan_len);
    arrivals.truncate(AROUND + arrivals_len);
    Ok(Planned {
        answer,
        plan: plan.split_off(AROUND),
        arrivals: arrivals.split_off(AROUND),
    })
}

/// Holds the looks said in advance to the model, and those that planning took to be no more.
fn hold_looks(nodes: u16, rows: &[Row], taken: u32) -> Result<(), String> {
    let (most, expected) = (
        panel::most_looks(nodes, rows),
        model::most_looks(nodes, rows),
    );
    if most != expected {
        return Err(format!("at most {most} looks, and the model {expected}"));
    }
    if taken > most {
        return Err(format!("{taken} looks, and {most} were the most"));
    }
    Ok(())
}
