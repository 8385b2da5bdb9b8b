//! A plan that was followed, or not: what was planned up to a step beside what was done, and what its rest is worth.

use crate::calls;
use crate::carry::Carried;
use crate::compare::{differences, Difference};
use crate::costs::Costs;
use crate::failure::Failure;
use crate::faults;
use crate::files::Input;
use crate::json::Value;
use crate::lives::Late;
use crate::numbers::{counted, grouped};
use crate::tables::Table;
use crate::texts::{self, Plan};

/// What the rest of the plan does after what was done: its cost, or the part that it does not keep.
enum Rest {
    Costs(u64),
    Late(String),
}

/// The plan that was followed.
pub struct Followed {
    name: String,
    /// What it would have cost up to the step.
    planned: u64,
    /// Where it and what was done are not the same: the step, the parts planned, the parts changed.
    deviations: Vec<Difference>,
    rest: Rest,
}

impl Followed {
    /// Sets a plan of the whole job beside what was done; one at fault is a failure, with its line.
    pub fn read(carried: &Carried, plan: &Input) -> Result<Followed, Failure> {
        let job = &carried.whole_text;
        let reply = calls::judge(&job.bytes, &plan.bytes)?;
        if reply.text != 0 {
            return Err(faults::refusal(&reply, job, Some(plan)));
        }
        let whole = texts::plan(&plan.bytes);
        let part = |past: bool| whole.stops.iter().filter(|stop| (stop.step <= carried.step) == past).cloned().collect();
        let (before, after) = (Plan { cost: 0, stops: part(true) }, Plan { cost: 0, stops: part(false) });
        Ok(Followed {
            name: plan.name.clone(),
            planned: Costs::of(&carried.whole, &before, None).total(),
            deviations: differences(&before, &carried.done),
            rest: rest(carried, after)?,
        })
    }

    /// What its rest costs, where it keeps every life.
    pub fn remain(&self) -> Option<u64> {
        match self.rest {
            Rest::Costs(cost) => Some(cost),
            Rest::Late(_) => None,
        }
    }

    /// How the plan stands.
    pub fn sentences(&self, carried: &Carried) -> Vec<String> {
        let remain = match &self.rest {
            Rest::Costs(cost) => {
                Ok((*cost, carried.bounds().and_then(|bounds| bounds.words(*cost)).map_or(String::new(), |words| format!(", {words}"))))
            }
            Rest::Late(words) => Err(words),
        };
        match (self.deviations.is_empty(), remain) {
            (true, Ok((cost, standing))) => vec![format!("as planned so far: {} remain{standing}", grouped(cost))],
            (true, Err(words)) => vec![format!("as planned so far, but the rest of the plan will not do: {words}")],
            (false, remain) => {
                let count = counted(self.deviations.len() as u64, "step");
                let spent = format!("{} was planned up to here, and {} was spent", grouped(self.planned), grouped(carried.done.cost));
                let rest = match remain {
                    Ok((cost, standing)) => format!("the rest of the plan would still do: {} remain{standing}", grouped(cost)),
                    Err(words) => format!("the rest of the plan will not do any more: {words}"),
                };
                vec![format!("not as planned at {count}: {spent}"), rest]
            }
        }
    }

    /// The deviations, where there are some.
    pub fn table(&self, carried: &Carried) -> Option<Table> {
        let naming = &carried.naming;
        let said = |parts: &Option<Vec<u64>>| match parts {
            Some(parts) if parts.is_empty() => "a stop, none".to_string(),
            Some(parts) => naming.parts(parts.iter().copied()),
            None => "no stop".to_string(),
        };
        let row = |deviation: &Difference| {
            let (step, [planned, done]) = deviation;
            vec![naming.step(*step), said(planned), said(done), in_words(deviation, carried)]
        };
        let rows: Vec<_> = self.deviations.iter().map(row).collect();
        let title = "Where it was not as planned: parts changed".to_string();
        (!rows.is_empty()).then(|| Table { title, heads: vec!["step", "<planned", "<done", "<deviation"], rows })
    }

    /// The same for programs.
    pub fn json(&self, carried: &Carried) -> Value {
        let parts = |parts: &Option<Vec<u64>>| parts.clone().map_or(Value::Null, Value::numbers);
        let deviation = |deviation: &Difference| {
            let (step, [planned, done]) = deviation;
            Value::object([
                ("step", Value::Number(*step)),
                ("date", Value::maybe(carried.naming.date(*step))),
                ("planned", parts(planned)),
                ("done", parts(done)),
                ("words", Value::text(in_words(deviation, carried))),
            ])
        };
        Value::object([
            ("plan", Value::text(&self.name)),
            ("as_planned", Value::Bool(self.deviations.is_empty())),
            ("planned", Value::Number(self.planned)),
            ("remain", Value::number(self.remain())),
            ("words", Value::text(self.sentences(carried).join("; "))),
            ("deviations", Value::list(self.deviations.iter().map(deviation))),
        ])
    }
}

/// What a deviation is.
fn in_words((_, sides): &Difference, carried: &Carried) -> String {
    let [planned, done] = match sides {
        [Some(planned), Some(done)] => [planned, done],
        [Some(_), None] => return "not stopped".to_string(),
        _ => return "stopped besides".to_string(),
    };
    let only = |of: &[u64], not: &[u64]| of.iter().copied().filter(|part| !not.contains(part)).collect::<Vec<u64>>();
    let named = |words: &str, parts: Vec<u64>| match parts.is_empty() {
        true => None,
        false => Some(format!("{words} {}", carried.naming.parts(parts))),
    };
    let words: Vec<String> =
        [named("not changed:", only(planned, done)), named("changed besides:", only(done, planned))].into_iter().flatten().collect();
    words.join("; ")
}

/// What the rest of a plan does: judged with what was done, as one plan of the whole job.
fn rest(carried: &Carried, after: Plan) -> Result<Rest, Failure> {
    let Carried { whole, whole_text, done, naming, .. } = carried;
    let stops = done.stops.iter().cloned().chain(after.stops).collect();
    let plan = Plan { cost: 0, stops };
    let reply = calls::judge(&whole_text.bytes, plan.text().as_bytes())?;
    Ok(match (reply.value("part"), reply.value("due"), reply.value("cost")) {
        (Some(part), Some(due), _) => Rest::Late(Late::named(whole, &plan, part, due).words(whole, naming)),
        (_, _, cost) => Rest::Costs(cost.unwrap_or_default().saturating_sub(done.cost)),
    })
}
