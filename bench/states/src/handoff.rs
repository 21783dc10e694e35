//! Request 13: what a pair of plans can come to, by questions to the enumerator.

use model::{put_schedule, HandedOff, Planner, Plans, Reason, Verdict, SCHEDULE};

use crate::{ask, Answer, States};

impl Planner for States {
    fn handoff(&self, sending: &[u8], receiving: &[u8], schedule: &mut [u8]) -> HandedOff {
        schedule.fill(0);
        let plans = match judged(sending, receiving, schedule.len()) {
            Ok(plans) => plans,
            Err(reason) => return HandedOff::refused(reason),
        };
        let (case, bound) = (plans.case(), plans.bound());
        if let Answer::Yes(steps) = ask(&case, bound, |outcome| plans.is_stale(outcome)) {
            return HandedOff::answered(Verdict::Stale, put_schedule(schedule, &steps));
        }
        let finishes = matches!(ask(&case, bound, |_| true), Answer::Yes(_));
        HandedOff::answered(if finishes { Verdict::Safe } else { Verdict::Stuck }, 0)
    }
}

fn judged(sending: &[u8], receiving: &[u8], room: usize) -> Result<Plans, Reason> {
    let plans = Plans::read(sending, receiving)?;
    if room != SCHEDULE {
        return Err(Reason::ScheduleRoom);
    }
    Ok(plans)
}
