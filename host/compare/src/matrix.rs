//! Actions and events: which go together, and the status steps.

use crate::lists::{
    statuses, ACTIONS_WITHOUT_LINE, FULL_ACTIONS, MATRIX, REPEATING_ACTIONS, STEPS,
};

/// The events that go with an action; none means no event.
pub fn events_of(action: &str) -> Vec<Option<&'static str>> {
    match MATRIX.iter().find(|row| row.0 == action) {
        None => Vec::new(),
        Some((_, [])) => vec![None],
        Some((_, events)) => events.iter().copied().map(Some).collect(),
    }
}

/// Whether action and event, or its absence, are a pair of the matrix.
pub fn is_pair(action: &str, event: Option<&str>) -> bool {
    events_of(action).contains(&event)
}

/// Whether a message with this action carries the terms of the swap.
pub fn is_full(action: &str) -> bool {
    FULL_ACTIONS.contains(&action)
}

/// Whether an action repeats the stored execution time.
pub fn repeats_execution(action: &str) -> bool {
    REPEATING_ACTIONS.contains(&action)
}

/// Whether an accepted message with this action can write a line. Whether it
/// does is a matter of its terms too (`terms::line_is_due`).
pub fn can_write_line(action: &str) -> bool {
    !ACTIONS_WITHOUT_LINE.contains(&action)
}

/// The status after an action, where the status before admits it.
pub fn status_after(action: &str, status: u8) -> Option<u8> {
    let step = STEPS
        .iter()
        .find(|step| (step.0, step.1) == (action, status));
    step.map(|step| step.2)
}

/// The statuses that admit an action.
pub fn admitting(action: &str) -> Vec<u8> {
    statuses()
        .filter(|&status| status_after(action, status).is_some())
        .collect()
}
