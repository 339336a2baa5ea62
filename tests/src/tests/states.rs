//! The pairs of state and cause.

use crate::executive::process::{Cause, State};

const STATES: [State; 5] =
    [State::Inactive, State::Ready, State::WaitsForMessage, State::WaitsForEvent, State::WaitsForSemaphore];

const CAUSES: [Cause; 7] = [
    Cause::Start,
    Cause::WaitForMessage,
    Cause::Message,
    Cause::WaitForEvent,
    Cause::Event,
    Cause::WaitForSemaphore,
    Cause::Handover,
];

#[test]
fn seven_of_35_pairs_lead_somewhere() {
    let pairs = STATES.iter().flat_map(|state| CAUSES.iter().map(|cause| state.after(*cause)));
    assert_eq!(pairs.clone().count(), 35);
    assert_eq!(pairs.flatten().count(), 7);
}

#[test]
fn each_wait_ends_with_its_own_cause() {
    for (wait, cause) in [
        (Cause::WaitForMessage, Cause::Message),
        (Cause::WaitForEvent, Cause::Event),
        (Cause::WaitForSemaphore, Cause::Handover),
    ] {
        let waiting = State::Ready.after(wait);
        assert_eq!(waiting.and_then(|state| state.after(cause)), Some(State::Ready));
    }
}
