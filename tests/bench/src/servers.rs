//! The two servers under one name: the library and the second implementation.

use runs::sides::{self, Answer, Event};
use second::registration::Registration;
use second::service::{Service, State};
use share_library::Refusal;

/// A server that is measured.
pub trait Server: Sized {
    /// The name in messages.
    const NAME: &'static str;

    /// A fresh service of a group, or the number of the refusal.
    fn of(registration: &Registration) -> Result<Self, u64>;

    /// The changing part of the record.
    fn state(&self) -> share_library::State;

    /// Puts another changing part into the record.
    fn set_state(&mut self, state: &State);

    /// Makes a call on lent lists.
    fn make(&mut self, event: Event, journal: &mut [u64], result: &mut [u64]) -> Answer;
}

impl Server for share_library::Service {
    const NAME: &'static str = "library";

    fn of(registration: &Registration) -> Result<Self, u64> {
        share_library::Service::fresh(&sides::lent_registration(registration)).map_err(Refusal::number)
    }

    fn state(&self) -> share_library::State {
        self.state
    }

    fn set_state(&mut self, state: &State) {
        self.state = sides::lent_state(state);
    }

    #[inline(never)]
    fn make(&mut self, event: Event, journal: &mut [u64], result: &mut [u64]) -> Answer {
        sides::through_library(self, journal, event, result)
    }
}

impl Server for Service {
    const NAME: &'static str = "second";

    fn of(registration: &Registration) -> Result<Self, u64> {
        Service::fresh(registration)
    }

    fn state(&self) -> share_library::State {
        sides::lent_state(&self.state)
    }

    fn set_state(&mut self, state: &State) {
        self.state = *state;
    }

    #[inline(never)]
    fn make(&mut self, event: Event, journal: &mut [u64], result: &mut [u64]) -> Answer {
        sides::through_second(self, journal, event, result)
    }
}
