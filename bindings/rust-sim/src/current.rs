//! The run of this thread, which the files and the notes of an engine belong to.
use crate::trace::Event;
use crate::world::{with, Shared, World};
use lcmux::simulation::{self, Hooks};
use std::cell::RefCell;

thread_local! {
    static CURRENT: RefCell<Option<Shared>> = const { RefCell::new(None) };
}

/// Calls with the state of this thread's run, if there is one.
pub(crate) fn current<T>(call: impl FnOnce(&mut World) -> T) -> Option<T> {
    let world = CURRENT.with_borrow(|it| it.clone());
    world.map(|world| with(&world, call))
}

/// Adds a line to the trace of this thread's run, with its virtual time. Outside of a run it does nothing.
///
/// ```
/// lcmux_sim::note("three files are missing");
/// ```
pub fn note(text: impl Into<String>) {
    let text = text.into();
    current(|world| world.record(None, Event::Note(text)));
}

/// Makes a run the one of this thread, until it is dropped.
pub(crate) struct Entered;

impl Entered {
    pub fn new(world: &Shared) -> Entered {
        CURRENT.with_borrow_mut(|it| {
            assert!(it.is_none(), "a run is within another one");
            *it = Some(Shared::clone(world));
        });
        let (of_calls, of_memory) = (Shared::clone(world), Shared::clone(world));
        simulation::set(Some(Hooks {
            yields: Box::new(move || with(&of_calls, World::yields)),
            refuses: Box::new(move || with(&of_memory, World::refuses_memory)),
        }));
        Entered
    }
}

impl Drop for Entered {
    fn drop(&mut self) {
        simulation::set(None);
        CURRENT.with_borrow_mut(|it| *it = None);
    }
}
