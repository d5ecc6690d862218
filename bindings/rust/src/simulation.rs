//! The hooks by which a simulator, the crate `lcmux-sim`, decides what else is left to chance: for the calls of the thread
//! that sets them.
use std::cell::RefCell;

/// A decision of the simulator.
pub type Hook = Box<dyn FnMut() -> bool>;

/// The hooks of a thread.
pub struct Hooks {
    /// Whether a call of a handle yields once, although it could proceed.
    pub yields: Hook,
    /// Whether the next allocation of the library is refused.
    pub refuses: Hook,
}

thread_local! {
    static HOOKS: RefCell<Option<Hooks>> = const { RefCell::new(None) };
}

/// Sets the hooks of this thread, or removes them.
pub fn set(hooks: Option<Hooks>) {
    HOOKS.with(|it| *it.borrow_mut() = hooks);
}

// A hook decides nothing within another one, and nothing once the thread ends.
fn decide(hook: impl FnOnce(&mut Hooks) -> bool) -> bool {
    let decided = HOOKS.try_with(|it| {
        let mut hooks = it.try_borrow_mut().ok()?;
        hooks.as_mut().map(hook)
    });
    decided.ok().flatten().unwrap_or(false)
}

pub(crate) fn yields() -> bool {
    decide(|hooks| (hooks.yields)())
}

pub(crate) fn refuses() -> bool {
    decide(|hooks| (hooks.refuses)())
}
