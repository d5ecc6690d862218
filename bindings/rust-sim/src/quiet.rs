//! Panics of a test that are caught: they are not printed, and their text has the place.
use std::cell::RefCell;
use std::panic::{self, AssertUnwindSafe};
use std::sync::Once;

thread_local! {
    /// The text of the first panic, while this thread's panics are caught.
    static TEXT: RefCell<Option<Option<String>>> = const { RefCell::new(None) };
}

/// Calls, and returns the text of the first panic, if there was one: what a panic leads to in other tasks is no cause.
pub(crate) fn caught<T>(call: impl FnOnce() -> T) -> Result<T, String> {
    install();
    let before = TEXT.with_borrow_mut(|text| text.replace(None));
    let called = panic::catch_unwind(AssertUnwindSafe(call));
    let text = TEXT.with_borrow_mut(|text| std::mem::replace(text, before));
    called.map_err(|_| {
        text.flatten()
            .unwrap_or_else(|| "a panic without a text".into())
    })
}

fn install() {
    static INSTALLED: Once = Once::new();
    INSTALLED.call_once(|| {
        let print = panic::take_hook();
        panic::set_hook(Box::new(move |info| {
            let is_caught = TEXT.with_borrow_mut(|text| match text {
                Some(text) => {
                    text.get_or_insert_with(|| info.to_string());
                    true
                }
                None => false,
            });
            if !is_caught {
                print(info);
            }
        }));
    });
}
