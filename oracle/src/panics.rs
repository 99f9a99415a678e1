//! Panics of the original, caught and named by their place and message; nothing is printed of those.
use std::cell::{Cell, RefCell};
use std::panic::{catch_unwind, set_hook, take_hook, AssertUnwindSafe};
use std::sync::Once;

thread_local! {
    static LAST: RefCell<String> = RefCell::new(String::new());
    static CATCHING: Cell<bool> = Cell::new(false);
}
static HOOKED: Once = Once::new();

/// Notes each panic as `file.rs:line message`; those that nobody catches here are still printed.
fn hook() {
    let loud = take_hook();
    set_hook(Box::new(move |info| {
        let place = info.location().map(|l| format!("{}:{}", l.file().rsplit('/').next().unwrap(), l.line()));
        let payload = info.payload();
        let text = payload.downcast_ref::<String>().map(String::as_str).or_else(|| payload.downcast_ref::<&str>().copied());
        let note = format!("{} {}", place.unwrap_or_default(), text.unwrap_or_default().replace('\n', " "));
        LAST.with(|last| *last.borrow_mut() = note);
        if !CATCHING.with(Cell::get) {
            loud(info)
        }
    }));
}

/// What the work gives, or where and why it panicked.
pub fn caught<T>(work: impl FnOnce() -> T) -> Result<T, String> {
    HOOKED.call_once(hook);
    let before = CATCHING.with(|catching| catching.replace(true));
    let result = catch_unwind(AssertUnwindSafe(work));
    CATCHING.with(|catching| catching.set(before));
    result.map_err(|_| LAST.with(|last| last.borrow().clone()))
}
