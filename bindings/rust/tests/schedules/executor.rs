//! An executor on one thread. A choice selects the task that is polled next.
use crate::choices::Choices;
use std::cell::RefCell;
use std::future::Future;
use std::pin::Pin;
use std::rc::Rc;
use std::sync::atomic::{AtomicBool, Ordering};
use std::sync::Arc;
use std::task::{Context, Poll, Wake, Waker};

struct Flag(AtomicBool);

impl Wake for Flag {
    fn wake(self: Arc<Flag>) {
        self.0.store(true, Ordering::Relaxed);
    }
}

struct Task {
    name: String,
    future: Pin<Box<dyn Future<Output = ()>>>,
    woken: Arc<Flag>,
}

pub struct Executor {
    choices: Rc<RefCell<Choices>>,
    tasks: Vec<Task>,
}

impl Executor {
    pub fn new(choices: &Rc<RefCell<Choices>>) -> Executor {
        Executor {
            choices: Rc::clone(choices),
            tasks: Vec::new(),
        }
    }

    pub fn spawn(&mut self, name: String, future: impl Future<Output = ()> + 'static) {
        self.tasks.push(Task {
            name,
            future: Box::pin(future),
            woken: Arc::new(Flag(AtomicBool::new(true))),
        });
    }

    /// Polls until all tasks complete. Panics if tasks are left and none was woken.
    pub fn run(self, most: usize) {
        self.run_until(most, || false);
    }

    /// Polls the same way, and stops once the condition holds.
    pub fn run_until(mut self, most: usize, is_over: impl Fn() -> bool) {
        for _ in 0..most {
            if self.tasks.is_empty() || is_over() {
                return;
            }
            let at = self.next();
            let task = &mut self.tasks[at];
            task.woken.0.store(false, Ordering::Relaxed);
            let waker = Waker::from(Arc::clone(&task.woken));
            let mut context = Context::from_waker(&waker);
            if let Poll::Ready(()) = task.future.as_mut().poll(&mut context) {
                drop(self.tasks.swap_remove(at));
            }
        }
        panic!("not done after {most} polls: {}", self.names());
    }

    // A task that was woken; occasionally another one.
    fn next(&mut self) -> usize {
        let mut choices = self.choices.borrow_mut();
        let is_woken = |task: &Task| task.woken.0.load(Ordering::Relaxed);
        let count = self.tasks.iter().filter(|task| is_woken(task)).count();
        if count == 0 {
            panic!("asleep: {}", self.names());
        }
        if choices.one_in(64) {
            return choices.below(self.tasks.len() as u32) as usize;
        }
        let nth = choices.below(count as u32) as usize;
        let mut woken = (0..self.tasks.len()).filter(|at| is_woken(&self.tasks[*at]));
        woken.nth(nth).unwrap()
    }

    fn names(&self) -> String {
        let names: Vec<_> = self.tasks.iter().map(|task| task.name.as_str()).collect();
        names.join(", ")
    }
}

/// Yields to other tasks.
pub struct Yield(pub bool);

impl Future for Yield {
    type Output = ();

    fn poll(mut self: Pin<&mut Self>, cx: &mut Context<'_>) -> Poll<()> {
        if self.0 {
            return Poll::Ready(());
        }
        self.0 = true;
        cx.waker().wake_by_ref();
        Poll::Pending
    }
}
