//! A simulated run: both sides on one runtime, with virtual time.
use crate::choices::{Choices, Random};
use crate::current::Entered;
use crate::faults::{Faults, Plan, Side};
use crate::link::Stream;
use crate::trace::{Event, Trace};
use crate::world::{with, Shared, World};
use std::fmt::{self, Formatter};
use std::future::{poll_fn, Future};
use std::ops::RangeInclusive;
use std::pin::{pin, Pin};
use std::sync::atomic::{AtomicBool, Ordering};
use std::sync::{Arc, Mutex};
use std::task::{Context, Poll, Wake, Waker};
use std::time::Duration;
use tokio::runtime::{Builder, Runtime};
use tokio::time::sleep;

/// What a crash calls.
type OnCrash = Box<dyn FnMut(Side)>;

/// A simulation by a seed, which a test runs an engine in. [`Explorer`](crate::Explorer) makes one for each seed.
///
/// All choices of a simulation are drawn from its seed: the inputs that the test [draws](Sim::draw), the link and the
/// faults of each [run](Sim::run), the order of both sides, and the calls that yield.
pub struct Sim {
    seed: u64,
    faults: Faults,
    limit: Duration,
    choices: Choices,
    noise: Random,
    on_crash: Option<OnCrash>,
    report: Report,
}

/// What a simulation was, in words, for the report of a failure.
#[derive(Clone, Debug, Default)]
pub(crate) struct Report {
    pub lines: Vec<String>,
    pub traces: Vec<Trace>,
}

/// The result of a run.
#[derive(Debug)]
#[non_exhaustive]
pub struct Run<A, B> {
    /// The output of side A; `None` if it crashed.
    pub a: Option<A>,
    /// The output of side B; `None` if it crashed.
    pub b: Option<B>,
    /// What happened.
    pub trace: Trace,
}

impl<A, B> Run<A, B> {
    /// Returns whether no fault struck. Timing is no fault.
    pub fn is_faultless(&self) -> bool {
        self.trace.faults().next().is_none()
    }
}

impl Sim {
    /// Makes a simulation by a seed.
    pub fn new(seed: u64, faults: Faults) -> Sim {
        Sim::of(seed, Choices::of_seed(seed), faults)
    }

    pub(crate) fn of(seed: u64, choices: Choices, faults: Faults) -> Sim {
        Sim {
            seed,
            faults,
            limit: Duration::from_secs(3_600),
            choices,
            // Another sequence than that of the choices.
            noise: Random::new(seed ^ 0x5851_f42d_4c95_7f2d),
            on_crash: None,
            report: Report::default(),
        }
    }

    /// Returns the seed.
    pub fn seed(&self) -> u64 {
        self.seed
    }

    /// Draws an input of the test, such as the number of its files: often the first or the last number of the range. The
    /// report of a failure names it, and it shrinks towards the first one.
    ///
    /// # Panics
    ///
    /// If the range is empty.
    pub fn draw(&mut self, name: &str, range: RangeInclusive<u64>) -> u64 {
        let (first, last) = range.into_inner();
        assert!(first <= last, "{name}: no number is in the range");
        let drawn = first + self.choices.edgy((last - first).saturating_add(1));
        self.report.lines.push(format!("{name} = {drawn}"));
        drawn
    }

    /// Sets what may happen in the runs from here on.
    pub fn set_faults(&mut self, faults: Faults) {
        self.faults = faults;
    }

    /// Sets the virtual time within which both sides must end, an hour without a call.
    pub fn set_limit(&mut self, limit: Duration) {
        self.limit = limit;
    }

    /// Calls a closure when a side crashes, before its future is dropped. What the drop does, such as the removal of a
    /// temporary file, no crashed program does: the closure can save the files as they are.
    pub fn on_crash(&mut self, call: impl FnMut(Side) + 'static) {
        self.on_crash = Some(Box::new(call));
    }

    /// Runs both sides of an engine until both end or crash, over a link that is drawn from the seed. Each function makes the
    /// future of one side from its end of the link; its tasks may be spawned by `tokio::spawn`.
    ///
    /// A side whose future is ready is a program that has ended: what its session has not written is lost, and so are its
    /// other tasks once the run is over.
    ///
    /// # Panics
    ///
    /// If a side panics, and if one has not ended within the [limit](Sim::set_limit) of virtual time. Within another run.
    ///
    /// # Examples
    ///
    /// ```
    /// use lcmux_sim::{Faults, Side, Sim};
    /// use tokio::io::{AsyncReadExt, AsyncWriteExt};
    ///
    /// let run = Sim::new(7, Faults::timing()).run(
    ///     |mut stream| async move { stream.write_all(b"hello").await },
    ///     |mut stream| async move {
    ///         let mut text = String::new();
    ///         stream.read_to_string(&mut text).await.map(|_| text)
    ///     },
    /// );
    /// assert_eq!(run.b.unwrap().unwrap(), "hello");
    /// assert_eq!(run.trace.written(Side::A), b"hello");
    /// ```
    pub fn run<A, B>(
        &mut self,
        a: impl FnOnce(Stream) -> A,
        b: impl FnOnce(Stream) -> B,
    ) -> Run<A::Output, B::Output>
    where
        A: Future,
        B: Future,
    {
        let plan = Plan::draw(&mut self.choices, &self.faults);
        self.run_plan(plan, a, b)
    }

    fn run_plan<A, B>(
        &mut self,
        plan: Plan,
        a: impl FnOnce(Stream) -> A,
        b: impl FnOnce(Stream) -> B,
    ) -> Run<A::Output, B::Output>
    where
        A: Future,
        B: Future,
    {
        self.report.lines.push(plan.to_string());
        let noise = Random::new(self.noise.next());
        let runtime = runtime(self.noise.next());
        let (limit, on_crash) = (self.limit, &mut self.on_crash);
        let guard = runtime.enter();
        let world: Shared = Arc::new(Mutex::new(World::new(plan, noise)));
        let mut traced = Traced(&world, &mut self.report);
        let [one, other] = Side::ALL.map(|side| Stream::new(side, &world));
        drop(guard);
        let entered = Entered::new(&world);
        let (a, b) = runtime.block_on(async {
            let (mut a, mut b) = (Root::new(Side::A, a(one)), Root::new(Side::B, b(other)));
            run_roots(&world, [&mut a, &mut b], limit, on_crash).await;
            (a.output, b.output)
        });
        let trace = traced.take();
        drop(runtime); // and with it all tasks that are left
        drop(entered);
        Run { a, b, trace }
    }

    pub(crate) fn into_parts(self) -> (Report, Vec<u64>) {
        (self.report, self.choices.made())
    }
}

impl fmt::Debug for Sim {
    fn fmt(&self, f: &mut Formatter<'_>) -> fmt::Result {
        f.debug_struct("Sim")
            .field("seed", &self.seed)
            .finish_non_exhaustive()
    }
}

/// Keeps the trace of a run, also of one that panics.
struct Traced<'a>(&'a Shared, &'a mut Report);

impl Traced<'_> {
    fn take(&mut self) -> Trace {
        let trace = with(self.0, World::take_trace);
        self.1.traces.push(trace.clone());
        trace
    }
}

impl Drop for Traced<'_> {
    fn drop(&mut self) {
        if std::thread::panicking() {
            self.take();
        }
    }
}

fn runtime(_seed: u64) -> Runtime {
    let mut builder = Builder::new_current_thread();
    builder.enable_time().start_paused(true);
    #[cfg(tokio_unstable)]
    builder.rng_seed(tokio::runtime::RngSeed::from_bytes(&_seed.to_le_bytes()));
    builder
        .build()
        .expect("a runtime without I/O needs nothing of the system")
}

/// The waker of a side's future.
struct Flag {
    is_woken: AtomicBool,
    outer: Waker,
}

impl Wake for Flag {
    fn wake(self: Arc<Flag>) {
        self.is_woken.store(true, Ordering::Relaxed);
        self.outer.wake_by_ref();
    }
}

/// The future of a side.
struct Root<F: Future> {
    side: Side,
    future: Option<Pin<Box<F>>>,
    output: Option<F::Output>,
    flag: Option<Arc<Flag>>,
}

/// A side, whatever its output is.
trait AnyRoot {
    fn is_over(&self) -> bool;
    fn side(&self) -> Side;
    fn poll(&mut self, cx: &Context<'_>, world: &Shared, on_crash: &mut Option<OnCrash>);
}

impl<F: Future> Root<F> {
    fn new(side: Side, future: F) -> Root<F> {
        Root {
            side,
            future: Some(Box::pin(future)),
            output: None,
            flag: None,
        }
    }

    // The flag of this task. It is woken at first.
    fn flag(&mut self, cx: &Context<'_>) -> Arc<Flag> {
        let flag = self.flag.get_or_insert_with(|| {
            Arc::new(Flag {
                is_woken: AtomicBool::new(true),
                outer: cx.waker().clone(),
            })
        });
        Arc::clone(flag)
    }
}

impl<F: Future> AnyRoot for Root<F> {
    fn is_over(&self) -> bool {
        self.future.is_none()
    }

    fn side(&self) -> Side {
        self.side
    }

    fn poll(&mut self, cx: &Context<'_>, world: &Shared, on_crash: &mut Option<OnCrash>) {
        let flag = self.flag(cx);
        let Some(future) = &mut self.future else {
            return;
        };
        let side = self.side;
        if with(world, |world| world.is_crashed(side)) {
            on_crash.iter_mut().for_each(|call| call(side));
            self.future = None;
            with(world, |world| world.record(side, Event::Crashed));
            return;
        }
        if !flag.is_woken.swap(false, Ordering::Relaxed) {
            return;
        }
        let waker = Waker::from(flag);
        if with(world, World::yields) {
            return waker.wake();
        }
        with(world, |world| world.register_root(side, &waker));
        if let Poll::Ready(output) = future.as_mut().poll(&mut Context::from_waker(&waker)) {
            self.future = None;
            self.output = Some(output);
            with(world, |world| {
                world.record(side, Event::Ended);
                world.exit(side);
            });
        }
    }
}

// Polls both sides, in an order by the seed, until both are over.
async fn run_roots(
    world: &Shared,
    mut roots: [&mut dyn AnyRoot; 2],
    limit: Duration,
    on_crash: &mut Option<OnCrash>,
) {
    let mut limit_is_over = pin!(sleep(limit));
    poll_fn(|cx| {
        let first = with(world, |world| world.below(2)) as usize;
        for at in [first, 1 - first] {
            roots[at].poll(cx, world, on_crash);
        }
        let mut left = roots.iter().filter(|root| !root.is_over());
        match left.next() {
            None => Poll::Ready(()),
            Some(root) => limit_is_over
                .as_mut()
                .poll(cx)
                .map(|()| panic!("side {} has not ended within {limit:?}", root.side())),
        }
    })
    .await;
}

#[cfg(test)]
mod tests;
