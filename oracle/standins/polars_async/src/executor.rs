//! Tasks, run on one thread.
use std::cell::{Cell, RefCell};
use std::future::Future;
use std::marker::PhantomData;
use std::pin::Pin;
use std::rc::Rc;
use std::task::{Context, Poll, Waker};

thread_local! {
    /// Counts what moved, to see a deadlock.
    static PROGRESS: Cell<u64> = const { Cell::new(0) };
    /// The state of the random order; 0 is off.
    static RANDOM: Cell<u64> = const { Cell::new(0) };
}

/// Notes that something moved.
pub(crate) fn progress() {
    PROGRESS.set(PROGRESS.get() + 1);
}

/// Turns random order on by a seed other than 0.
pub fn shuffle(seed: u64) {
    RANDOM.set(seed);
}

/// A random number below n, or 0 where random order is off.
fn random(n: usize) -> usize {
    let mut x = RANDOM.get();
    if x == 0 {
        return 0;
    }
    x ^= x << 13;
    x ^= x >> 7;
    x ^= x << 17;
    RANDOM.set(x);
    (x >> 20) as usize % n
}

/// Gives way to the other tasks a few times, where random order is on.
pub(crate) async fn maybe_yield() {
    let mut left = random(3);
    std::future::poll_fn(|_| {
        if left == 0 {
            return Poll::Ready(());
        }
        left -= 1;
        progress();
        Poll::Pending
    })
    .await
}

/// How urgent a task is; with one thread it is not seen.
#[derive(Clone, Copy, Debug)]
pub enum TaskPriority {
    Low,
    High,
}

/// A task's result, once it has one.
pub struct JoinHandle<T>(Rc<RefCell<Option<T>>>);

impl<T> JoinHandle<T> {
    /// The result of a task that has run to its end.
    pub fn take(self) -> T {
        self.0.take().expect("task not done")
    }
}

type Task = Pin<Box<dyn Future<Output = ()>>>;

/// The tasks of one phase, which may borrow from what outlives it.
pub struct TaskScope<'scope, 'env: 'scope> {
    tasks: RefCell<Vec<Task>>,
    _scope: PhantomData<&'scope mut &'scope ()>,
    _env: PhantomData<&'env mut &'env ()>,
}

impl<'scope, 'env> TaskScope<'scope, 'env> {
    /// Adds a task.
    pub fn spawn_task<F>(&'scope self, _priority: TaskPriority, fut: F) -> JoinHandle<F::Output>
    where
        F: Future + 'scope,
        F::Output: 'static,
    {
        let slot = Rc::new(RefCell::new(None));
        let out = slot.clone();
        let task: Pin<Box<dyn Future<Output = ()> + 'scope>> = Box::pin(async move {
            let result = fut.await;
            *out.borrow_mut() = Some(result);
        });
        // SAFETY: task_scope runs every task to its end and drops it before it returns, within 'scope; on a panic the
        // tasks are dropped with the scope.
        let task = unsafe { std::mem::transmute::<Pin<Box<dyn Future<Output = ()> + 'scope>>, Task>(task) };
        self.tasks.borrow_mut().push(task);
        JoinHandle(slot)
    }
}

/// Puts the tasks into a random order, where that is on.
fn mix(tasks: &mut [Task]) {
    if RANDOM.get() == 0 {
        return;
    }
    for i in (1..tasks.len()).rev() {
        tasks.swap(i, random(i + 1));
    }
}

/// Runs all tasks that `f` adds to their end.
pub fn task_scope<'env, F, T>(f: F) -> T
where
    F: for<'scope> FnOnce(&'scope TaskScope<'scope, 'env>) -> T,
{
    let scope = TaskScope { tasks: RefCell::default(), _scope: PhantomData, _env: PhantomData };
    let out = f(&scope);
    let mut tasks = scope.tasks.take();
    let mut cx = Context::from_waker(Waker::noop());
    while !tasks.is_empty() {
        mix(&mut tasks);
        let before = PROGRESS.get();
        let count = tasks.len();
        tasks.retain_mut(|task| task.as_mut().poll(&mut cx).is_pending());
        assert!(tasks.len() < count || PROGRESS.get() > before, "deadlock: {count} tasks wait");
    }
    out
}
