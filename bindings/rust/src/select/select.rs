use super::alternative::Alternative;
use super::arm::Arm;
use super::arms::Arms;
use crate::error::RunError;
use crate::inner::Inner;
use crate::steps::Steps;
use crate::stopped::Stopped;
use crate::waiting::Until;
use std::fmt;
use std::sync::Arc;
use std::time::Duration;

/// Alternatives, each a whole transaction. The first that need not wait commits, in the order in which they were added.
///
/// The macro [`select!`](crate::select!) is a shorter form for the alternatives of a function.
///
/// ```
/// use yalwythen::Domain;
///
/// let domain = Domain::new();
/// let ((urgent, urgents), (other, others)) = (domain.queue::<&str>(), domain.queue::<u32>());
/// let next = || {
///     domain
///         .select()
///         .on(urgents.read(), |word| format!("urgent: {word}"))
///         .on(others.read(), |number| format!("number {number}"))
///         .or(|| "nothing".to_owned())
/// };
/// other.send(7)?;
/// urgent.send("fire")?;
/// assert_eq!([next()?, next()?, next()?], ["urgent: fire", "number 7", "nothing"]);
/// # Ok::<(), Box<dyn std::error::Error>>(())
/// ```
#[must_use = "a selection does nothing until `wait`, `wait_timeout` or `or` is called"]
pub struct Select<'a, R> {
    inner: Option<Arc<Inner>>,
    arms: Vec<Box<dyn Arm<R> + 'a>>,
    has_other_domain: bool,
}

impl<'a, R> Select<'a, R> {
    pub(crate) fn of(inner: Option<Arc<Inner>>) -> Select<'a, R> {
        Select { inner, arms: Vec::new(), has_other_domain: false }
    }

    /// A selection in the domain of its first step.
    #[doc(hidden)]
    pub fn unbound() -> Select<'a, R> {
        Select::of(None)
    }

    /// Adds an alternative: steps, and a closure that gets their replies if they commit. The closure runs without the
    /// domain's lock.
    pub fn on<S: Steps + 'a>(mut self, steps: S, then: impl FnOnce(S::Replies) -> R + 'a) -> Select<'a, R>
    where
        S::Replies: 'a,
    {
        if self.inner.is_none() {
            self.inner = steps.inner().cloned();
        }
        self.has_other_domain |= self.inner.as_ref().is_none_or(|inner| !steps.is_of(inner));
        self.arms.push(Box::new(Alternative::new(steps, then)));
        self
    }

    /// Runs the first alternative that need not wait, and returns what its closure returns.
    ///
    /// Fails if a step is of another domain or if allocation fails. Blocks until an alternative need not wait.
    ///
    /// # Panics
    ///
    /// If there is no alternative.
    pub fn wait(self) -> Result<R, RunError> {
        assert!(!self.arms.is_empty(), "a selection without alternatives would wait for ever");
        Ok(self.run(Until::Never)?.unwrap_or_else(|| unreachable!("it waits for ever")))
    }

    /// Runs the first alternative that need not wait, and returns what its closure returns, or `None` if the time is
    /// over.
    ///
    /// Fails if a step is of another domain or if allocation fails. Blocks until an alternative need not wait, at most
    /// for this time.
    pub fn wait_timeout(self, timeout: Duration) -> Result<Option<R>, RunError> {
        self.run(Until::after(timeout))
    }

    /// Runs the first alternative that need not wait, or, if all must wait, the default. Returns what the closure
    /// returns.
    ///
    /// Fails if a step is of another domain or if allocation fails. Blocks only while other threads have the domain's
    /// lock.
    pub fn or(self, default: impl FnOnce() -> R) -> Result<R, RunError> {
        Ok(self.run(Until::Now)?.unwrap_or_else(default))
    }

    /// What `or` does, with `None` in place of the default.
    #[doc(hidden)]
    pub fn now(self) -> Result<Option<R>, RunError> {
        self.run(Until::Now)
    }

    fn run(mut self, until: Until) -> Result<Option<R>, RunError> {
        if self.has_other_domain {
            return Err(RunError::OtherDomain);
        }
        let Some(inner) = self.inner.clone() else { return Ok(None) };
        let mut attempt = Arms::new(&mut self.arms);
        match inner.run(&mut attempt, until) {
            Ok(number) => Ok(Some(self.arms.swap_remove(number).finish())),
            Err(Stopped::Retry(_)) => Ok(None),
            Err(Stopped::Failed(failure)) => Err(RunError::Failed(failure)),
        }
    }
}

impl<R> fmt::Debug for Select<'_, R> {
    fn fmt(&self, f: &mut fmt::Formatter<'_>) -> fmt::Result {
        f.debug_struct("Select").field("alternatives", &self.arms.len()).finish_non_exhaustive()
    }
}
