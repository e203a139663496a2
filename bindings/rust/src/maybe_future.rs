use std::future::{Future, IntoFuture};
use std::pin::Pin;
use std::task::{Context, Poll};

/// An action that is done by `wait`, or by `.await`.
///
/// Here each action is done at once by either: nothing is ever waited for in real time.
#[must_use = "must `.wait()` or `.await` to perform the action"]
pub trait MaybeFuture: IntoFuture<IntoFuture: Send> + Send {
    /// Does the action, and gives its result.
    fn wait(self) -> Self::Output;

    /// The same action with a function of its result.
    fn map<T: FnOnce(Self::Output) -> R + Unpin + Send, R>(
        self,
        f: T,
    ) -> impl MaybeFuture<Output = R>
    where
        Self: Sized,
    {
        Action(move || f(self.wait()))
    }

    /// The same action with a function of the value that it gives where it succeeds.
    fn map_ok<C, T, U, E>(self, c: C) -> impl MaybeFuture<Output = Result<U, E>>
    where
        Self: MaybeFuture<Output = Result<T, E>> + Sized,
        C: FnOnce(T) -> U + Unpin + Send,
    {
        self.map(|result| result.map(c))
    }

    /// The same action with a function of its error.
    fn map_err<C, T, E, F>(self, c: C) -> impl MaybeFuture<Output = Result<T, F>>
    where
        Self: MaybeFuture<Output = Result<T, E>> + Sized,
        C: FnOnce(E) -> F + Unpin + Send,
    {
        self.map(|result| result.map_err(c))
    }
}

/// A function that is called when the action is waited for.
pub(crate) struct Action<F>(pub(crate) F);

impl<F: FnOnce() -> R, R> IntoFuture for Action<F> {
    type Output = R;
    type IntoFuture = ActionFuture<F>;

    fn into_future(self) -> ActionFuture<F> {
        ActionFuture(Some(self.0))
    }
}

impl<F: FnOnce() -> R + Send, R> MaybeFuture for Action<F> {
    fn wait(self) -> R {
        (self.0)()
    }
}

/// A future that calls its function when it is polled first, and is ready then.
pub(crate) struct ActionFuture<F>(Option<F>);

impl<F> Unpin for ActionFuture<F> {}

impl<F: FnOnce() -> R, R> Future for ActionFuture<F> {
    type Output = R;

    fn poll(self: Pin<&mut Self>, _: &mut Context<'_>) -> Poll<R> {
        let action = self.get_mut().0.take();
        Poll::Ready(action.expect("a future is polled once it is ready")())
    }
}
