//! The future of a call.
use crate::CallError;
use pin_project_lite::pin_project;
use resil::{NoPermit, OwnedPermit};
use std::future::Future;
use std::pin::Pin;
use std::task::{Context, Poll, ready};

pin_project! {
    /// A call's answer, or why there is none.
    ///
    /// It holds the permit from `call` on, polled or not, and gives it back before it is ready, or when it is dropped.
    #[derive(Debug)]
    #[must_use = "a future that isn't polled has no answer, and holds its permit"]
    pub struct ResponseFuture<F> {
        #[pin]
        state: State<F>,
    }
}

pin_project! {
    #[project = Projected]
    #[derive(Debug)]
    enum State<F> {
        Refused {
            refused: NoPermit,
        },
        // Fields are dropped in this order, so that the call is completely over when its permit is free.
        Running {
            #[pin]
            call: F,
            permit: OwnedPermit,
        },
        Over,
    }
}

impl<F> ResponseFuture<F> {
    #[inline]
    pub(crate) fn running(call: F, permit: OwnedPermit) -> ResponseFuture<F> {
        ResponseFuture {
            state: State::Running { call, permit },
        }
    }

    #[inline]
    pub(crate) fn refused(refused: NoPermit) -> ResponseFuture<F> {
        ResponseFuture {
            state: State::Refused { refused },
        }
    }
}

impl<F, T, E> Future for ResponseFuture<F>
where
    F: Future<Output = Result<T, E>>,
{
    type Output = Result<T, CallError<E>>;

    /// # Panics
    ///
    /// If it is polled again after it was ready.
    #[inline]
    fn poll(self: Pin<&mut Self>, context: &mut Context<'_>) -> Poll<Self::Output> {
        let mut state = self.project().state;
        let answer = match state.as_mut().project() {
            Projected::Refused { refused } => Err((*refused).into()),
            Projected::Running { call, .. } => {
                ready!(call.poll(context)).map_err(CallError::Failed)
            }
            Projected::Over => panic!("a call's future was polled after completion"),
        };
        state.set(State::Over);
        Poll::Ready(answer)
    }
}
