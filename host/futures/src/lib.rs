//! A stand-in for the crate `futures`: only what `result_coercion.rs` calls.
//!
//! The file names `futures::Stream`, `futures::StreamExt` (`map`, `enumerate`, `next`) and
//! `futures::stream::iter`; the resolver traits name `BoxFuture` and `BoxStream`. The source of
//! `futures` was not at hand: what stands here is its documented behaviour. Every stream of the
//! oracle is made from an iterator, so nothing is ever pending and the order is the iterator's.

use std::future::Future;
use std::pin::Pin;
use std::task::{Context, Poll, Waker};

/// A sequence whose items may have to be waited for.
pub trait Stream {
    type Item;

    fn poll_next(self: Pin<&mut Self>, cx: &mut Context<'_>) -> Poll<Option<Self::Item>>;

    /// Bounds on the number of items left, as for an iterator.
    fn size_hint(&self) -> (usize, Option<usize>) {
        (0, None)
    }
}

impl<P> Stream for Pin<P>
where
    P: std::ops::DerefMut + Unpin,
    P::Target: Stream,
{
    type Item = <P::Target as Stream>::Item;

    fn poll_next(self: Pin<&mut Self>, cx: &mut Context<'_>) -> Poll<Option<Self::Item>> {
        self.get_mut().as_mut().poll_next(cx)
    }

    fn size_hint(&self) -> (usize, Option<usize>) {
        (**self).size_hint()
    }
}

/// The three adapters that are used.
///
/// Unlike in `futures`, the stream underneath has to be `Unpin` (all of ours are), which spares
/// the adapters any unsafe projection.
pub trait StreamExt: Stream + Sized + Unpin {
    fn map<T, F: FnMut(Self::Item) -> T>(self, change: F) -> Map<Self, F> {
        Map { inner: self, change }
    }

    fn enumerate(self) -> Enumerate<Self> {
        Enumerate { inner: self, count: 0 }
    }

    fn next(&mut self) -> Next<'_, Self> {
        Next { stream: self }
    }
}

impl<S: Stream + Unpin> StreamExt for S {}

pub struct Map<S, F> {
    inner: S,
    change: F,
}

// The closure is never pinned, only called.
impl<S: Unpin, F> Unpin for Map<S, F> {}

impl<T, S: Stream + Unpin, F: FnMut(S::Item) -> T> Stream for Map<S, F> {
    type Item = T;

    fn poll_next(self: Pin<&mut Self>, cx: &mut Context<'_>) -> Poll<Option<T>> {
        let map = self.get_mut();
        match Pin::new(&mut map.inner).poll_next(cx) {
            Poll::Ready(item) => Poll::Ready(item.map(&mut map.change)),
            Poll::Pending => Poll::Pending,
        }
    }

    fn size_hint(&self) -> (usize, Option<usize>) {
        self.inner.size_hint()
    }
}

pub struct Enumerate<S> {
    inner: S,
    count: usize,
}

impl<S: Stream + Unpin> Stream for Enumerate<S> {
    type Item = (usize, S::Item);

    fn poll_next(self: Pin<&mut Self>, cx: &mut Context<'_>) -> Poll<Option<Self::Item>> {
        let numbered = self.get_mut();
        match Pin::new(&mut numbered.inner).poll_next(cx) {
            Poll::Ready(Some(item)) => {
                let index = numbered.count;
                numbered.count += 1;
                Poll::Ready(Some((index, item)))
            }
            Poll::Ready(None) => Poll::Ready(None),
            Poll::Pending => Poll::Pending,
        }
    }

    fn size_hint(&self) -> (usize, Option<usize>) {
        self.inner.size_hint()
    }
}

/// The future of a stream's next item.
pub struct Next<'s, S> {
    stream: &'s mut S,
}

impl<S: Stream + Unpin> Future for Next<'_, S> {
    type Output = Option<S::Item>;

    fn poll(self: Pin<&mut Self>, cx: &mut Context<'_>) -> Poll<Self::Output> {
        Pin::new(&mut *self.get_mut().stream).poll_next(cx)
    }
}

pub mod stream {
    use super::{Context, Pin, Poll, Stream};

    pub type BoxStream<'a, T> = Pin<Box<dyn Stream<Item = T> + Send + 'a>>;

    pub struct Iter<I> {
        items: I,
    }

    // The iterator is never pinned, only advanced.
    impl<I> Unpin for Iter<I> {}

    /// A stream that is always ready with an iterator's next item.
    pub fn iter<I: IntoIterator>(items: I) -> Iter<I::IntoIter> {
        Iter { items: items.into_iter() }
    }

    impl<I: Iterator> Stream for Iter<I> {
        type Item = I::Item;

        fn poll_next(self: Pin<&mut Self>, _: &mut Context<'_>) -> Poll<Option<I::Item>> {
            Poll::Ready(self.get_mut().items.next())
        }

        fn size_hint(&self) -> (usize, Option<usize>) {
            self.items.size_hint()
        }
    }
}

pub mod future {
    use super::{Context, Future, Pin, Poll, Waker};

    pub type BoxFuture<'a, T> = Pin<Box<dyn Future<Output = T> + Send + 'a>>;

    /// The output of a future that is ready at its first poll, as every run of the oracle is.
    pub fn now_or_never<F: Future>(future: F) -> Option<F::Output> {
        let mut context = Context::from_waker(Waker::noop());
        match std::pin::pin!(future).poll(&mut context) {
            Poll::Ready(output) => Some(output),
            Poll::Pending => None,
        }
    }
}
