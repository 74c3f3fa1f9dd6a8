//! Channels between tasks.

/// A queue of bounded length with one end to send and one to receive; all channels are made of it.
mod queue {
    use std::cell::RefCell;
    use std::collections::VecDeque;
    use std::future::poll_fn;
    use std::rc::Rc;
    use std::task::Poll;

    use crate::executor::{maybe_yield, progress};

    /// What both ends share.
    struct Inner<T> {
        items: VecDeque<T>,
        room: usize,
        send_open: bool,
        recv_open: bool,
    }

    /// The end to send.
    pub(crate) struct SendEnd<T>(Rc<RefCell<Inner<T>>>);

    /// The end to receive.
    pub(crate) struct RecvEnd<T>(Rc<RefCell<Inner<T>>>);

    /// A queue for as many items.
    pub(crate) fn queue<T>(room: usize) -> (SendEnd<T>, RecvEnd<T>) {
        let inner = Inner { items: VecDeque::new(), room, send_open: true, recv_open: true };
        let inner = Rc::new(RefCell::new(inner));
        (SendEnd(inner.clone()), RecvEnd(inner))
    }

    impl<T> SendEnd<T> {
        /// Whether nobody will receive any more.
        pub fn closed(&self) -> bool {
            !self.0.borrow().recv_open
        }

        /// Whether an item can be sent now.
        pub fn has_room(&self) -> bool {
            let inner = self.0.borrow();
            inner.recv_open && inner.items.len() < inner.room
        }

        /// Adds an item.
        pub fn push(&self, item: T) {
            progress();
            self.0.borrow_mut().items.push_back(item);
        }

        /// Waits for room and sends; gives the item back where nobody will receive it.
        pub async fn send(&self, item: T) -> Result<(), T> {
            maybe_yield().await;
            let mut item = Some(item);
            let out = poll_fn(|_| {
                if self.closed() {
                    return Poll::Ready(Err(item.take().unwrap()));
                } else if !self.has_room() {
                    return Poll::Pending;
                }
                self.push(item.take().unwrap());
                Poll::Ready(Ok(()))
            })
            .await;
            maybe_yield().await;
            out
        }
    }

    impl<T> RecvEnd<T> {
        /// Whether nothing is there and nothing will come.
        pub fn ended(&self) -> bool {
            let inner = self.0.borrow();
            inner.items.is_empty() && !inner.send_open
        }

        /// Whether an item is there.
        pub fn has_item(&self) -> bool {
            !self.0.borrow().items.is_empty()
        }

        /// Whether this end's first item is greater than the other's; both have one.
        pub fn front_is_greater(&self, other: &Self) -> bool
        where
            T: Ord,
        {
            self.0.borrow().items[0] > other.0.borrow().items[0]
        }

        /// Takes the first item, if one is there.
        pub fn pop(&self) -> Option<T> {
            let item = self.0.borrow_mut().items.pop_front();
            if item.is_some() {
                progress();
            }
            item
        }

        /// Waits for an item; an error where none will come.
        pub async fn recv(&self) -> Result<T, ()> {
            maybe_yield().await;
            poll_fn(|_| match self.pop() {
                Some(item) => Poll::Ready(Ok(item)),
                None if self.ended() => Poll::Ready(Err(())),
                None => Poll::Pending,
            })
            .await
        }
    }

    impl<T> Drop for SendEnd<T> {
        /// Tells the other end that nothing more will come.
        fn drop(&mut self) {
            progress();
            self.0.borrow_mut().send_open = false;
        }
    }

    impl<T> Drop for RecvEnd<T> {
        /// Tells the other end that nobody will receive, and drops what waits.
        fn drop(&mut self) {
            progress();
            let items = {
                let mut inner = self.0.borrow_mut();
                inner.recv_open = false;
                std::mem::take(&mut inner.items)
            };
            drop(items);
        }
    }
}

pub mod connector {
    use super::queue::{RecvEnd, SendEnd, queue};

    /// The end to send, with what both share.
    pub struct SenderExt<T, S>(SendEnd<T>, S);

    /// The end to receive, with what both share.
    pub struct ReceiverExt<T, S>(RecvEnd<T>, S);

    /// A channel for one item at a time.
    pub fn connector_with<T, S: Clone>(shared: S) -> (SenderExt<T, S>, ReceiverExt<T, S>) {
        let (send, recv) = queue(1);
        (SenderExt(send, shared.clone()), ReceiverExt(recv, shared))
    }

    impl<T, S> SenderExt<T, S> {
        /// Sends, or gives the item back where nobody will receive it.
        pub async fn send(&mut self, value: T) -> Result<(), T> {
            self.0.send(value).await
        }

        /// What both ends share.
        pub fn shared(&self) -> &S {
            &self.1
        }
    }

    impl<T, S> ReceiverExt<T, S> {
        /// Receives, or tells that nothing more will come.
        pub async fn recv(&mut self) -> Result<T, ()> {
            self.0.recv().await
        }

        /// What both ends share.
        pub fn shared(&self) -> &S {
            &self.1
        }
    }
}

pub mod distributor_channel {
    use std::future::poll_fn;
    use std::task::Poll;

    use super::queue::{RecvEnd, SendEnd, queue};
    use crate::executor::maybe_yield;

    /// The end to send, and the receiver whose turn is next.
    pub struct Sender<T>(Vec<SendEnd<T>>, usize);

    /// One of the ends to receive.
    pub struct Receiver<T>(RecvEnd<T>);

    /// A channel from one sender to several receivers.
    pub fn distributor_channel<T>(num_receivers: usize, buffer_size: usize) -> (Sender<T>, Vec<Receiver<T>>) {
        let (send, recv): (Vec<_>, Vec<_>) = (0..num_receivers).map(|_| queue(buffer_size)).unzip();
        (Sender(send, 0), recv.into_iter().map(Receiver).collect())
    }

    impl<T> Sender<T> {
        /// Sends to the next receiver, round and round, that has room; gives the item back once none is left.
        pub async fn send(&mut self, value: T) -> Result<(), T> {
            maybe_yield().await;
            let mut value = Some(value);
            let out = poll_fn(|_| {
                let n = self.0.len();
                if self.0.iter().all(|s| s.closed()) {
                    return Poll::Ready(Err(value.take().unwrap()));
                }
                let Some(i) = (0..n).map(|i| (self.1 + i) % n).find(|i| self.0[*i].has_room()) else {
                    return Poll::Pending;
                };
                self.1 = i + 1;
                self.0[i].push(value.take().unwrap());
                Poll::Ready(Ok(()))
            })
            .await;
            maybe_yield().await;
            out
        }
    }

    impl<T> Receiver<T> {
        /// Receives, or tells that nothing more will come.
        pub async fn recv(&mut self) -> Result<T, ()> {
            self.0.recv().await
        }
    }
}

pub mod linearizer {
    use std::future::poll_fn;
    use std::task::Poll;

    use super::queue::{RecvEnd, SendEnd, queue};
    use crate::executor::maybe_yield;

    /// The end to receive, and whether the order is kept.
    pub struct Linearizer<T>(Vec<RecvEnd<T>>, bool);

    /// One of the ends to send.
    pub struct Inserter<T>(SendEnd<T>);

    impl<T: Ord> Linearizer<T> {
        /// A channel from several senders to one receiver, greatest item first.
        pub fn new(num_inserters: usize, buffer_size: usize) -> (Self, Vec<Inserter<T>>) {
            Self::new_with_maintain_order(num_inserters, buffer_size, true)
        }

        /// The same; where order is not kept, whatever is there comes.
        pub fn new_with_maintain_order(
            num_inserters: usize,
            buffer_size: usize,
            maintain_order: bool,
        ) -> (Self, Vec<Inserter<T>>) {
            let (send, recv): (Vec<_>, Vec<_>) = (0..num_inserters).map(|_| queue(buffer_size)).unzip();
            (Self(recv, maintain_order), send.into_iter().map(Inserter).collect())
        }

        /// The greatest front item, once every inserter has one or is gone; none once all are gone.
        pub async fn get(&mut self) -> Option<T> {
            maybe_yield().await;
            poll_fn(|_| {
                self.0.retain(|r| !r.ended());
                let fronts: Vec<_> = self.0.iter().filter(|r| r.has_item()).collect();
                if self.0.is_empty() {
                    return Poll::Ready(None);
                } else if fronts.is_empty() || (self.1 && fronts.len() < self.0.len()) {
                    return Poll::Pending;
                }
                let best = fronts.into_iter().reduce(|a, b| if b.front_is_greater(a) { b } else { a });
                Poll::Ready(best.unwrap().pop())
            })
            .await
        }
    }

    impl<T> Inserter<T> {
        /// Sends, or gives the item back where nobody will receive it.
        pub async fn insert(&mut self, value: T) -> Result<(), T> {
            self.0.send(value).await
        }
    }
}

pub mod wait_group {
    use std::future::poll_fn;
    use std::rc::Rc;
    use std::task::Poll;

    use crate::executor::progress;

    /// Waits for tokens to be dropped.
    #[derive(Default)]
    pub struct WaitGroup(Rc<()>);

    /// Holds its group up until dropped.
    #[derive(Debug)]
    pub struct WaitToken(#[allow(dead_code)] Rc<()>);

    impl WaitGroup {
        /// One more token.
        pub fn token(&self) -> WaitToken {
            WaitToken(self.0.clone())
        }

        /// Waits until every token is dropped.
        pub async fn wait(&self) {
            poll_fn(|_| if Rc::strong_count(&self.0) == 1 { Poll::Ready(()) } else { Poll::Pending }).await
        }
    }

    impl Drop for WaitToken {
        /// Notes that a waiting task may go on.
        fn drop(&mut self) {
            progress();
        }
    }
}
