//! The queue of password checks. A check takes long on purpose, so few run at once, and the places in the queue are shared out
//! by client address and by user.
//!
//! A flood of checks has one address, one user, or both. The check whose address and user have the fewest places is next. If
//! the queue is full, a check of those that have the most places is refused.
use crate::operation::locks::guard_of;
use std::collections::HashMap;
use std::net::IpAddr;
use std::sync::{Arc, Mutex, MutexGuard};
use std::time::Duration;
use tokio::sync::oneshot;
use tokio::time::timeout;

/// The maximum number of checks that wait.
const MOST_WAITING: usize = 256;

/// The maximum time for which a check waits.
const WAIT_TIME: Duration = Duration::from_secs(30);

/// The sender of a password: the client's address, and the user if the file has it. All other users count as one.
#[derive(Clone, Debug, PartialEq, Eq)]
pub(super) struct Sender {
    address: Option<IpAddr>,
    user: Option<String>,
}

/// A check that waits.
struct Waiting {
    sender: Sender,
    permit: oneshot::Sender<Permit>,
}

struct State {
    /// The number of checks that may begin now.
    free: usize,
    /// The waiting checks in the order of their arrival.
    waiting: Vec<Waiting>,
}

/// The queue of password checks.
pub(super) struct PasswordQueue(Mutex<State>);

/// The right to make one check. Dropping it lets the next one begin.
pub(super) struct Permit(Arc<PasswordQueue>);

impl Sender {
    /// Makes a sender. The addresses of an IPv6 network of 64 bits count as one.
    pub(super) fn new(address: Option<IpAddr>, user: Option<&str>) -> Sender {
        let network = |address| match address {
            IpAddr::V6(address) if address.to_ipv4_mapped().is_none() => IpAddr::V6((u128::from(address) >> 64 << 64).into()),
            address => address,
        };
        Sender { address: address.map(network), user: user.map(str::to_string) }
    }
}

/// Returns, for each waiting check, the numbers of places that its address and its user have, the greater first.
fn places(waiting: &[Waiting]) -> Vec<(usize, usize)> {
    let (mut addresses, mut users) = (HashMap::new(), HashMap::new());
    for Waiting { sender, .. } in waiting {
        *addresses.entry(sender.address).or_insert(0) += 1;
        *users.entry(&sender.user).or_insert(0) += 1;
    }
    let of = |Waiting { sender, .. }: &Waiting| {
        let (address, user): (usize, usize) = (addresses[&sender.address], users[&sender.user]);
        (address.max(user), address.min(user))
    };
    waiting.iter().map(of).collect()
}

impl State {
    /// Drops the checks whose senders no longer wait.
    fn forget_closed(&mut self) {
        self.waiting.retain(|waiting| !waiting.permit.is_closed());
    }

    /// Takes the check that is next: one with the fewest places, the earliest of several.
    fn take_next(&mut self) -> Option<Waiting> {
        self.forget_closed();
        let places = places(&self.waiting);
        let next = (0..places.len()).min_by_key(|at| (places[*at], *at))?;
        Some(self.waiting.remove(next))
    }

    /// Removes a check with the most places, the latest of several.
    fn drop_worst(&mut self) {
        let places = places(&self.waiting);
        if let Some(worst) = (0..places.len()).max_by_key(|at| (places[*at], *at)) {
            self.waiting.remove(worst);
        }
    }
}

impl PasswordQueue {
    /// Makes a queue of which `most` checks run at once.
    pub(super) fn new(most: usize) -> Arc<PasswordQueue> {
        Arc::new(PasswordQueue(Mutex::new(State { free: most, waiting: Vec::new() })))
    }

    fn state(&self) -> MutexGuard<'_, State> {
        guard_of(self.0.lock())
    }

    /// Waits until a check may begin. Returns `None` if too many wait, or if it waits too long.
    pub(super) async fn begin(self: &Arc<Self>, sender: Sender) -> Option<Permit> {
        timeout(WAIT_TIME, self.enter(sender)).await.ok()?.ok()
    }

    /// Takes a place in the queue. The receiver fails if the place is given up because the queue is full.
    fn enter(self: &Arc<Self>, sender: Sender) -> oneshot::Receiver<Permit> {
        let (permit, receiver) = oneshot::channel();
        {
            let mut state = self.state();
            state.waiting.push(Waiting { sender, permit });
            if state.waiting.len() > MOST_WAITING {
                state.forget_closed();
            }
            if state.waiting.len() > MOST_WAITING {
                state.drop_worst();
            }
        }
        self.hand_out();
        receiver
    }

    /// Lets waiting checks begin.
    fn hand_out(self: &Arc<Self>) {
        loop {
            let next = {
                let mut state = self.state();
                let next = if state.free > 0 { state.take_next() } else { None };
                state.free -= usize::from(next.is_some());
                next
            };
            match next {
                // A permit that nobody waits for is dropped here, so the lock must be free.
                Some(Waiting { permit, .. }) => drop(permit.send(Permit(self.clone()))),
                None => return,
            }
        }
    }
}

impl Drop for Permit {
    fn drop(&mut self) {
        self.0.state().free += 1;
        self.0.hand_out();
    }
}

#[cfg(test)]
mod tests {
    use super::*;

    fn from(address: u8, user: &str) -> Sender {
        Sender::new(Some([10, 0, 0, address].into()), Some(user).filter(|user| !user.is_empty()))
    }

    /// Fills the queue by a flood, adds another check, and returns whether that is the first to begin.
    fn is_first_after(flood: impl Fn(usize) -> Sender, other: Sender) -> bool {
        let checks = PasswordQueue::new(1);
        let mut running = checks.enter(from(0, ""));
        let permit = running.try_recv().unwrap();
        let mut waiting: Vec<_> = (0..MOST_WAITING + 9).map(|number| checks.enter(flood(number))).collect();
        let mut last = checks.enter(other);
        assert_eq!(checks.state().waiting.len(), MOST_WAITING);
        drop(permit);
        let is_first = last.try_recv().map(drop).is_ok();
        waiting.iter_mut().for_each(|one| one.close());
        is_first
    }

    #[test]
    fn a_flood_of_one_address_or_one_user_is_passed() {
        assert!(is_first_after(|_| from(1, "acme"), from(2, "other")));
        assert!(is_first_after(|number| from(1, &format!("user{number}")), from(2, "other")), "many users of one address");
        assert!(is_first_after(|number| from(number as u8, "acme"), from(1, "other")), "one user of many addresses");
        assert!(is_first_after(|_| from(1, ""), from(1, "other")), "unknown users of the address of a proxy");
        assert!(is_first_after(|number| from(number as u8 % 9, "acme"), from(100, "acme")), "the user of the flood");
    }

    #[test]
    fn checks_with_equally_many_places_begin_in_order() {
        let checks = PasswordQueue::new(1);
        let mut receivers: Vec<_> = (0..3).map(|number| checks.enter(from(number, &format!("u{number}")))).collect();
        let mut order = Vec::new();
        while let Some(at) = receivers.iter_mut().position(|receiver| receiver.try_recv().map(drop).is_ok()) {
            order.push(at);
        }
        assert_eq!((order, checks.state().free), (vec![0, 1, 2], 1));
    }

    #[test]
    fn a_check_that_nobody_waits_for_takes_no_turn() {
        let checks = PasswordQueue::new(1);
        let mut running = checks.enter(from(1, "a"));
        let permit = running.try_recv().unwrap();
        drop(checks.enter(from(2, "b")));
        let mut last = checks.enter(from(3, "c"));
        drop(permit);
        assert!(last.try_recv().is_ok());
    }

    #[test]
    fn a_network_is_one_sender() {
        let of = |text: &str| Sender::new(text.parse().ok(), None);
        assert_eq!(of("2001:db8::1"), of("2001:db8::2:3"));
        assert_ne!(of("2001:db8::1"), of("2001:db8:0:1::1"));
        assert_ne!(of("::ffff:10.0.0.1"), of("::ffff:10.0.0.2"));
    }
}
