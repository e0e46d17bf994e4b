//! What a vector and its threads share: each thread has a hand of its own, and gives it back when it ends.
use crate::raw::{self, Hand};
use std::alloc::{alloc, Layout};
use std::cell::{Cell, RefCell, UnsafeCell};
use std::collections::hash_map::RandomState;
use std::collections::HashMap;
use std::hash::{BuildHasher, Hasher};
use std::ptr::NonNull;
use std::sync::atomic::{AtomicBool, AtomicU64, Ordering};
use std::sync::{Arc, Mutex, MutexGuard, OnceLock, PoisonError};

/// A thread's hand. No two are on one pair of cache lines.
#[repr(align(128))]
struct KeptHand {
    hand: UnsafeCell<Hand>,
}

/// The hands of one vector. A kept hand is used by the thread that took it alone, and all others by whoever has the lock.
pub struct Hub {
    number: u64,
    has_ended: AtomicBool,
    hands: Mutex<Hands>,
}

struct Hands {
    root: Hand,
    all: Vec<NonNull<KeptHand>>,
    spares: Vec<NonNull<KeptHand>>,
}

// The pointers of `Hands` are owned by it, and a hand may be used by any thread, one at a time.
unsafe impl Send for Hands {}

/// The last hands that a thread has used, by the numbers of their vectors. No vector has the number 0.
const RECENT: usize = 8;
#[derive(Clone, Copy)]
struct Recent {
    number: u64,
    kept: NonNull<KeptHand>,
}

thread_local! {
    static RECENTS: [Cell<Recent>; RECENT] =
        const { [const { Cell::new(Recent { number: 0, kept: NonNull::dangling() }) }; RECENT] };
    static HANDS: RefCell<ThreadHands> = RefCell::new(ThreadHands::default());
}

/// The hands that a thread has taken. They go back when it ends.
#[derive(Default)]
struct ThreadHands {
    taken: HashMap<u64, (Arc<Hub>, NonNull<KeptHand>)>,
    next_look: usize,
}

impl Drop for ThreadHands {
    fn drop(&mut self) {
        RECENTS.with(|it| it.iter().for_each(|it| it.set(Recent { number: 0, kept: NonNull::dangling() })));
        for (_, (hub, kept)) in self.taken.drain() {
            hub.give_back(kept);
        }
    }
}

impl ThreadHands {
    /// The thread's hand of a vector, taken if it has none. Without memory, none is taken.
    fn find(&mut self, hub: &Arc<Hub>) -> Option<NonNull<KeptHand>> {
        if let Some((_, kept)) = self.taken.get(&hub.number) {
            return Some(*kept);
        }
        if self.taken.len() >= self.next_look {
            self.taken.retain(|_, (hub, kept)| {
                let has_ended = hub.has_ended.load(Ordering::Relaxed);
                if has_ended {
                    hub.give_back(*kept);
                }
                !has_ended
            });
            self.next_look = 2 * self.taken.len() + 16;
        }
        self.taken.try_reserve(1).ok()?;
        let kept = hub.take()?;
        self.taken.insert(hub.number, (hub.clone(), kept));
        Some(kept)
    }
}

impl Hub {
    /// Opens a vector of this limit over elements of this number of words.
    pub fn open(limit: u64, words: u64) -> Result<Arc<Hub>, i32> {
        assert_eq!(unsafe { raw::kehldora_raw_version() }, raw::VERSION, "another version of the library");
        let mut root = Hand::EMPTY;
        match unsafe { raw::kehldora_raw_open(limit, words, 3, true, &mut root) } {
            raw::DONE => {}
            status => return Err(status),
        }
        let hands = Mutex::new(Hands { root, all: Vec::new(), spares: Vec::new() });
        Ok(Arc::new(Hub { number: new_number(), has_ended: AtomicBool::new(false), hands }))
    }

    /// Does a call with the thread's own hand, which must do nothing but call an export.
    pub fn with(self: &Arc<Self>, call: impl FnOnce(*mut Hand) -> i32) -> i32 {
        let recent = RECENTS.with(|it| it[self.number as usize % RECENT].get());
        if recent.number == self.number {
            return self.with_kept(recent.kept, call);
        }
        self.with_another(call)
    }

    #[cold]
    fn with_another(self: &Arc<Self>, call: impl FnOnce(*mut Hand) -> i32) -> i32 {
        // A thread whose hands went back already takes one for this call alone.
        let Ok(found) = HANDS.try_with(|it| it.borrow_mut().find(self)) else {
            let Some(kept) = self.take() else { return raw::NO_MEMORY };
            let status = self.with_kept(kept, call);
            self.give_back(kept);
            return status;
        };
        let Some(kept) = found else { return raw::NO_MEMORY };
        RECENTS.with(|it| it[self.number as usize % RECENT].set(Recent { number: self.number, kept }));
        self.with_kept(kept, call)
    }

    fn with_kept(&self, kept: NonNull<KeptHand>, call: impl FnOnce(*mut Hand) -> i32) -> i32 {
        // The thread took this kept hand, so nobody else uses it.
        let hand = unsafe { kept.as_ref() }.hand.get();
        if !unsafe { (*hand).full } {
            let status = unsafe { raw::kehldora_raw_split(&mut self.lock().root, 1, hand) };
            if status != raw::DONE {
                return status;
            }
        }
        call(hand)
    }

    /// A hand that nobody uses.
    fn take(&self) -> Option<NonNull<KeptHand>> {
        let mut hands = self.lock();
        if let Some(kept) = hands.spares.pop() {
            return Some(kept);
        }
        // Each hand can then go back without memory.
        let count = hands.all.len() + 1;
        hands.all.try_reserve(1).ok()?;
        hands.spares.try_reserve(count).ok()?;
        let kept = NonNull::new(unsafe { alloc(Layout::new::<KeptHand>()) }.cast::<KeptHand>())?;
        unsafe { kept.write(KeptHand { hand: UnsafeCell::new(Hand::EMPTY) }) };
        hands.all.push(kept);
        Some(kept)
    }

    fn give_back(&self, kept: NonNull<KeptHand>) {
        self.lock().spares.push(kept);
    }

    fn lock(&self) -> MutexGuard<'_, Hands> {
        self.hands.lock().unwrap_or_else(PoisonError::into_inner)
    }

    /// Takes all hands back, for one thread that ends the vector. The hand has all shares.
    pub fn end(&self) -> Hand {
        let mut hands = self.lock();
        self.has_ended.store(true, Ordering::Relaxed);
        let Hands { root, all, .. } = &mut *hands;
        for kept in all {
            let hand = unsafe { kept.as_ref() }.hand.get();
            if unsafe { (*hand).full } {
                unsafe { raw::kehldora_raw_join(root, hand) };
            }
        }
        std::mem::replace(root, Hand::EMPTY)
    }
}

impl Drop for Hub {
    fn drop(&mut self) {
        for kept in self.lock().all.drain(..) {
            drop(unsafe { Box::from_raw(kept.as_ptr()) });
        }
    }
}

/// A number that no other vector has or had. It starts at random, since each shared object has a counter of its own.
fn new_number() -> u64 {
    static LAST: OnceLock<AtomicU64> = OnceLock::new();
    let last = LAST.get_or_init(|| AtomicU64::new(RandomState::new().build_hasher().finish()));
    loop {
        match last.fetch_add(1, Ordering::Relaxed) {
            0 => continue,
            number => return number,
        }
    }
}
