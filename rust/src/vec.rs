//! The vector, and its iterators.
use crate::hub::Hub;
use crate::raw::{self, Hand};
use std::alloc::{handle_alloc_error, Layout};
use std::error::Error;
use std::fmt;
use std::marker::PhantomData;
use std::mem::{align_of, size_of, ManuallyDrop, MaybeUninit};
use std::ops::Index;
use std::ptr::null_mut;
use std::sync::Arc;

/// A vector that many threads append to and read at once.
pub struct Vec<T> {
    hub: Arc<Hub>,
    limit: usize,
    // Values come in through a `&`, so a vector is no vector of values with a shorter life.
    values: PhantomData<std::cell::Cell<T>>,
}

/// ```compile_fail
/// fn keep_longer_than_it_lives(vec: &kehldora::Vec<&'static str>) {
///     let text = String::from("short");
///     let shorter: &kehldora::Vec<&str> = vec;
///     shorter.push(&text);
/// }
/// ```
#[cfg(doctest)]
struct NoShorterLife;

/// A vector of values that stay with their thread stays there too.
///
/// ```compile_fail,E0277
/// fn send<T: Send>() {}
/// send::<kehldora::Vec<std::rc::Rc<u8>>>();
/// ```
///
/// A vector of values that threads may not share is not shared, nor is a walk over it.
///
/// ```compile_fail,E0277
/// fn sync<T: Sync>() {}
/// sync::<kehldora::Vec<std::cell::Cell<u8>>>();
/// ```
///
/// ```compile_fail,E0277
/// fn sync<T: Sync>() {}
/// sync::<kehldora::Iter<'static, std::cell::Cell<u8>>>();
/// ```
///
/// ```compile_fail,E0277
/// fn send<T: Send>() {}
/// send::<kehldora::Iter<'static, std::cell::Cell<u8>>>();
/// ```
///
/// ```compile_fail,E0277
/// fn send<T: Send>() {}
/// send::<kehldora::IntoIter<std::rc::Rc<u8>>>();
/// ```
#[cfg(doctest)]
struct NoOtherThreads;

// A vector gives out its values by `&` in all threads that share it, and drops them, and takes new ones, in any of them.
unsafe impl<T: Send> Send for Vec<T> {}
unsafe impl<T: Send + Sync> Sync for Vec<T> {}

/// Why a value was not appended.
#[derive(Clone, Copy, Debug, PartialEq, Eq)]
pub enum Reason {
    /// The vector has as many values as its limit allows.
    Full,
    /// There was no memory.
    NoMemory,
}

/// A value that was not appended, and why.
pub struct Refused<T> {
    /// The value.
    pub value: T,
    /// Why it was not appended.
    pub reason: Reason,
}

impl fmt::Display for Reason {
    fn fmt(&self, f: &mut fmt::Formatter<'_>) -> fmt::Result {
        f.write_str(match self {
            Reason::Full => "the limit leaves no room",
            Reason::NoMemory => "out of memory",
        })
    }
}

impl Error for Reason {}

impl<T> fmt::Display for Refused<T> {
    fn fmt(&self, f: &mut fmt::Formatter<'_>) -> fmt::Result {
        self.reason.fmt(f)
    }
}

impl<T> fmt::Debug for Refused<T> {
    fn fmt(&self, f: &mut fmt::Formatter<'_>) -> fmt::Result {
        f.debug_struct("Refused").field("reason", &self.reason).finish_non_exhaustive()
    }
}

impl<T> Error for Refused<T> {}

/// How a `T` lies in the words of an element: itself, or a box of it.
struct Cell<T>(PhantomData<T>);

impl<T> Cell<T> {
    const IN_PLACE: bool = size_of::<T>() <= 64 && align_of::<T>() <= 8;
    const WORDS: usize = match (Self::IN_PLACE, size_of::<T>().div_ceil(8)) {
        (false, _) | (_, 0) => 1,
        (_, 5) => 6,
        (_, 7) => 8,
        (_, words) => words,
    };

    /// # Safety
    /// A value has been published at this address.
    unsafe fn value(at: *mut u64) -> *mut T {
        if Self::IN_PLACE {
            at.cast()
        } else {
            unsafe { *at.cast::<*mut T>() }
        }
    }

    /// Moves a value out.
    ///
    /// # Safety
    /// As for `value`, and nobody uses the value afterwards.
    unsafe fn take(at: *mut u64) -> T {
        if Self::IN_PLACE {
            unsafe { at.cast::<T>().read() }
        } else {
            *unsafe { Box::from_raw(Self::value(at)) }
        }
    }
}

impl<T> Vec<T> {
    /// Makes a vector of at most `limit` values.
    ///
    /// Panics if the limit is 0 or above [`MOST_PLACES`](crate::MOST_PLACES), and ends the program without memory.
    pub fn new(limit: usize) -> Self {
        assert!((1..=crate::MOST_PLACES).contains(&limit), "the limit is 0 or above 2^40");
        Self::try_new(limit).unwrap_or_else(|_| handle_alloc_error(Layout::new::<T>()))
    }

    /// Makes a vector, or says why not.
    pub fn try_new(limit: usize) -> Result<Self, Reason> {
        match Hub::open(limit as u64, Cell::<T>::WORDS as u64) {
            Ok(hub) => Ok(Vec { hub, limit, values: PhantomData }),
            Err(raw::NO_MEMORY) => Err(Reason::NoMemory),
            Err(_) => Err(Reason::Full),
        }
    }

    /// Appends a value and returns its place.
    ///
    /// Panics if the limit leaves no room, and ends the program without memory.
    pub fn push(&self, value: T) -> usize {
        match self.try_push(value) {
            Ok(place) => place,
            Err(Refused { reason: Reason::Full, .. }) => panic!("the vector has its {} values already", self.limit),
            Err(Refused { reason: Reason::NoMemory, .. }) => handle_alloc_error(Layout::new::<T>()),
        }
    }

    /// Appends a value and returns its place, or gives it back.
    pub fn try_push(&self, value: T) -> Result<usize, Refused<T>> {
        let mut cell = [MaybeUninit::<u64>::uninit(); 8];
        let at = cell.as_mut_ptr().cast::<u64>();
        if Cell::<T>::IN_PLACE {
            unsafe { at.cast::<T>().write(value) };
        } else {
            match try_box(value) {
                Ok(boxed) => unsafe { at.cast::<*mut T>().write(Box::into_raw(boxed)) },
                Err(value) => return Err(Refused { value, reason: Reason::NoMemory }),
            }
        }
        let mut place = 0;
        let status = self.hub.with(|hand| loop {
            let status = unsafe { raw::kehldora_raw_push(hand, at, Cell::<T>::WORDS, &mut place) };
            if status != raw::MOVED {
                return status;
            }
        });
        // What was refused is still here.
        let refused = |reason| Err(Refused { value: unsafe { Cell::<T>::take(at) }, reason });
        match status {
            raw::DONE => Ok(place as usize),
            raw::FULL => refused(Reason::Full),
            raw::NO_MEMORY => refused(Reason::NoMemory),
            status => unreachable!("status {status} of a push"),
        }
    }

    /// The value at a place, if it is there.
    pub fn get(&self, place: usize) -> Option<&T> {
        self.look(place).map(|at| unsafe { &*at })
    }

    /// The value at a place, if it is there.
    pub fn get_mut(&mut self, place: usize) -> Option<&mut T> {
        self.look(place).map(|at| unsafe { &mut *at })
    }

    fn look(&self, place: usize) -> Option<*mut T> {
        let mut at = null_mut();
        match self.hub.with(|hand| unsafe { raw::kehldora_raw_look(hand, place as u64, &mut at) }) {
            raw::DONE => Some(unsafe { Cell::<T>::value(at) }),
            raw::NO_MEMORY => handle_alloc_error(Layout::new::<T>()),
            _ => None,
        }
    }

    /// The number of places that are claimed. A value may be on its way to one that others have claimed.
    pub fn count(&self) -> usize {
        let mut size = 0;
        let status = self.hub.with(|hand| unsafe { raw::kehldora_raw_size(hand, &mut size) });
        if status != raw::DONE {
            handle_alloc_error(Layout::new::<T>());
        }
        size as usize
    }

    /// Whether no place is claimed.
    pub fn is_empty(&self) -> bool {
        self.count() == 0
    }

    /// The greatest number of values.
    pub fn limit(&self) -> usize {
        self.limit
    }

    /// Makes room for this number of values in all.
    pub fn reserve(&self, size: usize) -> Result<(), Reason> {
        match self.hub.with(|hand| unsafe { raw::kehldora_raw_reserve(hand, size as u64) }) {
            raw::DONE => Ok(()),
            raw::FULL => Err(Reason::Full),
            _ => Err(Reason::NoMemory),
        }
    }

    /// Drops all values.
    pub fn clear(&mut self) {
        *self = Vec::new(self.limit);
    }

    /// Walks over the values that are there, each with its place.
    pub fn iter(&self) -> Iter<'_, T> {
        Iter { vec: self, place: 0, at: null_mut(), left: 0 }
    }
}

/// A box of a value, or the value itself without memory.
fn try_box<T>(value: T) -> Result<Box<T>, T> {
    let layout = Layout::new::<T>();
    if layout.size() == 0 {
        return Ok(Box::new(value));
    }
    let at = unsafe { std::alloc::alloc(layout) }.cast::<T>();
    if at.is_null() {
        return Err(value);
    }
    unsafe { at.write(value) };
    Ok(unsafe { Box::from_raw(at) })
}

/// A walk over the values that are there.
pub struct Iter<'a, T> {
    vec: &'a Vec<T>,
    place: u64,
    at: *mut u64,
    left: u64,
}

// It gives out what a `&Vec<T>` does.
unsafe impl<T: Send + Sync> Send for Iter<'_, T> {}
unsafe impl<T: Send + Sync> Sync for Iter<'_, T> {}

impl<'a, T> Iterator for Iter<'a, T> {
    type Item = (usize, &'a T);

    fn next(&mut self) -> Option<Self::Item> {
        while self.left == 0 {
            let (place, at, left) = (self.place, &mut self.at, &mut self.left);
            match self.vec.hub.with(|hand| unsafe { raw::kehldora_raw_run(hand, place, at, left) }) {
                raw::DONE => {}
                raw::PENDING | raw::BROKEN => {
                    self.left = 0;
                    self.place += 1;
                }
                raw::NO_MEMORY => handle_alloc_error(Layout::new::<T>()),
                _ => return None,
            }
        }
        let item = (self.place as usize, unsafe { &*Cell::<T>::value(self.at) });
        self.at = unsafe { self.at.add(Cell::<T>::WORDS) };
        self.place += 1;
        self.left -= 1;
        Some(item)
    }
}

/// The values, moved out in the order of places.
pub struct IntoIter<T> {
    root: Hand,
    place: u64,
    values: PhantomData<T>,
}

unsafe impl<T: Send> Send for IntoIter<T> {}
unsafe impl<T: Sync> Sync for IntoIter<T> {}

impl<T> Iterator for IntoIter<T> {
    type Item = T;

    fn next(&mut self) -> Option<T> {
        loop {
            let mut at = null_mut();
            let status = unsafe { raw::kehldora_raw_look(&mut self.root, self.place, &mut at) };
            self.place += u64::from(matches!(status, raw::DONE | raw::PENDING | raw::BROKEN));
            match status {
                // Each place is looked at once.
                raw::DONE => return Some(unsafe { Cell::<T>::take(at) }),
                raw::PENDING | raw::BROKEN => {}
                _ => return None,
            }
        }
    }
}

impl<T> Drop for IntoIter<T> {
    fn drop(&mut self) {
        // The memory goes also if a value's drop panics.
        struct Free<'a, T>(&'a mut IntoIter<T>);
        impl<T> Drop for Free<'_, T> {
            fn drop(&mut self) {
                unsafe { raw::kehldora_raw_free(&mut self.0.root) };
            }
        }
        let rest = Free(self);
        if std::mem::needs_drop::<T>() || !Cell::<T>::IN_PLACE {
            rest.0.for_each(drop);
        }
    }
}

impl<T> Drop for Vec<T> {
    fn drop(&mut self) {
        drop(IntoIter::<T> { root: self.hub.end(), place: 0, values: PhantomData });
    }
}

impl<T> IntoIterator for Vec<T> {
    type Item = T;
    type IntoIter = IntoIter<T>;

    fn into_iter(self) -> IntoIter<T> {
        let it = ManuallyDrop::new(self);
        // The vector is not dropped, so its hub is.
        let hub = unsafe { std::ptr::read(&it.hub) };
        IntoIter { root: hub.end(), place: 0, values: PhantomData }
    }
}

impl<'a, T> IntoIterator for &'a Vec<T> {
    type Item = (usize, &'a T);
    type IntoIter = Iter<'a, T>;

    fn into_iter(self) -> Iter<'a, T> {
        self.iter()
    }
}

impl<T> Extend<T> for Vec<T> {
    fn extend<I: IntoIterator<Item = T>>(&mut self, values: I) {
        for value in values {
            self.push(value);
        }
    }
}

impl<T> Default for Vec<T> {
    /// Makes a vector of the greatest limit.
    fn default() -> Self {
        Vec::new(crate::MOST_PLACES)
    }
}

impl<T> FromIterator<T> for Vec<T> {
    fn from_iter<I: IntoIterator<Item = T>>(values: I) -> Self {
        let mut it = Vec::default();
        it.extend(values);
        it
    }
}

impl<T> Index<usize> for Vec<T> {
    type Output = T;

    fn index(&self, place: usize) -> &T {
        self.get(place).unwrap_or_else(|| panic!("no value at place {place}"))
    }
}

impl<T: fmt::Debug> fmt::Debug for Vec<T> {
    fn fmt(&self, f: &mut fmt::Formatter<'_>) -> fmt::Result {
        f.debug_list().entries(self.iter().map(|(_, value)| value)).finish()
    }
}
