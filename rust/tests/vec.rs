//! The vector as programs use it.
use kehldora::{Reason, Vec};
use std::cell::RefCell;
use std::sync::atomic::{AtomicUsize, Ordering};
use std::sync::Arc;
use std::thread;

/// A value that counts its drops.
struct Counted<const WORDS: usize>(Arc<AtomicUsize>, [u64; WORDS]);
impl<const WORDS: usize> Drop for Counted<WORDS> {
    fn drop(&mut self) {
        assert!(self.1.iter().all(|it| *it == self.1[0]));
        self.0.fetch_add(1, Ordering::Relaxed);
    }
}

/// Appends a hundred values in each of eight threads, and drops them in four ways.
fn each_value_is_dropped_once<const WORDS: usize>() {
    for way in 0..4 {
        let drops = Arc::new(AtomicUsize::new(0));
        let mut vec = Vec::new(1000);
        thread::scope(|scope| {
            for thread in 0..8 {
                let (vec, drops) = (&vec, &drops);
                scope.spawn(move || {
                    for i in 0..100 {
                        let place = vec.push(Counted(drops.clone(), [thread * 1000 + i; WORDS]));
                        assert_eq!(vec[place].1[0], thread * 1000 + i);
                    }
                });
            }
        });
        assert_eq!(vec.count(), 800);
        match way {
            0 => drop(vec),
            1 => vec.clear(),
            2 => assert_eq!(vec.into_iter().count(), 800),
            _ => {
                let mut values = vec.into_iter();
                let first = values.next();
                drop(values);
                assert_eq!(drops.load(Ordering::Relaxed), 799);
                assert!(first.is_some());
            }
        }
        assert_eq!(drops.load(Ordering::Relaxed), 800);
    }
}

#[test]
fn values_of_each_size_are_dropped_once() {
    each_value_is_dropped_once::<1>();
    each_value_is_dropped_once::<3>();
    each_value_is_dropped_once::<5>();
    each_value_is_dropped_once::<7>();
    each_value_is_dropped_once::<8>();
    each_value_is_dropped_once::<20>();
}

#[test]
fn values_of_other_layouts_are_kept() {
    #[repr(align(32))]
    #[derive(Clone, Copy, PartialEq, Debug)]
    struct Wide(u8);
    let (units, bytes, wide) = (Vec::new(100), Vec::new(100), Vec::new(100));
    for i in 0..100 {
        units.push(());
        bytes.push((i, [i; 2]));
        wide.push(Wide(i));
    }
    assert_eq!(units.iter().count(), 100);
    assert!(bytes.iter().all(|(place, it)| *it == (place as u8, [place as u8; 2])));
    assert!(wide.iter().all(|(place, it)| *it == Wide(place as u8) && (it as *const Wide as usize) % 32 == 0));
}

#[test]
fn a_full_vector_gives_the_value_back() {
    let vec = Vec::new(2);
    vec.push("one".to_string());
    vec.push("two".to_string());
    let refused = vec.try_push("three".to_string()).unwrap_err();
    assert_eq!((refused.reason, refused.value.as_str()), (Reason::Full, "three"));
    assert_eq!((vec.limit(), vec.reserve(3)), (2, Err(Reason::Full)));
    assert!(std::panic::catch_unwind(std::panic::AssertUnwindSafe(|| vec.push(String::new()))).is_err());
    assert_eq!(format!("{vec:?}"), r#"["one", "two"]"#);
    assert!(matches!(Vec::<u8>::try_new(usize::MAX), Err(Reason::Full)));
}

#[test]
fn references_stay_and_readers_see_whole_values() {
    let mut vec: Vec<String> = (0..10).map(|i| i.to_string()).collect();
    let first = &vec[0] as *const String;
    thread::scope(|scope| {
        for _ in 0..4 {
            scope.spawn(|| (0..1000).for_each(|i| assert!(vec.push(format!("a text of some length: {i}")) >= 10)));
        }
        scope.spawn(|| {
            while vec.iter().inspect(|(_, it)| assert!(!it.is_empty())).count() < 4010 {
                assert!(vec.get(5000).is_none());
            }
        });
    });
    assert_eq!((first, vec.get(9).unwrap().as_str()), (&vec[0] as *const String, "9"));
    vec.get_mut(9).unwrap().push('!');
    vec.extend(["last".to_string()]);
    assert_eq!((vec[9].as_str(), vec[4010].as_str(), vec.is_empty()), ("9!", "last", false));
}

#[test]
fn threads_that_come_and_go_use_up_no_shares() {
    let vec = Vec::new(100_000);
    for _ in 0..200 {
        thread::scope(|scope| {
            for i in 0..6 {
                let vec = &vec;
                scope.spawn(move || vec.push(i));
            }
        });
    }
    assert_eq!(vec.into_iter().sum::<u64>(), 200 * 15);
}

#[test]
fn vectors_end_before_threads_and_threads_before_vectors() {
    let (send, receive) = std::sync::mpsc::channel::<Arc<Vec<u32>>>();
    let user = thread::spawn(move || receive.iter().map(|vec| vec.push(7)).sum::<usize>());
    for _ in 0..300 {
        let vec = Arc::new(Vec::default());
        vec.push(1);
        send.send(vec).unwrap();
    }
    drop(send);
    assert_eq!(user.join().unwrap(), 300);
}

#[test]
fn a_thread_pushes_while_it_ends() {
    struct PushesLate(Arc<Vec<u32>>);
    impl Drop for PushesLate {
        fn drop(&mut self) {
            self.0.push(3);
        }
    }
    thread_local!(static LATE: RefCell<std::vec::Vec<PushesLate>> = const { RefCell::new(std::vec::Vec::new()) });
    for is_first in [false, true] {
        let vec = Arc::new(Vec::new(9));
        let mine = vec.clone();
        thread::spawn(move || {
            if is_first {
                mine.push(1);
            }
            LATE.with(|it| it.borrow_mut().push(PushesLate(mine.clone())));
            mine.push(2);
        })
        .join()
        .unwrap();
        assert_eq!(vec.count(), 2 + usize::from(is_first));
        assert_eq!(vec[vec.count() - 1], 3);
    }
}

/// Whether the vector crosses threads as its values do.
#[test]
fn bounds_are_those_of_the_values() {
    fn send<T: Send>() {}
    fn sync<T: Sync>() {}
    send::<Vec<std::cell::Cell<u8>>>();
    sync::<Vec<String>>();
    sync::<kehldora::Iter<'_, String>>();
    send::<kehldora::IntoIter<String>>();
}

#[cfg(hooks)]
mod memory {
    use super::*;
    use std::process::Command;

    extern "C" {
        fn hook_refuse(count: i64) -> i64;
        fn hook_blocks() -> i64;
    }

    /// Refuses each request in turn. The countdown is the process's, so a process of its own does it.
    #[test]
    fn a_refused_request_loses_nothing() {
        const ALONE: &str = "KEHLDORA_TEST_ALONE";
        if std::env::var(ALONE).is_ok() {
            assert!((0..100).any(|request| !refuse(request)), "there are more requests");
            return;
        }
        let mut alone = Command::new(std::env::current_exe().unwrap());
        alone.args(["--exact", "memory::a_refused_request_loses_nothing"]).env(ALONE, "1");
        assert!(alone.status().unwrap().success());
    }

    /// Refuses one request of a life. Returns whether the life had that many.
    fn refuse(request: i64) -> bool {
        let drops = Arc::new(AtomicUsize::new(0));
        unsafe { hook_refuse(request) };
        let vec = loop {
            match Vec::try_new(100) {
                Ok(vec) => break vec,
                Err(reason) => assert_eq!(reason, Reason::NoMemory),
            }
        };
        for i in 0..40 {
            let mut value = Counted(drops.clone(), [i; 4]);
            while let Err(refused) = vec.try_push(value) {
                assert_eq!((refused.reason, refused.value.1[0]), (Reason::NoMemory, i));
                value = refused.value;
            }
        }
        let left = unsafe { hook_refuse(-1) };
        assert!(vec.iter().all(|(place, it)| it.1[0] == place as u64));
        drop(vec);
        assert_eq!(drops.load(Ordering::Relaxed), 40);
        assert_eq!(unsafe { hook_blocks() }, 0);
        left < 0
    }
}
