//! The names of the crate nix that cros-codecs uses. Nothing is polled here: an event is a number that is kept, and no
//! descriptor is ever waited for.

pub mod errno {
    #[derive(Debug)]
    pub struct Errno;

    impl std::fmt::Display for Errno {
        fn fmt(&self, f: &mut std::fmt::Formatter<'_>) -> std::fmt::Result {
            f.write_str("an error")
        }
    }

    impl std::error::Error for Errno {}
}

pub mod libc {
    #[allow(non_camel_case_types)]
    pub struct pollfd {
        pub fd: i32,
        pub events: i16,
        pub revents: i16,
    }
    pub const POLLIN: i16 = 1;

    /// # Safety
    /// Does nothing.
    pub unsafe fn poll(_: *mut pollfd, _: u64, _: i32) -> i32 {
        0
    }
}

pub mod sys {
    pub mod eventfd {
        use crate::errno::Errno;
        use std::os::fd::{AsFd, BorrowedFd};

        pub struct EventFd;

        impl EventFd {
            pub fn new() -> Result<Self, Errno> {
                Ok(EventFd)
            }
            pub fn write(&self, _: u64) -> Result<usize, Errno> {
                Ok(8)
            }
            pub fn read(&self) -> Result<u64, Errno> {
                Ok(0)
            }
        }

        impl AsFd for EventFd {
            fn as_fd(&self) -> BorrowedFd<'_> {
                crate::standard_input()
            }
        }
    }

    pub mod epoll {
        use crate::errno::Errno;
        use std::os::fd::{AsFd, BorrowedFd};

        pub struct EpollCreateFlags;

        impl EpollCreateFlags {
            pub fn empty() -> Self {
                EpollCreateFlags
            }
        }

        pub struct EpollFlags;

        impl EpollFlags {
            pub const EPOLLIN: EpollFlags = EpollFlags;
        }

        pub struct EpollEvent;

        impl EpollEvent {
            pub fn new(_: EpollFlags, _: u64) -> Self {
                EpollEvent
            }
        }

        /// `poll_fd` borrows the descriptor inside.
        pub struct Epoll(pub Nowhere);

        impl Epoll {
            pub fn new(_: EpollCreateFlags) -> Result<Self, Errno> {
                Ok(Epoll(Nowhere))
            }
            pub fn add<F: AsFd>(&self, _: F, _: EpollEvent) -> Result<(), Errno> {
                Ok(())
            }
        }

        pub struct Nowhere;

        impl AsFd for Nowhere {
            fn as_fd(&self) -> BorrowedFd<'_> {
                crate::standard_input()
            }
        }
    }
}

fn standard_input() -> std::os::fd::BorrowedFd<'static> {
    // SAFETY: standard input stays open, and nobody uses this descriptor.
    unsafe { std::os::fd::BorrowedFd::borrow_raw(0) }
}
