// Definitions and calls of macros cut out of mio-0.8.4, which is licensed as MIT.

// from src/sys/unix/selector/kqueue.rs
macro_rules! kevent {
    ($id: expr, $filter: expr, $flags: expr, $data: expr) => {
        libc::kevent {
            ident: $id as libc::uintptr_t,
            filter: $filter as Filter,
            flags: $flags,
            udata: $data as UData,
            ..unsafe { mem::zeroed() }
        }
    };
}
kevent!(fd, libc::EVFILT_WRITE, flags, token.0);
kevent!(fd, libc::EVFILT_READ, flags, token.0);
kevent!(fd, libc::EVFILT_WRITE, write_flags, token.0);
kevent!(fd, libc::EVFILT_READ, read_flags, token.0);
kevent!(fd, libc::EVFILT_WRITE, flags, 0);
kevent!(fd, libc::EVFILT_READ, flags, 0);
