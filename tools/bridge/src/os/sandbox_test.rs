use std::io::{Read, Write};
use std::os::unix::net::UnixStream;
use std::os::unix::process::ExitStatusExt;
use std::path::Path;
use std::process::{ExitStatus, Stdio};

use libc::c_long;

use super::*;
use crate::os::background_writer::BackgroundWriter;
use crate::os::landlock::is_linked;

const ROOM: u64 = 1 << 30;

/// What becomes of a process that does this: its status, where it goes on to the end 0.
fn process_that(does: impl Fn() -> io::Result<()> + Send + Sync + 'static) -> io::Result<ExitStatus> {
    let mut command = Command::new("/bin/true");
    // SAFETY: the tests' own calls between fork and exec allocate nothing.
    unsafe { command.pre_exec(does) };
    command.stdin(Stdio::null()).status()
}

/// The signal by which a process ends that keeps to the bridge's list and then makes a call, or its error as a negative
/// number.
fn bridge_that(calls: impl Fn() -> c_long + Send + Sync + 'static) -> Option<i32> {
    bridge_with(u32::MAX, calls)
}

/// The same of a bridge with this program.
fn bridge_with(program: u32, calls: impl Fn() -> c_long + Send + Sync + 'static) -> Option<i32> {
    let list = Calls::of(of_bridge().chain([&Rule::OfProcess(libc::SYS_kill, program)]));
    let outcome = process_that(move || {
        no_new_privileges();
        list.take_on()?;
        // What was refused by an error is told by the status of a process that ends by itself.
        let answer = checked(calls()).map_or_else(|fault| fault.raw_os_error().unwrap_or(0), |_| 0);
        // SAFETY: it ends this process.
        unsafe { libc::_exit(answer) }
    });
    let status = outcome.unwrap();
    status.signal().or_else(|| status.code().map(|code| -code))
}

fn no_new_privileges() {
    // SAFETY: no memory is handed over.
    unsafe { libc::prctl(libc::PR_SET_NO_NEW_PRIVS, 1 as c_ulong, 0 as c_ulong, 0 as c_ulong, 0 as c_ulong) };
}

const PROGRAM: &[u8] = b"/bin/true\0";
const PASSWORDS: &[u8] = b"/etc/passwd\0";

#[test]
fn a_bridge_that_runs_a_program_or_makes_a_socket_is_killed() {
    let killed = Some(libc::SIGSYS);
    // SAFETY: the calls are handed names that end with their zero octets, and no other memory.
    unsafe {
        let found = bridge_that(|| {
            let words = [PROGRAM.as_ptr(), std::ptr::null()];
            libc::syscall(libc::SYS_execve, PROGRAM.as_ptr(), words.as_ptr(), std::ptr::null::<*const u8>())
        });
        assert_eq!(found, killed);
        assert_eq!(bridge_that(|| libc::syscall(libc::SYS_socket, libc::AF_INET, libc::SOCK_STREAM, 0)), killed);
        assert_eq!(bridge_that(|| libc::syscall(libc::SYS_socket, libc::AF_PACKET, libc::SOCK_RAW, 0)), killed);
        assert_eq!(bridge_that(|| libc::syscall(libc::SYS_clone, libc::SIGCHLD, 0, 0, 0, 0)), killed);
        assert_eq!(bridge_that(|| libc::syscall(libc::SYS_ptrace, 0, 0, 0, 0)), killed);
        assert_eq!(bridge_that(|| libc::syscall(libc::SYS_setuid, 0)), killed);
    }
}

#[test]
fn a_bridge_that_opens_a_file_is_refused() {
    let refused = |error: c_int| Some(-error);
    // SAFETY: the calls are handed names that end with their zero octets, and no other memory.
    unsafe {
        for flags in [libc::O_RDONLY, libc::O_WRONLY | libc::O_CREAT] {
            let name = PASSWORDS.as_ptr() as usize;
            let found = bridge_that(move || libc::syscall(libc::SYS_openat, libc::AT_FDCWD, name, flags, 0o600));
            assert_eq!(found, refused(libc::EACCES));
        }
        let found = bridge_that(|| libc::syscall(libc::SYS_ioctl, 0, libc::TIOCSTI, b"x".as_ptr()));
        assert_eq!(found, refused(libc::EPERM));
        let found = bridge_that(|| {
            let (all, one) = (libc::PROT_READ | libc::PROT_EXEC, libc::MAP_PRIVATE | libc::MAP_ANONYMOUS);
            libc::syscall(libc::SYS_mmap, 0, 4096, all, one, -1, 0)
        });
        assert_eq!(found, refused(libc::EACCES));
        assert_eq!(bridge_that(|| libc::syscall(libc::SYS_getpid)), Some(0));
    }
}

/// What is handed over with an address could go by any interface, and what is sent as a message could carry descriptors.
/// The other error is of a descriptor that is no socket.
#[test]
fn a_bridge_that_names_where_it_sends_is_refused_and_one_that_sends_messages_is_killed() {
    for (address, found) in [(0u64, libc::ENOTSOCK), (4, libc::EPERM), (1 << 40, libc::EPERM)] {
        // SAFETY: the kernel reads one octet of the frame; no address stands where one is named, and none is read.
        let sends = move || unsafe { libc::syscall(libc::SYS_sendto, 0, b"x".as_ptr(), 1, 0, address, 20) };
        assert_eq!(bridge_that(sends), Some(-found), "{address}");
    }
    // SAFETY: no memory is handed over.
    unsafe {
        assert_eq!(bridge_that(|| libc::syscall(libc::SYS_sendmsg, 0, 0, 0)), Some(libc::SIGSYS));
        assert_eq!(bridge_that(|| libc::syscall(libc::SYS_sendmmsg, 0, 0, 0, 0)), Some(libc::SIGSYS));
    }
}

/// What libraries do seldom ends no bridge: if the allocator makes its ninth arena, and if one panics that tells
/// the frames of its stack.
#[test]
fn what_libraries_do_seldom_ends_no_bridge() {
    // SAFETY: each call is handed as much room as it says.
    unsafe {
        let asks = || {
            let mut processors = [0u64; 16];
            libc::syscall(libc::SYS_sched_getaffinity, 0, 128, processors.as_mut_ptr()).min(0)
        };
        assert_eq!(bridge_that(asks), Some(0));
        let names = || libc::syscall(libc::SYS_getcwd, [0u8; 64].as_mut_ptr(), 64);
        assert_eq!(bridge_that(names), Some(-libc::EACCES));
    }
}

/// It may end its program, and send a signal to itself, as one that aborts does.
#[test]
fn a_bridge_that_ends_another_process_is_refused() {
    let mut program = Command::new("/bin/sleep").arg("60").spawn().unwrap();
    let mut other = Command::new("/bin/sleep").arg("60").spawn().unwrap();
    let (its, others) = (program.id(), other.id());
    // SAFETY: no memory is handed over.
    unsafe {
        let ends = |process: u32| move || libc::syscall(libc::SYS_kill, process, libc::SIGTERM);
        assert_eq!(bridge_with(its, ends(others)), Some(-libc::EPERM));
        assert_eq!(bridge_with(its, || libc::syscall(libc::SYS_kill, -1, 0)), Some(-libc::EPERM));
        assert_eq!(bridge_with(its, ends(its)), Some(0));
        let signals = |process: u32| move || libc::syscall(libc::SYS_tgkill, process, process, 0);
        assert_eq!(bridge_that(signals(others)), Some(-libc::EPERM));
        let itself = || libc::syscall(libc::SYS_tgkill, libc::getpid(), libc::getpid(), 0);
        assert_eq!(bridge_that(itself), Some(0));
        assert_eq!(program_that(ROOM, signals(others)), libc::EPERM);
        assert_eq!(program_that(ROOM, itself), 0);
    }
    assert_eq!(other.try_wait().unwrap(), None);
    other.kill().unwrap();
    assert_eq!((program.wait().unwrap().signal(), other.wait().unwrap().signal()), (Some(15), Some(9)));
}

#[test]
fn a_bridge_has_no_signals_sent_by_a_descriptor() {
    // Of <linux/fcntl.h>, and not in the crate libc yet.
    const F_SETSIG: c_int = 10;
    for (what, found) in [(libc::F_GETFL, 0), (libc::F_SETOWN, libc::EPERM), (F_SETSIG, libc::EPERM)] {
        // SAFETY: no memory is handed over. What is allowed answers the flags of standard input, which are no error.
        let asks = move || unsafe { libc::syscall(libc::SYS_fcntl, 0, what, 0) };
        assert_eq!(bridge_that(asks), Some(-found));
    }
}

/// The errors are of a descriptor that is no socket.
#[test]
fn a_bridge_asks_how_an_interface_is() {
    // SAFETY: no memory is handed over.
    unsafe {
        let found = bridge_that(|| libc::syscall(libc::SYS_getsockname, 0, 0, 0));
        assert_eq!(found, Some(-libc::ENOTSOCK));
        for what in crate::os::link::ASKED {
            assert_eq!(bridge_that(move || libc::syscall(libc::SYS_ioctl, 0, what, 0)), Some(-libc::ENOTTY));
        }
    }
}

/// What becomes of a process within the program's bounds that makes a call: the signal that ended it, or the error.
fn program_that(memory: u64, calls: impl Fn() -> c_long + Send + Sync + 'static) -> i32 {
    let bounds = Bounds::of("/bin/true", "/etc/hostname", memory).unwrap();
    let outcome = process_that(move || {
        bounds.take_on()?;
        let answer = checked(calls()).map_or_else(|fault| fault.raw_os_error().unwrap_or(0), |_| 0);
        // SAFETY: it ends this process.
        unsafe { libc::_exit(answer) }
    });
    let status = outcome.unwrap();
    status.signal().or_else(|| status.code()).unwrap()
}

fn opened(name: &'static [u8], flags: c_int) -> i32 {
    // SAFETY: the name ends with its zero octet.
    program_that(ROOM, move || unsafe { libc::syscall(libc::SYS_openat, libc::AT_FDCWD, name.as_ptr(), flags, 0o600) })
}

#[test]
fn a_program_reads_its_configuration_and_no_other_file() {
    assert_eq!(opened(b"/etc/hostname\0", libc::O_RDONLY), 0);
    assert_eq!(opened(b"/etc/passwd\0", libc::O_RDONLY), libc::EACCES);
    assert_eq!(opened(b"/proc/self/cmdline\0", libc::O_RDONLY), 0);
    assert_eq!(opened(b"/proc/1/cmdline\0", libc::O_RDONLY), libc::EACCES);
    assert_eq!(opened(b"/proc/self/root/etc/passwd\0", libc::O_RDONLY), libc::EACCES);
    assert_eq!(opened(b"/proc/self/mem\0", libc::O_RDWR), libc::EACCES);
    assert_eq!(opened(b"/\0", libc::O_RDONLY | libc::O_DIRECTORY), libc::EACCES);
    assert_eq!(opened(b"/etc/hostname\0", libc::O_WRONLY), libc::EACCES);
    assert_eq!(opened(b"/tmp/made-by-a-program\0", libc::O_WRONLY | libc::O_CREAT), libc::EACCES);
    assert!(!Path::new("/tmp/made-by-a-program").exists());
}

#[test]
fn a_program_that_makes_a_socket_or_begins_a_process_is_killed() {
    // SAFETY: no memory is handed over.
    unsafe {
        for family in [libc::AF_UNIX, libc::AF_INET, libc::AF_PACKET, libc::AF_NETLINK] {
            let found = program_that(ROOM, move || libc::syscall(libc::SYS_socket, family, libc::SOCK_STREAM, 0));
            assert_eq!(found, libc::SIGSYS);
        }
        assert_eq!(program_that(ROOM, || libc::syscall(libc::SYS_clone, libc::SIGCHLD, 0, 0, 0, 0)), libc::SIGSYS);
        assert_eq!(program_that(ROOM, || libc::syscall(libc::SYS_clone3, 0, 0)), libc::ENOSYS);
        assert_eq!(program_that(ROOM, || libc::syscall(libc::SYS_kill, 1, 0)), libc::SIGSYS);
        assert_eq!(program_that(ROOM, || libc::syscall(libc::SYS_ptrace, 0, 0, 0, 0)), libc::SIGSYS);
    }
}

#[test]
fn a_program_runs_itself_alone() {
    let run = |name: &'static [u8]| {
        // SAFETY: the name ends with its zero octet, and the list of words with a null.
        program_that(ROOM, move || unsafe {
            let words = [name.as_ptr(), std::ptr::null()];
            libc::syscall(libc::SYS_execve, name.as_ptr(), words.as_ptr(), std::ptr::null::<*const u8>())
        })
    };
    assert_eq!(run(b"/bin/true\0"), 0);
    assert_eq!(run(b"/bin/false\0"), libc::EACCES);
    assert_eq!(run(b"/bin/sh\0"), libc::EACCES);
}

/// Want of memory is an answer.
#[test]
fn a_program_has_so_much_address_space() {
    let asks = |octets: usize| {
        move || {
            let (way, kind) = (libc::PROT_READ | libc::PROT_WRITE, libc::MAP_PRIVATE | libc::MAP_ANONYMOUS);
            // SAFETY: what is mapped is nobody's.
            unsafe { libc::syscall(libc::SYS_mmap, 0, octets, way, kind, -1, 0) }
        }
    };
    assert_eq!(program_that(1 << 34, asks(1 << 33)), 0);
    assert_eq!(program_that(ROOM, asks(1 << 33)), libc::ENOMEM);
}

#[test]
fn capabilities_are_given_up() {
    let gives_up = || give_up_capabilities().map_err(|_| io::Error::from_raw_os_error(libc::EPERM));
    assert!(process_that(gives_up).unwrap().success());
    let mut command = Command::new("/bin/cat");
    // SAFETY: nothing is allocated if nothing fails.
    unsafe { command.pre_exec(gives_up) };
    let output = command.arg("/proc/self/status").output().unwrap();
    let status = String::from_utf8(output.stdout).unwrap();
    for set in ["CapInh", "CapPrm", "CapEff", "CapAmb"] {
        assert!(status.contains(&format!("{set}:\t0000000000000000")), "{set}: {status}");
    }
    assert!(status.contains("NoNewPrivs:\t1"), "{status}");
}

#[test]
fn a_script_has_another_that_loads_it() {
    let path = std::env::temp_dir().join(format!("script-{}", std::process::id()));
    std::fs::write(&path, "#!/bin/sh\n").unwrap();
    assert!(is_linked(&path).unwrap());
    std::fs::remove_file(path).unwrap();
    assert!(is_linked("/bin/true".as_ref()).unwrap());
}

/// A thread that writes still does once its process keeps to the list, and it keeps to the list too.
#[test]
fn a_thread_that_writes_keeps_to_the_calls_of_the_bridge() {
    let process = |is_allowed: bool| {
        process_that(move || {
            let (near, mut far) = UnixStream::pair()?;
            let mut to = near;
            let writer = BackgroundWriter::start(1 << 20, move |piece| {
                // SAFETY: no memory is handed over.
                let _ =
                    is_allowed || unsafe { libc::syscall(libc::SYS_socket, libc::AF_INET, libc::SOCK_STREAM, 0) } < 0;
                to.write_all(&[piece, &vec![7; 1 << 20]].concat()).unwrap();
            })?;
            no_new_privileges();
            Calls::of(of_bridge()).take_on()?;
            assert_eq!(writer.push(vec![7; 1 << 16]), Ok(()));
            let mut octets = vec![0; (1 << 16) + (1 << 20)];
            far.read_exact(&mut octets)?;
            // SAFETY: it ends this process.
            unsafe { libc::_exit(i32::from(octets.iter().any(|octet| *octet != 7))) }
        })
    };
    assert_eq!(process(true).unwrap().code(), Some(0));
    assert_eq!(process(false).unwrap().signal(), Some(libc::SIGSYS));
}

/// What is written beyond the bound is refused, and the process goes on; a bound that was there before stays.
#[test]
fn files_are_bounded_and_no_signal_ends_who_reaches_the_bound() {
    const MOST: usize = 5000;
    for (before, wanted, found) in
        [(None, Some(MOST), MOST), (Some(MOST), None, MOST), (Some(MOST), Some(2 * MOST), MOST)]
    {
        let path = std::env::temp_dir().join(format!("bounded-{}-{found}", std::process::id()));
        let file = std::fs::File::create(&path).unwrap();
        let status = process_that(move || {
            let written = [b'x'; 2 * MOST];
            before.map_or(Ok(()), |most| limit(libc::RLIMIT_FSIZE, most as u64))?;
            bound_files(wanted.map(|most| most as u64)).map_err(|_| io::Error::from_raw_os_error(libc::EPERM))?;
            let (first, then) = ((&file).write(&written), (&file).write(b"x"));
            let is_refused = then.map_or_else(|fault| fault.raw_os_error() == Some(libc::EFBIG), |_| false);
            match first {
                Ok(MOST) if is_refused => Ok(()),
                _ => Err(io::Error::from_raw_os_error(libc::EIO)),
            }
        });
        assert!(status.unwrap().success());
        assert_eq!(std::fs::metadata(&path).unwrap().len(), found as u64);
        std::fs::remove_file(path).unwrap();
    }
}
