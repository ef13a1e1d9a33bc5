//! Lists of calls of the system to which a process keeps (seccomp(2)): that of the bridge, and that of the program.
//!
//! A call that isn't listed ends the process by the signal SIGSYS. What a library may try, and does without, is
//! refused.
#![allow(unsafe_code)]
use std::io;

use libc::{c_int, c_long, c_ulong, sock_filter};

use crate::os::system_call::checked;
use processor::ARCHITECTURE;

/// What becomes of a call, by its number and perhaps one of its arguments, of which the low half is looked at.
#[derive(Debug, Clone, Copy)]
pub enum Rule {
    /// It is made.
    Allowed(c_long),
    /// It is refused with this error.
    Refused(c_long, c_int),
    /// It is made if this argument is one of these, and else refused.
    OneOf(c_long, u32, &'static [u32]),
    /// It is made if this argument has none of these bits, and else refused.
    Without(c_long, u32, u32),
    /// It is made if this argument has one of these bits; else it ends the process.
    With(c_long, u32, u32),
    /// It is made if this argument, a place in memory, is none; else refused.
    Null(c_long, u32),
    /// It is made if its first argument is the process of this number; else refused.
    OfProcess(c_long, u32),
    /// It is made if its first argument is the process that keeps to the list; else refused.
    OfItself(c_long),
}

// Of <linux/seccomp.h> and <linux/audit.h>, as far as the crate libc hasn't them everywhere.
const ALLOW: u32 = 0x7fff_0000;
const ERRNO: u32 = 0x0005_0000;
const FOR_ALL_THREADS: c_ulong = 1;
const KILL_PROCESS: u32 = 0x8000_0000;
/// From this number on calls are those of another interface of the same processor.
const OTHER_INTERFACE: u32 = 0x4000_0000;
const NUMBER_AT: u32 = 0;
const ARCHITECTURE_AT: u32 = 4;
const ARGUMENTS_AT: u32 = 16;
/// By which files are opened for writing, or made.
const WRITES: u32 = (libc::O_ACCMODE | libc::O_CREAT | libc::O_TRUNC | libc::O_APPEND | libc::O_TMPFILE) as u32
    & !(libc::O_DIRECTORY as u32);
const RUNS: u32 = libc::PROT_EXEC as u32;
const IS_THREAD: u32 = libc::CLONE_THREAD as u32;
/// Which argument of sendto(2) is the address.
const ADDRESS: u32 = 4;
const MOST_STEPS: usize = 512;
/// What the bridge asks of its descriptors by ioctl(2): how much waits to be read or sent, to wait for nothing, and the
/// name and the flags of an interface.
const ASKED: &[u32] = &[
    libc::FIONREAD as u32,
    libc::TIOCOUTQ as u32,
    libc::FIONBIO as u32,
    libc::SIOCGIFNAME as u32,
    libc::SIOCGIFFLAGS as u32,
];

/// What is of one processor: its number of <linux/audit.h>, and the older calls that it has beside those of all.
#[cfg(target_arch = "x86_64")]
mod processor {
    use super::{Rule, WRITES};

    pub const ARCHITECTURE: u32 = 0xc000_003e;
    pub const ANY: &[Rule] = &[Rule::Allowed(libc::SYS_poll), Rule::Refused(libc::SYS_access, libc::EACCES)];
    pub const OF_BRIDGE: &[Rule] = &[
        Rule::Allowed(libc::SYS_epoll_wait),
        Rule::Refused(libc::SYS_readlink, libc::EACCES),
        Rule::Refused(libc::SYS_open, libc::EACCES),
    ];
    pub const OF_PROGRAM: &[Rule] = &[
        // Where its own file is.
        Rule::Allowed(libc::SYS_readlink),
        Rule::Without(libc::SYS_open, 1, WRITES),
        Rule::Allowed(libc::SYS_arch_prctl),
        Rule::Allowed(libc::SYS_stat),
    ];
}
#[cfg(target_arch = "aarch64")]
mod processor {
    use super::Rule;

    pub const ARCHITECTURE: u32 = 0xc000_00b7;
    pub const ANY: &[Rule] = &[];
    pub const OF_BRIDGE: &[Rule] = &[];
    pub const OF_PROGRAM: &[Rule] = &[];
}

/// What any program needs that has begun: its memory, its end, its signals and the time.
const ANY: &[Rule] = &[
    Rule::Allowed(libc::SYS_read),
    Rule::Allowed(libc::SYS_write),
    Rule::Allowed(libc::SYS_writev),
    Rule::Allowed(libc::SYS_close),
    Rule::Allowed(libc::SYS_munmap),
    Rule::Allowed(libc::SYS_mremap),
    Rule::Allowed(libc::SYS_brk),
    Rule::Allowed(libc::SYS_madvise),
    Rule::Allowed(libc::SYS_futex),
    Rule::Allowed(libc::SYS_getrandom),
    Rule::Allowed(libc::SYS_clock_gettime),
    Rule::Allowed(libc::SYS_clock_nanosleep),
    Rule::Allowed(libc::SYS_nanosleep),
    Rule::Allowed(libc::SYS_gettimeofday),
    Rule::Allowed(libc::SYS_sched_yield),
    Rule::Allowed(libc::SYS_rt_sigaction),
    Rule::Allowed(libc::SYS_rt_sigprocmask),
    Rule::Allowed(libc::SYS_rt_sigreturn),
    Rule::Allowed(libc::SYS_sigaltstack),
    Rule::Allowed(libc::SYS_restart_syscall),
    Rule::Allowed(libc::SYS_exit),
    Rule::Allowed(libc::SYS_exit_group),
    Rule::Allowed(libc::SYS_getpid),
    Rule::Allowed(libc::SYS_gettid),
    Rule::OfItself(libc::SYS_tgkill),
    Rule::Allowed(libc::SYS_lseek),
    Rule::Allowed(libc::SYS_fstat),
    Rule::Allowed(libc::SYS_ppoll),
    // The allocator asks how many processors there are before it makes many arenas.
    Rule::Allowed(libc::SYS_sched_getaffinity),
    Rule::Refused(libc::SYS_faccessat, libc::EACCES),
    // A program that panics tells the frames of its stack by it, if the environment asks for them.
    Rule::Refused(libc::SYS_getcwd, libc::EACCES),
];

/// What the bridge asks by fcntl(2): to copy a descriptor, and how one is waited for and handed on. To whom the kernel
/// sends a signal for one it doesn't say.
const DESCRIPTORS: &[u32] = &[
    libc::F_DUPFD_CLOEXEC as u32,
    libc::F_GETFD as u32,
    libc::F_SETFD as u32,
    libc::F_GETFL as u32,
    libc::F_SETFL as u32,
];

/// The bridge, beside what any program needs.
const OF_BRIDGE: &[Rule] = &[
    Rule::Allowed(libc::SYS_epoll_pwait),
    Rule::Allowed(libc::SYS_recvmmsg),
    Rule::Null(libc::SYS_sendto, ADDRESS),
    Rule::OneOf(libc::SYS_ioctl, 1, ASKED),
    Rule::Allowed(libc::SYS_epoll_ctl),
    Rule::Allowed(libc::SYS_timerfd_settime),
    Rule::Allowed(libc::SYS_recvmsg),
    Rule::Allowed(libc::SYS_recvfrom),
    Rule::Allowed(libc::SYS_getsockopt),
    Rule::Allowed(libc::SYS_getsockname),
    // Filters of its own sockets.
    Rule::OneOf(libc::SYS_setsockopt, 2, &[libc::SO_ATTACH_FILTER as u32]),
    Rule::Allowed(libc::SYS_accept4),
    Rule::OneOf(libc::SYS_fcntl, 1, DESCRIPTORS),
    Rule::Allowed(libc::SYS_ftruncate),
    Rule::Allowed(libc::SYS_wait4),
    Rule::Allowed(libc::SYS_waitid),
    Rule::Without(libc::SYS_mmap, 2, RUNS),
    Rule::Without(libc::SYS_mprotect, 2, RUNS),
    Rule::Refused(libc::SYS_openat, libc::EACCES),
    Rule::Refused(libc::SYS_statx, libc::EACCES),
    Rule::Refused(libc::SYS_newfstatat, libc::EACCES),
    Rule::Refused(libc::SYS_readlinkat, libc::EACCES),
];

/// The program, beside what any one needs.
const OF_PROGRAM: &[Rule] = &[
    Rule::Allowed(libc::SYS_readv),
    Rule::Allowed(libc::SYS_pread64),
    Rule::Allowed(libc::SYS_mmap),
    Rule::Allowed(libc::SYS_mprotect),
    Rule::Allowed(libc::SYS_statx),
    Rule::Allowed(libc::SYS_newfstatat),
    Rule::Allowed(libc::SYS_set_tid_address),
    Rule::Allowed(libc::SYS_set_robust_list),
    Rule::Allowed(libc::SYS_rseq),
    Rule::Allowed(libc::SYS_prlimit64),
    Rule::Allowed(libc::SYS_uname),
    // Where its own file is.
    Rule::Allowed(libc::SYS_readlinkat),
    // Landlock says which files: itself and its configuration.
    Rule::Allowed(libc::SYS_execve),
    Rule::Without(libc::SYS_openat, 2, WRITES),
    Rule::With(libc::SYS_clone, 0, IS_THREAD),
    // The library begins threads by `clone` then, whose words can be looked at.
    Rule::Refused(libc::SYS_clone3, libc::ENOSYS),
    Rule::Refused(libc::SYS_ioctl, libc::ENOTTY),
    Rule::Refused(libc::SYS_fcntl, libc::EPERM),
];

/// What the bridge does once it serves: it waits, reads and sends. It may end the program besides (`Rule::OfProcess`).
/// It sends on a socket without an address, so by its interface alone, and sends no descriptors.
pub fn of_bridge<'a>() -> impl Iterator<Item = &'a Rule> {
    processor::OF_BRIDGE.iter().chain(OF_BRIDGE).chain(ANY).chain(processor::ANY)
}

/// What the program does: it is loaded, opens its configuration, and reads and writes. It may have threads.
pub fn of_program<'a>() -> impl Iterator<Item = &'a Rule> {
    OF_PROGRAM.iter().chain(processor::OF_PROGRAM).chain(ANY).chain(processor::ANY)
}

/// A list of calls, as the kernel takes it.
#[derive(Debug)]
pub struct Calls {
    steps: Vec<sock_filter>,
    /// The steps that compare with the number of the process that keeps to the list, which isn't known before.
    of_itself: Vec<usize>,
}

impl Calls {
    /// Of these rules. What no rule names ends the process.
    pub fn of<'a>(rules: impl Iterator<Item = &'a Rule>) -> Calls {
        let mut calls = Calls { steps: Vec::new(), of_itself: Vec::new() };
        calls.load(ARCHITECTURE_AT);
        calls.unless(libc::BPF_JEQ, ARCHITECTURE, 0, 1);
        calls.answer(KILL_PROCESS);
        calls.load(NUMBER_AT);
        calls.unless(libc::BPF_JGE, OTHER_INTERFACE, 1, 0);
        calls.answer(KILL_PROCESS);
        rules.for_each(|rule| calls.add(*rule));
        calls.answer(KILL_PROCESS);
        assert!(calls.steps.len() <= MOST_STEPS, "the lists of calls are fixed");
        calls
    }

    fn load(&mut self, place: u32) {
        self.steps.push(sock_filter {
            code: (libc::BPF_LD | libc::BPF_W | libc::BPF_ABS) as u16,
            jt: 0,
            jf: 0,
            k: place,
        });
    }

    /// If the comparison holds, goes on behind `unless_not` steps, else behind `otherwise`.
    fn unless(&mut self, comparison: u32, value: u32, otherwise: u8, then: u8) {
        let code = (libc::BPF_JMP | comparison | libc::BPF_K) as u16;
        self.steps.push(sock_filter { code, jt: then, jf: otherwise, k: value });
    }

    fn answer(&mut self, verdict: u32) {
        self.steps.push(sock_filter { code: (libc::BPF_RET | libc::BPF_K) as u16, jt: 0, jf: 0, k: verdict });
    }

    /// The call of this number has so many steps; other calls pass them over.
    fn of_call(&mut self, number: c_long, steps: usize) {
        self.unless(libc::BPF_JEQ, number as u32, steps as u8, 0);
    }

    fn add(&mut self, rule: Rule) {
        match rule {
            Rule::Allowed(number) => {
                self.of_call(number, 1);
                self.answer(ALLOW);
            }
            Rule::Refused(number, error) => {
                self.of_call(number, 1);
                self.answer(ERRNO | error as u32);
            }
            Rule::OneOf(number, argument, values) => {
                self.of_call(number, 2 + 2 * values.len());
                self.load(ARGUMENTS_AT + 8 * argument);
                for value in values {
                    self.unless(libc::BPF_JEQ, *value, 1, 0);
                    self.answer(ALLOW);
                }
                self.answer(ERRNO | libc::EPERM as u32);
            }
            Rule::Without(number, argument, bits) => {
                self.looks_at_bits(number, argument, bits, ERRNO | libc::EACCES as u32, ALLOW);
            }
            Rule::With(number, argument, bits) => self.looks_at_bits(number, argument, bits, ALLOW, KILL_PROCESS),
            Rule::Null(number, argument) => {
                self.of_call(number, 6);
                for half in [0, 4] {
                    self.load(ARGUMENTS_AT + 8 * argument + half);
                    self.unless(libc::BPF_JEQ, 0, if half == 0 { 3 } else { 1 }, 0);
                }
                self.answer(ALLOW);
                self.answer(ERRNO | libc::EPERM as u32);
            }
            Rule::OfProcess(number, process) => self.looks_at_process(number, process),
            Rule::OfItself(number) => {
                // Behind the number of the call and the loading of the argument.
                self.of_itself.push(self.steps.len() + 2);
                self.looks_at_process(number, 0);
            }
        }
    }

    fn looks_at_process(&mut self, number: c_long, process: u32) {
        self.of_call(number, 4);
        self.load(ARGUMENTS_AT);
        self.unless(libc::BPF_JEQ, process, 1, 0);
        self.answer(ALLOW);
        self.answer(ERRNO | libc::EPERM as u32);
    }

    /// The verdict if one of the bits is set, and if none is.
    fn looks_at_bits(&mut self, number: c_long, argument: u32, bits: u32, with: u32, without: u32) {
        self.of_call(number, 4);
        self.load(ARGUMENTS_AT + 8 * argument);
        self.unless(libc::BPF_JSET, bits, 1, 0);
        self.answer(with);
        self.answer(without);
    }

    /// All threads of this process, and what it starts, keep to the list from now on. It allocates nothing.
    pub fn take_on(&self) -> io::Result<()> {
        let mut steps = [sock_filter { code: 0, jt: 0, jf: 0, k: 0 }; MOST_STEPS];
        steps[..self.steps.len()].copy_from_slice(&self.steps);
        // SAFETY: no memory is handed over.
        let itself = unsafe { libc::getpid() } as u32;
        self.of_itself.iter().for_each(|place| steps[*place].k = itself);
        let program = libc::sock_fprog { len: self.steps.len() as u16, filter: steps.as_mut_ptr() };
        // SAFETY: the kernel reads as many steps as the list has.
        let answer = checked(unsafe {
            libc::syscall(libc::SYS_seccomp, libc::SECCOMP_SET_MODE_FILTER, FOR_ALL_THREADS, &program)
        })?;
        // Else it is the number of a thread that can't.
        if answer == 0 {
            Ok(())
        } else {
            Err(io::Error::from_raw_os_error(libc::EBUSY))
        }
    }
}
