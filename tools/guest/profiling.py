"""Where the machine works: samples that `perf` takes at even steps of the guest's clock, told apart by the process that
ran, and by what it did: work of its own, or which work of the kernel."""
import os
import re
import select
import signal
import subprocess
from collections import Counter

from stations import Failed, read, write

# Samples a second: no step of them falls together with what begins each millisecond, or each beacon interval.
A_SECOND = 1997
SYMBOLS = "/proc/kallsyms"
# How much of the processor's time samples may take: with 0 the kernel never takes fewer of them where they take long.
MOST_TIME = "/proc/sys/kernel/perf_cpu_time_max_percent"
SECONDS_TO_BEGIN = 60
BUFFER = "2048"  # pages: so that `perf` has nothing to write meanwhile
SEPARATOR = "|"
ITSELF, REST, IDLE = "itself", "the rest", "idle"
RADIO, DEVICES = "mac80211 and the simulated radios", "Ethernet, bridges, queues of devices"
PACKETS = "packet sockets, messages, filters"
# The kernel's modules by what they do.
MODULES = {"[mac80211]": RADIO, "[mac80211_hwsim]": RADIO, "[cfg80211]": RADIO, "[af_packet]": PACKETS,
           "[veth]": DEVICES, "[bridge]": DEVICES, "[llc]": DEVICES, "[stp]": DEVICES}
# Its other functions by what they do, the first that fits.
GROUPS = tuple((what, re.compile(pattern)) for what, pattern in (
    ("pipes", r"pipe"),
    (PACKETS, r"^(packet_|tpacket_|run_filter|sk_filter|bpf|__bpf|sock_recvmsg|sock_sendmsg|put_cmsg|move_addr)|recvmmsg|"
              r"sendmmsg|sys_recvmsg|sys_sendmsg|msghdr|datagram|iovec"),
    ("waiting and timers", r"epoll|^ep_|eventpoll|hrtimer|timer|poll|select|nanosleep|ktime|clock"),
    ("switches between processes",
     r"sched|switch|queue_task|enqueue|dequeue|update_curr|update_load|pick_next|wake|ttwu|select_task|entity|"
     r"put_prev|set_next|cfs_|_rq|fpu|load_avg|cpuacct|finish_task"),
    ("entry and exit of system calls", r"^(entry_|syscall_|do_syscall|exit_to_user|__x64_sys|__do_sys|__sys_|sys_|fd)"),
    ("copies and check sums", r"copy|memcpy|memmove|memset|movs|csum|clear_page|iov_iter"),
    ("security modules and checks of copies", r"selinux|avc_|security_|check_object_size|check_stack_object|inode_"),
    ("IP, UDP and TCP", r"^(ip_|__ip_|ipv4_|udp|__udp|tcp|__tcp|inet|icmp|raw_|fib_|nf_|sock|__sock|sk_|__sk_|"
                        r"lock_sock|release_sock)"),
    (DEVICES, r"^(dev_|__dev|netif|__netif|net_|eth_|neigh|napi|__napi|process_backlog|br_|validate_xmit|pfifo|qdisc|"
              r"__qdisc|fq_|sch_|enqueue_to_backlog)"),
    ("buffers", r"skb|kmem_cache|kmalloc|kfree|slab|page|alloc|free"),
    ("locks, RCU, interrupts let in again", r"spin_|rcu_|mutex|lock$|_lock|_unlock|local_bh|irq"),
))
WORKLESS = re.compile(r"idle|halt|acpi_|mwait|pv_native_safe")


class Samples:
    """Samples of all of the machine, from now on; the report of `perf` on them is kept."""

    def __init__(self, path: str, report: str) -> None:
        self.path, self.report = path, report
        write(MOST_TIME, "0")
        (asked, asks), (answered, writes) = os.pipe(), os.pipe()
        self.ends = asked, asks, answered, writes
        words = ["perf", "record", "-q", "-a", "-e", "cpu-clock", "-F", str(A_SECOND), "-m", BUFFER, "-o", path,
                 "--delay", "-1", "--control", f"fd:{asked},{writes}"]
        self.process = subprocess.Popen(words, stdin=subprocess.DEVNULL, stdout=subprocess.DEVNULL,
                                        stderr=subprocess.PIPE, pass_fds=(asked, writes))
        # It takes them from its answer on; before, it looks at which processes there are.
        os.write(asks, b"enable\n")
        if not select.select([answered], [], [], SECONDS_TO_BEGIN)[0]:
            self.process.kill()
            raise Failed(f"perf: {self.process.communicate()[1].decode()}")

    def end(self) -> Counter:
        """Ends them, and counts by process and by what it did."""
        self.process.send_signal(signal.SIGINT)
        told = self.process.communicate()[1].decode()
        for end in self.ends:
            os.close(end)
        words = ["perf", "report", "-i", self.path, "--stdio", "-q", "-n", "-t", SEPARATOR, "--sort", "comm,dso,sym"]
        done = subprocess.run(words, capture_output=True, text=True, stdin=subprocess.DEVNULL, check=False)
        if done.returncode != 0:
            raise Failed(f"perf: {told} {done.stderr}")
        write(self.report, done.stdout)
        return by_process(done.stdout, modules_of(read(SYMBOLS)))


def modules_of(symbols: str) -> dict[str, str]:
    """The modules of the kernel's functions, by their names; of those that are the kernel's own too, none."""
    lines = [line.split() for line in symbols.splitlines()]
    own = {words[2] for words in lines if len(words) == 3}
    return {words[2]: words[3] for words in lines if len(words) == 4 and words[2] not in own}


def by_process(report: str, modules: dict[str, str]) -> Counter:
    """Samples of a report of `perf`, by process and by what it did; those in which nothing was done are left out, and
    those of `perf` itself."""
    found: Counter = Counter()
    for line in report.splitlines():
        fields = [field.strip() for field in line.split(SEPARATOR)]
        if len(fields) == 5 and fields[1].isdigit():
            _, number, command, _, symbol = fields
            what = work_of(symbol, modules)
            if what != IDLE and command != "perf":
                found[command, what] += int(number)
    return found


def work_of(symbol: str, modules: dict[str, str]) -> str:
    """What is done by a function, whose name stands behind whether it is the kernel's."""
    level, _, name = symbol.partition(" ")
    if level != "[k]":
        return ITSELF
    if modules.get(name) in MODULES:
        return MODULES[modules[name]]
    if WORKLESS.search(name):
        return IDLE
    return next((what for what, pattern in GROUPS if pattern.search(name)), REST)
