"""What is written by hand of the arguments of calls, for tools/call_arguments: where headers do not have it, or where somebody has
to choose. All of it is of Linux 6.12 on x86-64."""
from typing import NamedTuple

# ---- what Linux reads

# The widths of types on x86-64, by the letters of the table: m 16 bits of a mode, i an int, u 32 bits without a sign, l 64 bits.
TYPES = {
    "i": ("int", "pid_t", "key_t", "clockid_t", "timer_t", "mqd_t", "key_serial_t", "s32", "__s32", "rwf_t", "int32_t",
          "enum landlock_rule_type"),
    "u": ("unsigned", "unsigned int", "uid_t", "gid_t", "u32", "__u32", "qid_t", "uint32_t"),
    "m": ("umode_t",),
    "l": ("unsigned long", "size_t", "aio_context_t", "u64", "__u64", "uint64_t", "long", "off_t", "loff_t", "s64", "__s64"),
    "p": ("cap_user_header_t", "cap_user_data_t", "__sighandler_t"),
}
# The functions of calls that are named otherwise than the call: arch/x86/entry/syscalls/syscall_64.tbl.
ENTRIES = {
    "stat": "newstat", "fstat": "newfstat", "lstat": "newlstat", "sendfile": "sendfile64", "uname": "newuname", "umount2": "umount",
}
# The calls that it gives no function, so that all arguments fail alike.
NO_FUNCTION = {
    "uselib", "_sysctl", "create_module", "get_kernel_syms", "query_module", "nfsservctl", "getpmsg", "putpmsg", "afs_syscall",
    "tuxcall", "security", "set_thread_area", "get_thread_area", "lookup_dcookie", "epoll_ctl_old", "epoll_wait_old", "vserver",
}
# The functions that include/linux/syscalls.h does not declare, and where they are defined.
DECLARED = {
    # arch/x86/kernel/sys_x86_64.c
    "mmap": "unsigned long addr, unsigned long len, unsigned long prot, unsigned long flags, unsigned long fd, unsigned long off",
    # arch/x86/kernel/signal_64.c
    "rt_sigreturn": "void",
    # arch/x86/kernel/ldt.c
    "modify_ldt": "int func, void __user *ptr, unsigned long bytecount",
    # arch/x86/kernel/process_64.c
    "arch_prctl": "int option, unsigned long arg2",
    # arch/x86/kernel/ioport.c
    "iopl": "unsigned int level",
}
# The arguments of which Linux reads less than it declares: call, place, letter.
NARROWER = [
    # kernel/fork.c: lower_32_bits(clone_flags)
    ("clone", 0, "u"),
    # mm/mmap.c: fget(unsigned int fd) in ksys_mmap_pgoff
    ("mmap", 4, "u"),
    # include/linux/mman.h: calc_vm_prot_bits takes the bits that have names, which are low ones
    ("mmap", 2, "u"),
    # fs/read_write.c: fdget_pos(unsigned int fd) and fdget(unsigned int fd) in do_readv, do_writev, do_preadv and do_pwritev
    ("readv", 0, "u"),
    ("writev", 0, "u"),
    ("preadv", 0, "u"),
    ("pwritev", 0, "u"),
    ("preadv2", 0, "u"),
    ("pwritev2", 0, "u"),
    # kernel/ptrace.c: find_get_task_by_vpid(pid_t)
    ("ptrace", 1, "i"),
]
# The names of arguments in the manual, where it has no prototype with a name for each, or only that of a function of the C library
# that takes others.
NAMED = {
    "fcntl": "fd op arg",
    "ioctl": "fd op argp",
    "ppoll": "fds nfds timeout sigmask sigsetsize",
    "prctl": "op arg2 arg3 arg4 arg5",
    "pselect6": "nfds readfds writefds exceptfds timeout sigmask",
    "rt_sigaction": "signum act oldact sigsetsize",
    "semctl": "semid semnum op arg",
    "signalfd": "fd mask sizemask",
}
# Of which argument Linux reads others for some values alone, by the manual page of the call: call, its place, theirs.
DECIDERS = [
    ("arch_prctl", 0, (1,)),
    ("clone", 0, (2, 3, 4)),
    ("epoll_ctl", 1, (3,)),
    ("fcntl", 1, (2,)),
    ("fsconfig", 1, (2, 3, 4)),
    ("futex", 1, (2, 3, 4, 5)),
    ("io_uring_register", 1, (2, 3)),
    ("ioctl", 1, (2,)),
    ("kcmp", 2, (3, 4)),
    ("keyctl", 0, (1, 2, 3, 4)),
    ("membarrier", 1, (2,)),
    ("mmap", 3, (4, 5)),
    ("mremap", 3, (4,)),
    ("msgctl", 1, (2,)),
    ("open", 1, (2,)),
    ("openat", 2, (3,)),
    ("prctl", 0, (1, 2, 3, 4)),
    ("ptrace", 0, (1, 2, 3)),
    ("quotactl", 0, (2, 3)),
    ("quotactl_fd", 1, (2, 3)),
    ("reboot", 2, (3,)),
    ("semctl", 2, (3,)),
    ("shmctl", 1, (2,)),
    ("sysfs", 0, (1, 2)),
    ("syslog", 0, (1, 2)),
    ("waitid", 0, (1,)),
]

# ---- constants

# The sets: the headers of each, which of their names are in it, and which of these are not.
SETS = {
    "ACCESS": [("fcntl.h", r"O_(RDONLY|WRONLY|RDWR|ACCMODE)", "")],
    "AF": [("sys/socket.h", r"AF_\w+", r"AF_MAX")],
    "ARCH": [("asm/prctl.h", r"ARCH_\w+", r"ARCH_XCOMP_TILE\w*")],
    "AT": [("fcntl.h", r"AT_(SYMLINK_NOFOLLOW|SYMLINK_FOLLOW|NO_AUTOMOUNT|EMPTY_PATH|STATX_FORCE_SYNC|STATX_DONT_SYNC)", "")],
    "BPF": [("linux/bpf.h", r"BPF_(MAP|PROG|OBJ|BTF|TASK|LINK|ENABLE|ITER|RAW|TOKEN)_\w+",
             r"BPF_(MAP_TYPE|PROG_TYPE|LINK_TYPE|OBJ_NAME_LEN|TASK_ITER)_?\w*|BPF_PROG_TEST_RUN|BPF_ITER_\w+")],
    "CLOCK": [("time.h", r"CLOCK_\w+", "")],
    "CLONE": [("linux/sched.h", r"CLONE_\w+", r"CLONE_(NEWTIME|CLEAR_SIGHAND|INTO_CGROUP|ARGS_\w+)")],
    "CLONE_NS": [("linux/sched.h", r"CLONE_(NEW\w+|FILES|FS|SYSVSEM|THREAD|VM|SIGHAND)", "")],
    "EPOLL": [("sys/epoll.h", r"EPOLL_CTL_\w+", "")],
    "F": [("fcntl.h", r"F_\w+", r"F_(RDLCK|WRLCK|UNLCK|EXLCK|SHLCK|OK|LOCK|ULOCK|TEST|TLOCK|SEAL_\w+|OWNER_\w+)"),
          ("linux/fcntl.h", r"F_(DUPFD_QUERY|CREATED_QUERY)", "")],
    "FADV": [("linux/fadvise.h", r"POSIX_FADV_\w+", "")],
    "FD": [("fcntl.h", r"FD_CLOEXEC", "")],
    "FMT": [("sys/stat.h", r"S_IF\w+", "")],
    "FUTEX": [("linux/futex.h", r"FUTEX_\w+", r"FUTEX_(\w+_PRIVATE|OP_\w+|WAITERS|OWNER_DIED|TID_MASK|CMD_MASK|BITSET_MATCH_ANY|"
               r"WAITV_MAX|PRIVATE_FLAG|CLOCK_REALTIME|NO_NODE|32|\w*_FD2|\d\w*)|FUTEX2_\w+")],
    "FUTEX_FLAG": [("linux/futex.h", r"FUTEX_(PRIVATE_FLAG|CLOCK_REALTIME)", "")],
    "GRND": [("linux/random.h", r"GRND_\w+", "")],
    "IOCTL": [("asm/ioctls.h", r"T[IC]\w+|FIO\w+", r"TIOC(PKT|SER|M)_\w+"),
              ("linux/fs.h", r"FIBMAP|FIGETBSZ|FIFREEZE|FITHAW|FITRIM|FICLONE|FICLONERANGE|FIDEDUPERANGE|FS_IOC_\w+|BLK[A-Z]+",
               r"BLKTRACE\w*|FS_IOC_GETFSLABEL_MAX"),
              ("linux/sockios.h", r"SIOC\w+", r"SIOCDEVPRIVATE|SIOCPROTOPRIVATE|SIOC_IOC\w+|SIOCGSTAMP\w*_OLD"),
              ("linux/perf_event.h", r"PERF_EVENT_IOC_\w+", "")],
    "IP": [("netinet/in.h", r"IP_\w+", r"IP_(DEFAULT_\w+|MAX_\w+|PMTUDISC_\w+)")],
    "IPC": [("sys/shm.h", r"IPC_(RMID|SET|STAT|INFO)|SHM_(LOCK|UNLOCK|STAT|INFO|STAT_ANY)", "")],
    "IPCKEY": [("sys/ipc.h", r"IPC_PRIVATE", "")],
    "IPPROTO": [("netinet/in.h", r"IPPROTO_\w+", r"IPPROTO_(MAX|ROUTING|FRAGMENT|ICMPV6|NONE|DSTOPTS|MH)")],
    "IPV6": [("netinet/in.h", r"IPV6_\w+", r"IPV6_(PMTUDISC|RTHDR)_\w+|IPV6_RX(HOP|DST)OPTS"),
             ("linux/in6.h", r"IPV6_(2292\w+|FLOWLABEL_MGR|FLOWINFO_SEND)", "")],
    "ITIMER": [("sys/time.h", r"ITIMER_\w+", "")],
    "KCMP": [("linux/kcmp.h", r"KCMP_\w+", "KCMP_TYPES")],
    "KEYCTL": [("linux/keyctl.h", r"KEYCTL_\w+", r"KEYCTL_(CAPS\d_\w+|SUPPORTS_\w+|MOVE_EXCL)")],
    "LEVEL": [("sys/socket.h", r"SOL_\w+", r"SOL_(IP|IPV6|ICMPV6|RAW|TCP|UDP)"),
              ("netinet/in.h", r"IPPROTO_(IP|TCP|UDP|IPV6|ICMPV6|RAW|SCTP|UDPLITE|DCCP)", ""),
              ("netinet/in.h", r"SOL_\w+", ""), ("netinet/tcp.h", r"SOL_TCP", ""), ("netinet/udp.h", r"SOL_UDP", "")],
    "LOCK": [("sys/file.h", r"LOCK_\w+", "")],
    "MADV": [("asm/mman.h", r"MADV_\w+", "")],
    "MAP": [("sys/mman.h", r"MAP_\w+", r"MAP_(FILE|TYPE|FAILED|SHARED|PRIVATE|SHARED_VALIDATE|DROPPABLE|HUGE_\w+|ABOVE4G)"),
            ("asm/mman.h", r"MAP_(ABOVE4G|UNINITIALIZED)", "")],
    "MAP_TYPE": [("sys/mman.h", r"MAP_(SHARED|PRIVATE|SHARED_VALIDATE|TYPE)", ""), ("linux/mman.h", r"MAP_DROPPABLE", "")],
    "MFD": [("linux/memfd.h", r"MFD_\w+", r"MFD_HUGE_\w+")],
    "MREMAP": [("linux/mman.h", r"MREMAP_\w+", "")],
    # MS_NOUSER is `1 << 31`, which C takes for a negative number.
    "MS": [("linux/mount.h", r"MS_\w+", r"MS_(MGC_\w+|RMT_MASK|VERBOSE|NOUSER)")],
    "MSG": [("sys/socket.h", r"MSG_\w+", "")],
    "NETLINK": [("linux/netlink.h", r"NETLINK_(ROUTE|UNUSED|USERSOCK|FIREWALL|SOCK_DIAG|NFLOG|XFRM|SELINUX|ISCSI|AUDIT|FIB_LOOKUP|"
                 r"CONNECTOR|NETFILTER|IP6_FW|DNRTMSG|KOBJECT_UEVENT|GENERIC|SCSITRANSPORT|ECRYPTFS|RDMA|CRYPTO|SMC)", "")],
    "O": [("fcntl.h", r"O_\w+", r"O_(RDONLY|WRONLY|RDWR|ACCMODE|LARGEFILE)")],
    "PER": [("sys/personality.h", r"PER_\w+", r"PER_(MASK|CLEAR_\w+|LINUX_32BIT|LINUX_FDPIC)")],
    "PER_FLAG": [("sys/personality.h", r"ADDR_(NO_RANDOMIZE|COMPAT_LAYOUT|LIMIT_32BIT|LIMIT_3GB)|UNAME26|MMAP_PAGE_ZERO|"
                  r"READ_IMPLIES_EXEC|SHORT_INODE|WHOLE_SECONDS|STICKY_TIMEOUTS|FDPIC_FUNCPTRS", "")],
    "PIPE": [("fcntl.h", r"O_(CLOEXEC|DIRECT|NONBLOCK)", ""), ("linux/watch_queue.h", "O_NOTIFICATION_PIPE", "")],
    "PKEY": [("asm/mman.h", r"PKEY_DISABLE_(ACCESS|WRITE)", "")],
    "PR": [("linux/prctl.h", r"PR_(SET|GET|CAP|CAPBSET|MCE|TASK|SVE|PAC|SME|SCHED|PPC|RISCV)\w*",
            r"PR_(PAC_AP\w+|SET_VMA_ANON_NAME|SCHED_CORE_\w+|SET_MM_\w+|CAP_AMBIENT_\w+|MCE_KILL_\w+|SPEC_\w+|SET_PTRACER_ANY|"
            r"SME_VL_\w+|SVE_VL_\w+|SVE_SET_VL_\w+|SME_SET_VL_\w+|PPC_DEXCR_\w+|RISCV_V_VSTATE_\w+|RISCV_CTX_\w+|RISCV_SCOPE_\w+)")],
    "PRIO": [("sys/resource.h", r"PRIO_(PROCESS|PGRP|USER)", "")],
    "PROT": [("asm/mman.h", r"PROT_\w+", "")],
    "PTRACE": [("linux/ptrace.h", r"PTRACE_[A-Z]+|PTRACE_(GET_SYSCALL_INFO|GET_RSEQ_CONFIGURATION|SET_SYSCALL_USER_DISPATCH_CONFIG|"
                r"GET_SYSCALL_USER_DISPATCH_CONFIG|SECCOMP_GET_FILTER|SECCOMP_GET_METADATA|GET_THREAD_AREA|SET_THREAD_AREA|"
                r"ARCH_PRCTL)", "")],
    "QCMD": [("linux/quota.h", r"Q_\w+", "")],
    "RLIMIT": [("sys/resource.h", r"RLIMIT_\w+", r"RLIMIT_NLIMITS")],
    "S": [("sys/stat.h", r"S_I[SRWX]\w+", "")],
    "SCHED": [("linux/sched.h", r"SCHED_(NORMAL|FIFO|RR|BATCH|IDLE|DEADLINE|EXT)", "")],
    "SCHED_FLAG": [("linux/sched.h", r"SCHED_RESET_ON_FORK", "")],
    "SECCOMP": [("linux/seccomp.h", r"SECCOMP_(SET_MODE|GET)_\w+", "")],
    "SHMAT": [("sys/shm.h", r"SHM_(RDONLY|RND|REMAP|EXEC)", "")],
    "SIG": [("signal.h", r"SIG[A-Z0-9]+", r"SIG(STKSZ|RTMIN|RTMAX)")],
    "SIGHOW": [("signal.h", r"SIG_(BLOCK|UNBLOCK|SETMASK)", "")],
    "SO": [("sys/socket.h", r"SO_\w+", r"SO_(TIMESTAMP|TIMESTAMPNS|TIMESTAMPING|RCVTIMEO|SNDTIMEO)_OLD")],
    "SOCK": [("sys/socket.h", r"SOCK_\w+", r"SOCK_(CLOEXEC|NONBLOCK)")],
    "SOCK_FLAG": [("sys/socket.h", r"SOCK_(CLOEXEC|NONBLOCK)", "")],
    "STATX": [("linux/stat.h", r"STATX_\w+", r"STATX_(ATTR_\w+|_RESERVED)")],
    "TCP": [("linux/tcp.h", r"TCP_\w+", r"TCP_(CM_INQ|CLOSING|MSS_\w+|MAX_\w+|ESTABLISHED|SYN_\w+|FIN_\w+|TIME_WAIT|CLOSE\w*|LAST_ACK|"
             r"LISTEN|CA_\w+|REPAIR_\w+|COOKIE_\w+|S_DATA_\w+|NO_QUEUE|\w+_QUEUE|QUEUES_NR|MD5SIG_\w+|RECEIVE_ZEROCOPY_\w+|"
             r"FLAG_\w+|NLA_\w+|DATA_\w+|RESERVED_\w+|AO_KEYF_\w+|AO_MAXKEYLEN)")],
    "UDP": [("netinet/udp.h", r"UDP_\w+", r"UDP_ENCAP_\w+")],
    "UMOUNT": [("sys/mount.h", r"MNT_(FORCE|DETACH|EXPIRE)|UMOUNT_NOFOLLOW", "")],
}
# Names that stand behind another one of the same number in their set: they are read, and never written.
SECOND = {
    "AF_FILE", "AF_LOCAL", "AF_ROUTE", "F_GETLK64", "F_SETLK64", "F_SETLKW64", "IPPROTO_HOPOPTS", "IPV6_JOIN_GROUP",
    "IPV6_LEAVE_GROUP", "IPV6_ORIGDSTADDR", "IP_ORIGDSTADDR", "IP_PMTUDISC", "IP_RECVRETOPTS", "MAP_ANON", "MSG_TRYHARD",
    "O_FSYNC", "O_NDELAY", "O_RSYNC", "RLIMIT_OFILE", "SIGCLD", "SIGIOT", "SIGPOLL", "SOL_ICMPV6", "SOL_IP", "SOL_IPV6",
    "SOL_RAW", "SOL_TCP", "SOL_UDP", "SO_DETACH_BPF", "SO_GET_FILTER", "S_IREAD", "S_IWRITE", "TIOCINQ",
}
# Names that are in no set, since another one is written there or none at all: they are read.
READ = [
    ("fcntl.h", r"AT_(FDCWD|REMOVEDIR|EACCESS|RECURSIVE)|F_SEAL_\w+"),
    ("linux/futex.h", r"FUTEX_\w+_PRIVATE"),
    ("linux/prctl.h", r"PR_SET_VMA_ANON_NAME"),
    ("linux/seccomp.h", r"SECCOMP_(MODE|FILTER_FLAG)_\w+"),
    ("linux/sched.h", r"CLONE_NEWTIME"),
    ("netinet/in.h", r"IPPROTO_(ROUTING|FRAGMENT|ICMPV6|NONE|DSTOPTS|MH)"),
    ("sys/socket.h", r"PF_\w+", "PF_MAX"),
]


class Form(NamedTuple):
    """How numbers are named: by one constant of a set each, or by some of its bits, with a number of another set in a mask."""

    values: str
    has_bits: bool
    mask: int = 0
    field: str = ""


def one(values):
    return Form(values, False)


def bits(values, mask=0, field=""):
    return Form(values, True, mask, field)


MODE = bits("S", 0xF000, "FMT")
OPENING = bits("O", 0x3, "ACCESS")
SOCKET = bits("SOCK_FLAG", 0xF, "SOCK")
ALWAYS = "Always"


def where(place, number):
    """Where the argument at a place is a number."""
    return f"Is({place}, {number})"


def options(call):
    """The options of each level: SOL_SOCKET, IPPROTO_IP, IPPROTO_IPV6, IPPROTO_TCP and IPPROTO_UDP."""
    return [(call, 2, where(1, level), one(name)) for level, name in ((1, "SO"), (0, "IP"), (41, "IPV6"), (6, "TCP"), (17, "UDP"))]


# How the numbers of arguments are named: call, place, where, form. The first row that holds counts.
FORMS = [
    ("accept4", 3, ALWAYS, bits("SOCK_FLAG")),
    ("arch_prctl", 0, ALWAYS, one("ARCH")),
    ("bpf", 0, ALWAYS, one("BPF")),
    ("chmod", 1, ALWAYS, bits("S")),
    ("clock_getres", 0, ALWAYS, one("CLOCK")),
    ("clock_gettime", 0, ALWAYS, one("CLOCK")),
    ("clock_nanosleep", 0, ALWAYS, one("CLOCK")),
    ("clock_settime", 0, ALWAYS, one("CLOCK")),
    ("clone", 0, ALWAYS, bits("CLONE", 0xFF, "SIG")),
    ("creat", 1, ALWAYS, bits("S")),
    ("epoll_ctl", 1, ALWAYS, one("EPOLL")),
    ("fadvise64", 3, ALWAYS, one("FADV")),
    ("fchmod", 1, ALWAYS, bits("S")),
    ("fchmodat", 2, ALWAYS, bits("S")),
    ("fchmodat2", 2, ALWAYS, bits("S")),
    ("fcntl", 1, ALWAYS, one("F")),
    # F_SETFD and F_SETFL
    ("fcntl", 2, where(1, 2), bits("FD")),
    ("fcntl", 2, where(1, 4), OPENING),
    ("flock", 1, ALWAYS, bits("LOCK")),
    ("futex", 1, ALWAYS, bits("FUTEX_FLAG", 0x7F, "FUTEX")),
    ("getpriority", 0, ALWAYS, one("PRIO")),
    ("getrandom", 2, ALWAYS, bits("GRND")),
    ("getrlimit", 0, ALWAYS, one("RLIMIT")),
    ("getsockopt", 1, ALWAYS, one("LEVEL")),
    *options("getsockopt"),
    ("ioctl", 1, ALWAYS, one("IOCTL")),
    ("kcmp", 2, ALWAYS, one("KCMP")),
    ("keyctl", 0, ALWAYS, one("KEYCTL")),
    ("kill", 1, ALWAYS, one("SIG")),
    ("madvise", 2, ALWAYS, one("MADV")),
    ("memfd_create", 1, ALWAYS, bits("MFD")),
    ("mkdir", 1, ALWAYS, bits("S")),
    ("mkdirat", 2, ALWAYS, bits("S")),
    ("mknod", 1, ALWAYS, MODE),
    ("mknodat", 2, ALWAYS, MODE),
    ("mmap", 2, ALWAYS, bits("PROT")),
    ("mmap", 3, ALWAYS, bits("MAP", 0xF, "MAP_TYPE")),
    ("mount", 3, ALWAYS, bits("MS")),
    ("mprotect", 2, ALWAYS, bits("PROT")),
    ("mremap", 3, ALWAYS, bits("MREMAP")),
    ("newfstatat", 3, ALWAYS, bits("AT")),
    ("open", 1, ALWAYS, OPENING),
    ("open", 2, ALWAYS, MODE),
    ("openat", 2, ALWAYS, OPENING),
    ("openat", 3, ALWAYS, MODE),
    ("personality", 0, ALWAYS, bits("PER_FLAG", 0xFF, "PER")),
    ("pipe2", 1, ALWAYS, bits("PIPE")),
    ("pkey_alloc", 1, ALWAYS, bits("PKEY")),
    ("pkey_mprotect", 2, ALWAYS, bits("PROT")),
    ("prctl", 0, ALWAYS, one("PR")),
    ("prlimit64", 1, ALWAYS, one("RLIMIT")),
    ("ptrace", 0, ALWAYS, one("PTRACE")),
    ("quotactl", 0, ALWAYS, one("QCMD")),
    ("recvfrom", 3, ALWAYS, bits("MSG")),
    ("recvmmsg", 3, ALWAYS, bits("MSG")),
    ("recvmsg", 2, ALWAYS, bits("MSG")),
    ("rt_sigaction", 0, ALWAYS, one("SIG")),
    ("rt_sigprocmask", 0, ALWAYS, one("SIGHOW")),
    ("rt_sigqueueinfo", 1, ALWAYS, one("SIG")),
    ("rt_tgsigqueueinfo", 2, ALWAYS, one("SIG")),
    ("sched_setscheduler", 1, ALWAYS, bits("SCHED_FLAG", 0xFF, "SCHED")),
    ("seccomp", 0, ALWAYS, one("SECCOMP")),
    ("semget", 0, ALWAYS, one("IPCKEY")),
    ("sendmmsg", 3, ALWAYS, bits("MSG")),
    ("sendmsg", 2, ALWAYS, bits("MSG")),
    ("sendto", 3, ALWAYS, bits("MSG")),
    ("setitimer", 0, ALWAYS, one("ITIMER")),
    ("setns", 1, ALWAYS, bits("CLONE_NS")),
    ("setpriority", 0, ALWAYS, one("PRIO")),
    ("setrlimit", 0, ALWAYS, one("RLIMIT")),
    ("setsockopt", 1, ALWAYS, one("LEVEL")),
    *options("setsockopt"),
    ("shmat", 2, ALWAYS, bits("SHMAT")),
    ("shmctl", 1, ALWAYS, one("IPC")),
    ("shmget", 0, ALWAYS, one("IPCKEY")),
    ("socket", 0, ALWAYS, one("AF")),
    ("socket", 1, ALWAYS, SOCKET),
    # AF_NETLINK, AF_INET, AF_INET6
    ("socket", 2, where(0, 16), one("NETLINK")),
    ("socket", 2, where(0, 2), one("IPPROTO")),
    ("socket", 2, where(0, 10), one("IPPROTO")),
    ("socketpair", 0, ALWAYS, one("AF")),
    ("socketpair", 1, ALWAYS, SOCKET),
    ("socketpair", 2, where(0, 16), one("NETLINK")),
    ("socketpair", 2, where(0, 2), one("IPPROTO")),
    ("socketpair", 2, where(0, 10), one("IPPROTO")),
    ("statx", 3, ALWAYS, bits("STATX")),
    ("tgkill", 2, ALWAYS, one("SIG")),
    ("tkill", 1, ALWAYS, one("SIG")),
    ("umount2", 1, ALWAYS, bits("UMOUNT")),
    ("unshare", 0, ALWAYS, bits("CLONE_NS")),
]
