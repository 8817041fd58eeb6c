"""Which values of systemd's keys can be read: booleans, numbers, sizes, times, signals, and words of which one must stand there, as
systemd.syntax(7), systemd.time(7) and the page of each key say, and systemd 252 reads them."""
import math
import re

TRUE, FALSE = ("1", "yes", "y", "true", "t", "on"), ("0", "no", "n", "false", "f", "off")
BOOLEANS = frozenset((*TRUE, *FALSE))
INFINITY = "infinity"
FULL = 2**64 - 1
POWERS = "BKMGTPE"

# Microseconds, and for some keys nanoseconds, of each unit of time.
SECOND = 1_000_000
TIMES = {
    **dict.fromkeys(("seconds", "second", "sec", "s", ""), SECOND), **dict.fromkeys(("minutes", "minute", "min", "m"), 60 * SECOND),
    **dict.fromkeys(("months", "month", "M"), 2_629_800 * SECOND), **dict.fromkeys(("msec", "ms"), 1_000),
    **dict.fromkeys(("hours", "hour", "hr", "h"), 3_600 * SECOND), **dict.fromkeys(("days", "day", "d"), 86_400 * SECOND),
    **dict.fromkeys(("weeks", "week", "w"), 604_800 * SECOND), **dict.fromkeys(("years", "year", "y"), 31_557_600 * SECOND),
    **dict.fromkeys(("usec", "us", "\u00b5s", "\u03bcs"), 1),
}
FINER = {"nsec": 0.001, "ns": 0.001, "": 0.001}
TERM = re.compile(r"\s*\+?((?:[0-9]+(?:\.[0-9]+)?|\.[0-9]+))\s*([A-Za-z\u00b5\u03bc]*)")
SIZE = re.compile(r"\s*\+?([0-9]+(?:\.[0-9]*)?)\s*([BKMGTPE]?)")
PERCENT = re.compile(r"([0-9]+)(?:\.[0-9]{1,2})?%|([0-9]+)(?:\.[0-9])?\u2030|([0-9]+)\u2031")
INTEGER = re.compile(r"\s*[+-]?(?:0[xX][0-9a-fA-F]+|0[oO][0-7]+|0[bB][01]+|[0-9]+)")
UNSIGNED = re.compile(r"\s*\+?(?:0[xX][0-9a-fA-F]+|0[oO][0-7]+|0[bB][01]+|[0-9]+)")
MODE = re.compile(r"\s*[0-7]+")
SIGNALS = ("HUP INT QUIT ILL TRAP ABRT BUS FPE KILL USR1 SEGV USR2 PIPE ALRM TERM STKFLT CHLD CONT STOP TSTP TTIN TTOU URG XCPU XFSZ VTALRM "
           "PROF WINCH IO PWR SYS").split()
REAL_TIME = re.compile(r"RTM(?:IN(?:\+([0-9]+))?|AX(?:-([0-9]+))?)")
MOST_SIGNAL, MOST_REAL_TIME = 64, 30


def number_of(text):
    """The number that a text spells."""
    sign, digits = (-1, text.strip()[1:]) if text.strip().startswith("-") else (1, text.strip().removeprefix("+"))
    return sign * int(digits, {"0x": 16, "0o": 8, "0b": 2}.get(digits[:2].lower(), 8 if digits.startswith("0") and digits.isdigit() else 10))


def is_number(text, pattern, least, most):
    """Whether a text spells a number of these."""
    if not pattern.fullmatch(text):
        return False
    try:
        return least <= number_of(text) <= most
    except ValueError:
        return False


def is_boolean(text):
    """Whether a text is a boolean."""
    return text.lower() in BOOLEANS


def time_of(text, times):
    """The microseconds of a time span; nothing where it is none."""
    if text.strip() == INFINITY:
        return FULL
    at, total = 0, 0
    while found := TERM.match(text, at):
        at, each = found.end(), times.get(found[2])
        if each is None:
            return None
        total += float(found[1]) * each
        if not text[at:].strip():
            return total if total < FULL else None
    return None


def is_time(text):
    """Whether a text is a time span, or none that ends."""
    return time_of(text, TIMES) is not None


def is_fine_time(text):
    """The same, where a number alone is nanoseconds."""
    return time_of(text, {**TIMES, **FINER}) is not None


def is_signal(text):
    """Whether a text names a signal."""
    if is_number(text, UNSIGNED, 1, MOST_SIGNAL):
        return True
    name = text.removeprefix("SIG")
    found = REAL_TIME.fullmatch(name)
    return name in SIGNALS or bool(found) and int(found[1] or found[2] or 0) <= MOST_REAL_TIME


def size_of(text):
    """The bytes that a text says: numbers, each perhaps with a letter for a power of 1024, the greater before the less; nothing where it is
    none."""
    at, total, powers = 0, 0, []
    while found := SIZE.match(text, at):
        at = found.end()
        powers.append(POWERS.index(found[2] or "B"))
        total += float(found[1]) * 1024 ** powers[-1]
        if not text[at:].strip():
            return total if total < FULL and powers == sorted(set(powers), reverse=True) else None
    return None


def is_size(text):
    """Whether a text is a number of bytes."""
    return size_of(text) is not None


def is_share(text):
    """Whether a text is a part of a whole, in percent or finer."""
    found = PERCENT.fullmatch(text)
    whole, number_there = next(((most, it) for most, it in zip((100, 1_000, 10_000), found.groups()) if it), (0, "1")) if found else (0, "1")
    return int(number_there) <= whole


def is_limit_of_memory(text):
    """Whether a text is a limit of memory: a size, a part of the whole, or none."""
    return text == INFINITY or is_share(text) or is_size(text)


def is_more_than_nothing(text):
    """Whether a text is such a limit of at least a byte."""
    size = size_of(text)
    return is_limit_of_memory(text) and (size is None or size >= 1) and not re.fullmatch("[0.]+[%\u2030\u2031]", text)


def limit(value_of):
    """What reads a limit of a resource: one bound, or a soft and a hard one that isn't less."""
    def read(text):
        """Whether a text is such a limit."""
        soft, colon, hard = text.partition(":")
        values = [math.inf if it == INFINITY else value_of(it) for it in ((soft, hard) if colon else (soft,))]
        return None not in values and values == sorted(values)

    return read


def one_of(*words):
    """What reads one of these words."""
    def read(text):
        """Whether a text is one of them."""
        return text in words

    read.words = words
    return read


def whole_number(text):
    """The number without a sign that a text spells; nothing where it is none."""
    return number_of(text) if is_number(text, UNSIGNED, 0, FULL - 1) else None


def number(pattern, least, most):
    """What reads a number of these."""
    return lambda text: is_number(text, pattern, least, most)


def either(*readers):
    """What reads what one of these reads."""
    def read(text):
        """Whether one of them reads a text."""
        return any(it(text) for it in readers)

    read.words = tuple(word for it in readers for word in getattr(it, "words", ()))
    return read


ACTIONS = one_of("none", "reboot", "reboot-force", "reboot-immediate", "poweroff", "poweroff-force", "poweroff-immediate", "exit", "exit-force")
JOB_MODES = one_of("fail", "replace", "replace-irreversibly", "isolate", "flush", "ignore-dependencies", "ignore-requirements", "triggering",
                   "restart-dependencies")
WEIGHT = number(UNSIGNED, 1, 10_000)
COUNT = number(UNSIGNED, 0, 2**32 - 1)

# What reads the values of keys, by what they are told to be.
KINDS = {
    "a boolean": is_boolean,
    "a time span": is_time,
    "a time span, down to nanoseconds": is_fine_time,
    "a size in bytes": is_size,
    "a size, a percentage or infinity": is_limit_of_memory,
    "a size over 0, a percentage or infinity": is_more_than_nothing,
    "a signal": is_signal,
    "a mode in octal": lambda text: bool(MODE.fullmatch(text)) and int(text, 8) <= 0o7777,
    "a number from -20 to 19": number(INTEGER, -20, 19),
    "a number from -1000 to 1000": number(INTEGER, -1000, 1000),
    "a number": COUNT,
    "a number from 1 to 10000": WEIGHT,
    "a number from 1 to 10000, or idle": either(WEIGHT, one_of("idle")),
    "a number, a percentage or infinity": either(number(UNSIGNED, 1, FULL - 1), is_share, one_of(INFINITY)),
    "a percentage over 0": lambda text: bool(PERCENT.fullmatch(text)) and not re.fullmatch("[0.]+[%\u2030\u2031]", text),
    "one or two sizes, or infinity": limit(size_of),
    "one or two numbers, or infinity": limit(whole_number),
    "one or two time spans, or infinity": limit(lambda text: time_of(text, TIMES)),
}

# The keys of which a value must be of one of these kinds, with the section where it isn't so in all.
KEYS = {
    "a time span": "RestartSec TimeoutStartSec TimeoutStopSec TimeoutSec TimeoutAbortSec TimeoutIdleSec WatchdogSec RuntimeMaxSec StartLimitIntervalSec "
                   "StartLimitInterval JobTimeoutSec JobRunningTimeoutSec RuntimeRandomizedExtraSec TimeoutCleanSec LogRateLimitIntervalSec "
                   "OnActiveSec OnBootSec OnStartupSec OnUnitActiveSec OnUnitInactiveSec AccuracySec RandomizedDelaySec "
                   "TriggerLimitIntervalSec KeepAliveTimeSec KeepAliveIntervalSec DeferAcceptSec CPUQuotaPeriodSec",
    "a time span, down to nanoseconds": "TimerSlackNSec",
    "a size in bytes": "PipeSize ReceiveBuffer SendBuffer",
    "a size, a percentage or infinity": "MemoryMin MemoryLow MemorySwapMax",
    "a size over 0, a percentage or infinity": "MemoryHigh MemoryMax",
    "a signal": "KillSignal RestartKillSignal FinalKillSignal WatchdogSignal",
    "a mode in octal": "UMask DirectoryMode SocketMode RuntimeDirectoryMode StateDirectoryMode CacheDirectoryMode LogsDirectoryMode "
                       "ConfigurationDirectoryMode",
    "a number from -20 to 19": "Nice",
    "a number from -1000 to 1000": "OOMScoreAdjust",
    "a number": "StartLimitBurst FileDescriptorStoreMax Backlog MaxConnections MaxConnectionsPerSource TriggerLimitBurst LogRateLimitBurst "
                "KeepAliveProbes",
    "a number from 1 to 10000": "IOWeight StartupIOWeight",
    "a number from 1 to 10000, or idle": "CPUWeight StartupCPUWeight",
    "a number, a percentage or infinity": "TasksMax",
    "a percentage over 0": "CPUQuota",
    "one or two sizes, or infinity": "LimitAS LimitCORE LimitDATA LimitFSIZE LimitMEMLOCK LimitMSGQUEUE LimitRSS LimitSTACK",
    "one or two numbers, or infinity": "LimitNOFILE LimitNPROC LimitLOCKS LimitSIGPENDING LimitRTPRIO",
    "one or two time spans, or infinity": "LimitCPU LimitRTTIME",
}
WORDS = {
    "Service.Type": one_of("simple", "exec", "forking", "oneshot", "dbus", "notify", "idle"),
    "ExitType": one_of("main", "cgroup"),
    "Restart": one_of("no", "always", "on-success", "on-failure", "on-abnormal", "on-abort", "on-watchdog"),
    "KillMode": one_of("control-group", "process", "mixed", "none"),
    "NotifyAccess": one_of("none", "main", "exec", "all"),
    "OOMPolicy": one_of("continue", "stop", "kill"),
    "TimeoutStartFailureMode": one_of("terminate", "abort", "kill"), "TimeoutStopFailureMode": one_of("terminate", "abort", "kill"),
    "FailureAction": ACTIONS, "SuccessAction": ACTIONS, "StartLimitAction": ACTIONS, "JobTimeoutAction": ACTIONS,
    "OnFailureJobMode": JOB_MODES, "OnSuccessJobMode": JOB_MODES,
    "CollectMode": one_of("inactive", "inactive-or-failed"),
    "ProtectSystem": either(is_boolean, one_of("full", "strict")), "ProtectHome": either(is_boolean, one_of("read-only", "tmpfs")),
    "ProtectProc": one_of("noaccess", "invisible", "ptraceable", "default"), "ProcSubset": one_of("all", "pid"),
    "KeyringMode": one_of("inherit", "private", "shared"), "UtmpMode": one_of("init", "login", "user"),
    "DevicePolicy": one_of("auto", "closed", "strict"),
    "RuntimeDirectoryPreserve": either(is_boolean, one_of("restart")),
    "BindIPv6Only": either(is_boolean, one_of("default", "both", "ipv6-only")),
    "IOSchedulingClass": either(one_of("none", "realtime", "best-effort", "idle"), number(UNSIGNED, 0, 8)),
    "IOSchedulingPriority": number(UNSIGNED, 0, 7),
    "CPUSchedulingPolicy": either(one_of("other", "batch", "idle", "fifo", "rr"), COUNT),
    "StandardInput": either(one_of("null", "tty", "tty-force", "tty-fail", "data", "socket", "fd"),
                            lambda text: text.startswith(("fd:", "file:/", "file:%"))),
    **dict.fromkeys(("StandardOutput", "StandardError"), either(
        one_of("inherit", "null", "tty", "syslog", "syslog+console", "kmsg", "kmsg+console", "journal", "journal+console", "socket", "fd"),
        lambda text: text.startswith(("fd:", "file:/", "file:%", "append:/", "append:%", "truncate:/", "truncate:%")))),
    **dict.fromkeys(("SyslogLevel", "LogLevelMax"), either(
        one_of("emerg", "alert", "crit", "err", "warning", "notice", "info", "debug"), number(UNSIGNED, 0, 7))),
    "ManagedOOMSwap": one_of("auto", "kill"), "ManagedOOMMemoryPressure": one_of("auto", "kill"),
    "ManagedOOMPreference": one_of("none", "avoid", "omit"),
}
# The keys of which an empty value takes back what was said.
EMPTIED = frozenset("""OnActiveSec OnBootSec OnStartupSec OnUnitActiveSec OnUnitInactiveSec CPUQuota CPUQuotaPeriodSec CPUSchedulingPolicy
CPUWeight StartupCPUWeight IOWeight StartupIOWeight IOSchedulingClass IOSchedulingPriority KillMode ManagedOOMMemoryPressure ManagedOOMSwap MemoryHigh MemoryLow
MemoryMax MemoryMin MemorySwapMax MountAPIVFS Nice OOMScoreAdjust TasksMax TimeoutAbortSec""".split())
READERS = {**{key: (kind, KINDS[kind]) for kind, keys in KEYS.items() for key in keys.split()},
           **{key: ("one of the words of its page", read) for key, read in WORDS.items()}}


def reader_of(section, key):
    """What the values of a key are, with what reads one; nothing where any text may stand."""
    return READERS.get(f"{section}.{key}") or READERS.get(key)
