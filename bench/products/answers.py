"""What the end of a process and its output say, in a few words."""

import signal

# The limit on the processor time ends a process by one of these; a shell gives 128 more as the status.
ENDED = (signal.SIGXCPU, signal.SIGKILL)
TIMEOUT = [-it for it in ENDED] + [128 + it for it in ENDED]


def of_validator(status, said):
    lines = said.splitlines()
    words = lines[0].split() if lines else []
    if status == 0:
        return f"confirmed {lines[1].split()[1]}"
    if status == 1:
        return f"fails {lines[1].split()[1]}"
    if status == 2:
        return f"undecided {words[-1]}"
    if status == 3:
        return " ".join(words[1:])
    return "timeout" if status in TIMEOUT else f"status {status}"


def of_solver(status, said):
    if status in TIMEOUT:
        return "timeout"
    return said.strip().splitlines()[0] if said.strip() else f"status {status}"
