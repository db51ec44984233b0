"""How a virtual machine ends, in words: by what its kernel says last on the serial line, and by the reason that QEMU gives."""
import re

STAMP = rb"^(?:\[ *\d+\.\d+\](?:\[[^\]]*\])? )?"
PANIC = re.compile(STAMP + rb"Kernel panic - not syncing: ([^\r\n]*)[\r\n]", re.M)
# the last line of a panic, behind its trace
PANIC_END = re.compile(STAMP + rb"---\[ end Kernel panic[^\r\n]*[\r\n]", re.M)
HALT = re.compile(STAMP + rb"reboot: [^\r\n]*System halted", re.M)
# How long a kernel that panicked may go on before it is stopped: it shows its trace, and may turn the machine off.
AFTER_PANIC = 5
REASONS = {"guest-reset": "the machine reset itself", "guest-panic": "the machine told QEMU of a panic",
           "host-signal": "QEMU was ended by a signal", "host-qmp-quit": "QEMU was told to end"}


def panic_of(said):
    """What the kernel panicked of; None where it did not."""
    found = PANIC.search(said)
    return f"the kernel panicked: {found[1].decode(errors='replace')}" if found else None


def is_halted(said):
    """Whether the kernel has said that it does nothing more, and has not turned the machine off."""
    return HALT.search(said) is not None


def is_over(said):
    """Whether the kernel has said its last word in a panic."""
    return PANIC_END.search(said) is not None


def by_reason(said, reasons):
    """Why a machine that has ended did not turn itself off, by what was said and the reasons that QEMU gives; None where it
    did."""
    if "guest-shutdown" in reasons:
        return None
    known = [REASONS[reason] for reason in reasons if reason in REASONS]
    silent = "" if said else ", before it said a word on its serial line"
    return panic_of(said) or f"{known[0] if known else 'QEMU ended'}{silent}"
