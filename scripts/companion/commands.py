"""The commands of the proved program. Made by scripts/completion of its table."""
COMMANDS = (
    "boot",
    "load",
    "load-panic",
    "check",
    "dump",
    "exec",
    "trace",
    "migrate",
    "sample",
    "boot-resident",
    "drill",
    "core",
)
