"""What the scripts of this folder share: the program that they run, and the peak of its memory."""
import os
import sys

ROOT = os.path.dirname(os.path.dirname(os.path.abspath(__file__)))
PROGRAM = os.path.join(ROOT, "crates/ecrd/out/ecrd")
WORDS = ["session", "--clock", "1700000000", "us-east-1/111122223333"]
SERVICE = "AmazonEC2ContainerRegistry_V20150921"


def with_program(options):
    """Adds the option that names the program, reads the options, and ends with a sentence where the program is missing."""
    options.add_argument("--program", default=PROGRAM, help="the program (crates/ecrd/out/ecrd)")
    chosen = options.parse_args()
    if not os.path.isfile(chosen.program):
        sys.exit(f"bench: there is no {chosen.program}: ./run builds it, and a running gate takes it away for a while")
    return chosen


def peak_of(child):
    """The child's own peak in KiB. What wait4 counts has the size of this interpreter as its least value, since the
    child begins as a copy of it; so it is taken only where the system has no /proc."""
    try:
        with open(f"/proc/{child.pid}/status") as lines:
            return next((int(line.split()[1]) for line in lines if line.startswith("VmHWM:")), None)
    except OSError:
        return None
