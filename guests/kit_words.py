"""The words that guests/build and guests/cc have alike."""
import argparse
import datetime
import re

from c_guests import PRINTF

USUAL_STACK = 65536
LARGEST_STACK = 1 << 23
USUAL_EPOCH = "2026-01-01"


def stack_of(word):
    # clang keeps the end of the stack at a multiple of 16.
    if not re.fullmatch("[0-9]{1,7}", word) or not 0 < int(word) <= LARGEST_STACK or int(word) % 16:
        raise argparse.ArgumentTypeError("a stack has a multiple of 16 bytes, up to %d, and not %s" % (LARGEST_STACK, word))
    return int(word)


def epoch_of(word):
    """Seconds from 1970 on."""
    if re.fullmatch("[0-9]{1,10}", word):
        return int(word)
    try:
        date = datetime.datetime.strptime(word, "%Y-%m-%d").replace(tzinfo=datetime.timezone.utc)
    except ValueError:
        raise argparse.ArgumentTypeError("a date is YEAR-MONTH-DAY, or its seconds from 1970 on, and not %s" % word) from None
    return max(0, int(date.timestamp()))


def add_kit_words(parser):
    parser.add_argument("--stack", type=stack_of, default=USUAL_STACK, metavar="BYTES",
                        help="of thread 0 (%d if not given): with less a small guest has one page of memory" % USUAL_STACK)
    parser.add_argument("--stack-first", action="store_true", help="puts the stack in front of the variables, so that one that is too small traps; the C library's guests always have it so")
    parser.add_argument("--breathe", action="store_true", help="lets other threads run in long computations too, since a thread may run 10,000,000 instructions between two calls")
    parser.add_argument("--lines", action="store_true", help="has guests keep the place of each call in the source, for the debugger")
    parser.add_argument("--printf", choices=sorted(PRINTF), default="double",
                        help="with --libc, what printf and scanf know: whole numbers, 10 KB less; floats of double; those of long double too")
    parser.add_argument("--epoch", type=epoch_of, default=USUAL_EPOCH, metavar="DATE", help="with --libc, the date at which the wall time is 0 (%s)" % USUAL_EPOCH)
