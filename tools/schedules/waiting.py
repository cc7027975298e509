"""What the threads of a group wait for at the end of a schedule."""

MOST_BYTES, PAGE = 60000, 65536


def waits(playing):
    """A line for each thread of each process that still runs."""
    for number, process in enumerate(playing.known.processes):
        stands = playing.threads(number) if process.end == "running" else {}
        for thread, standing in stands.items():
            yield "%s: thread %d %s" % (process.name, thread, wait_of(playing, process, stands, thread))


def wait_of(playing, process, stands, thread):
    call, *arguments = stands[thread]
    if call == "ended":
        return "has ended"
    waits_for = WAITS.get(call)
    told = waits_for(playing, process, stands, thread, *arguments) if waits_for else None
    return "waits for " + told if told else "goes on: its next call is " + call


def wait_for_time(playing, process, stands, thread, time):
    return "the wall time %s, and it is %d" % (time, process.wall_time) if process.wall_time < int(time) else None


def wait_for_random(playing, process, stands, thread, place, length):
    waits_so = is_good(playing, process, (place, length)) and process.pool < unsigned(length)
    return "%s random bytes" % length if waits_so else None


def wait_for_datagram(playing, process, stands, thread, place, room, sender):
    return "a datagram" if is_good(playing, process, (place, room), (sender, 4)) and not process.mailbox else None


def wait_for_lock(playing, process, stands, thread, lock):
    holder = process.holders.get(lock, str(thread))
    return "lock %s, which thread %s holds" % (lock, holder) if holder != str(thread) else None


def wait_for_end(playing, process, stands, thread, other):
    lives = stands.get(int(other), ["ended"])[0] != "ended" and int(other) != thread
    return "the end of thread %s" % other if lives else None


WAITS = {"sleep_until": wait_for_time, "random": wait_for_random, "recv": wait_for_datagram, "lock": wait_for_lock, "join": wait_for_end}


def unsigned(word):
    return int(word) % 2**32


def is_good(playing, process, *ranges):
    """Whether these ranges lie in the memory, and the first is not too long; otherwise the call is answered at once."""
    size = PAGE * playing.pages(process.name)
    return unsigned(ranges[0][1]) <= MOST_BYTES and all(unsigned(at) + unsigned(length) <= size for at, length in ranges)
