"""The group that the program makes itself: its words, and its five lines by their closed numbers."""

from script import USAGE, text


def drilled(rounds):
    """Three events begin and send, two begin each other process, and each round takes and sends."""
    return (
        "drill %d" % rounds,
        "events %d" % (9 + 2 * rounds),
        "idle %d" % (rounds // 3),
        "firings %d" % rounds,
        "last %d" % rounds,
    )


def rounds(script):
    script.case("drills of so many rounds, with zeros in front too")
    for word in ("1", "2", "3", "4", "5", "6", "7", "10", "123", "4096", "10000", "99999", "100000", "01", "010", "00000000000000000000000000003"):
        script.run("drill " + word, "Done", *drilled(int(word)))


def words(script):
    script.case("words of a drill that are no command")
    for line in (
        "drill",
        "drill ''",
        "drill 0",
        "drill 000",
        "drill 100001",
        "drill 0100001",
        "drill 4294967297",
        "drill 18446744073709551617",
        "drill x",
        "drill 1x",
        "drill 0x1",
        "drill +1",
        "drill -1",
        "drill 1.0",
        "drill 1 2",
        "drill 1 1",
        "drill 1 --images",
        "drill --images",
        "drill --images 1 --images",
        "Drill 1",
        "1 drill",
    ):
        script.run(line, "Usage", USAGE)


def alone(script):
    script.case("a drill reads and makes no file, and reads no input")
    for name in ("n0.log", "n3.log", "ring", "drill"):
        script.file(name, text("old"))
    script.fail("files", 1)
    script.fail("input", 1)
    script.run("drill 3", "Done", *drilled(3))
    for name in ("n0.log", "n3.log", "ring", "drill"):
        script.show(name, b"old")
    for name in ("n1.log", "n0.mem", "n0.out"):
        script.show(name, None)
    script.fail("output", 1)
    script.run("drill 1", "WriteFault")
    # Two writes would be one too many.
    script.fail("output", 2)
    script.run("drill 1", "Done", *drilled(1))


def table(script):
    script.title("The drill")
    for part in (rounds, words, alone):
        part(script)
