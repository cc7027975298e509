"""What stands on a page that a browser shows, and what should stand there by the logs and the debugger."""

import unicodedata

from asking.debugger import asked
from logs.group import read_group
from logs.traffic import Fate, traffic_of
from logs.wording import bytes_lines, shown
from pictures.captions import Captions, shortened

UNSEEN = ("Cc", "Cf", "Cs", "Co", "Cn", "Zl", "Zp")
LONGEST_LINE, MOST_DATAGRAMS, EVENTS_BEFORE = 400, 6, 10

# Whether the address has the positions; it is written a little later than they change.
SETTLED = "!location.hash || location.hash === '#at=' + Array.from(document.querySelectorAll('.position'), (each) => each.value)"
# What each recording on the page shows at its cursor.
READ = """Array.from(document.querySelectorAll(".stage"), (stage) => {
  const texts = (root, kinds) => Array.from(root.querySelectorAll(kinds), (each) => each.textContent);
  const process = (card) => [card.dataset.name, {
    end: texts(card, ".end")[0], last: texts(card, ".last")[0], told: texts(card, ":scope > .bytes"),
    threads: Array.from(card.querySelectorAll(".thread"), (line) => line.firstChild.textContent),
    sites: Array.from(card.querySelectorAll(".thread"), (line) => texts(line, ".site").join("")),
    time: texts(card, ".time"), pending: texts(card, ".datagram"),
  }];
  return {
    position: Number(stage.querySelector(".position").value), slider: Number(stage.querySelector(".slider").value),
    headline: texts(stage, ".headline")[0], site: texts(stage, ".at .site")[0], told: texts(stage, ".told .bytes"), total: texts(stage, ".total")[0],
    values: Array.from(stage.querySelectorAll(".watch"), (row) => texts(row, ".name, .value, .since")),
    events: Array.from(stage.querySelectorAll(".event"), (row) => row.firstChild.textContent),
    processes: Object.fromEntries(Array.from(stage.querySelectorAll(".process"), process)),
  };
})"""


def now(browser):
    return browser.value(READ)


def opened(browser, path, fragment=""):
    """Opens a page; nothing may have gone wrong, and nothing may have been asked of a network."""
    browser.open(path, fragment)
    browser.wait("document.body.dataset.ready || document.getElementById('failed').textContent")
    same("failure", browser.value("document.getElementById('failed').textContent"), "")


def no_complaint(browser):
    bad = ("Runtime.exceptionThrown", "Log.entryAdded", "Runtime.consoleAPICalled", "Page.javascriptDialogOpening")
    same("complaints", [event for event in browser.events if event["method"] in bad], [])
    sent = [event["params"]["request"]["url"] for event in browser.events if event["method"] == "Network.requestWillBeSent"]
    same("requests", [url for url in sent if not url.startswith(("file:", "about:"))], [])


def go(browser, way, position):
    """One of the ways that lead to a position."""
    browser.wait(SETTLED)
    if way == 0:
        browser.value("location.hash = '#at=%d'" % position)
    else:
        kind = ".slider" if way == 1 else ".position"
        script = "input = document.querySelector('%s'); input.value = %d; input.dispatchEvent(new Event('input'))"
        browser.value(script % (kind, position))
    browser.wait("document.querySelector('.position').value === '%d'" % position)


def fill(browser, kind, value, event):
    """Puts a value into a field of the filters."""
    script = "field = document.querySelector('#filters .%s'); field.value = %r; field.dispatchEvent(new Event('%s'))"
    browser.value(script % (kind, value, event))


class Group:
    """The files of a recording with the expressions that its page watches, and what the logs tell."""

    def __init__(self, program, pairs, watches):
        self.program, self.pairs, self.watches = program, pairs, watches
        self.logs = read_group(pairs)
        self.traffic = traffic_of(self.logs)
        self.names = {log.process: log.name for log in self.logs}
        self.count = len(self.traffic.events)

    def asked(self, positions):
        """What the debugger answers at each of these positions."""
        lines = []
        for position in positions:
            lines += ["goto %d" % position, *("threads " + log.name for log in self.logs)]
            lines += ["print " + expression for _, expression in self.watches] + ["events %d" % EVENTS_BEFORE]
        answers = asked(self.program, self.pairs, lines)
        return [self.answer(answers, position) for position in positions]

    def answer(self, answers, position):
        found = {"at": answers.next(), "processes": {}}
        for log in self.logs:
            end, threads = answers.next(), []
            while answers.starts(r"\d+ (ended$|at )"):
                threads.append(answers.next())
            found["processes"][log.name] = (end, threads)
        found["values"] = [answers.next() for _ in self.watches]
        found["events"] = [answers.next() for _ in range(min(EVENTS_BEFORE, position))]
        return found

    def changes(self):
        """Of each watch the position and the value of each change, with that of position 0, by asking at every position."""
        lines = [line for at in range(self.count + 1) for line in ["goto %d" % at, *("print " + word for _, word in self.watches)]]
        answers, found = asked(self.program, self.pairs, lines), [[] for _ in self.watches]
        for position in range(self.count + 1):
            answers.next()
            for course in found:
                value = answers.next()
                if not course or course[-1][1] != value:
                    course.append((position, value))
        return found

    def told(self, position):
        """The words for an event's bytes and its datagram."""
        if not position:
            return []
        event, captions = self.traffic.events[position - 1], Captions(self.logs, self.traffic)
        lines = [*bytes_lines(event.entry, self.names), *captions.sent(event), *captions.came(event)]
        return [shortened(line, LONGEST_LINE) for line in lines]

    def last_event(self, log, position):
        return max((event.position for event in self.traffic.events[:position] if event.log is log), default=0)

    def pending(self, log, position):
        """The datagrams that a process is sent up to a position and takes later, and the latest of those it never takes."""
        coming, untaken = [], []
        for event in self.traffic.events[:position]:
            if event.entry.call.name != "send" or event.entry.reply < 0 or event.entry.arguments[0] != log.process:
                continue
            takers = [taken.receive.position for taken in self.traffic.by_send.get(event.position, ())]
            later = [taker for taker in takers if taker > position]
            if later:
                again = "again " if later[0] != takers[0] else ""
                coming.append((later[0], self.datagram(event, "taken %sat %d" % (again, later[0]))))
            elif self.traffic.fates[event.position] is Fate.NOT_TAKEN:
                untaken.insert(0, self.datagram(event, "lost, or never taken"))
        return ([text for _, text in sorted(coming)] + untaken)[:MOST_DATAGRAMS]

    def datagram(self, event, fate):
        text = "sent by %s at %d, %s: %s" % (event.log.name, event.position, fate, shown(event.entry.sent))
        return shortened(text, LONGEST_LINE)


def visible(name):
    """A name with its signs that are not seen spelled out, as the page shows it."""
    return "".join("\\u{%x}" % ord(sign) if unicodedata.category(sign) in UNSEEN else sign for sign in name)


def same(what, found, wanted):
    if found != wanted:
        raise AssertionError("%s: the page has %r, and it should be %r" % (what, found, wanted))


def check_position(stage, group, position, answer):
    """What a stage shows at a position, against the debugger's answers and the logs."""
    same("position", (stage["position"], stage["slider"]), (position, position))
    line = answer["at"].split(": ", 1)[1] if position else "the beginning"
    same("event", stage["headline"], "%d: %s" % (position, line))
    same("bytes", stage["told"], group.told(position))
    same("values", [value[1] for value in stage["values"]], answer["values"])
    same("names", [value[0] for value in stage["values"]], [shortened(visible(name), 60) for name, _ in group.watches])
    same("events", stage["events"][: len(answer["events"])], answer["events"])
    for log in group.logs:
        card, (end, threads) = stage["processes"][log.name], answer["processes"][log.name]
        same("end at %d" % position, card["end"], end)
        same("threads of %s at %d" % (log.name, position), card["threads"], threads)
        same("pending of %s at %d" % (log.name, position), card["pending"], group.pending(log, position))
        last = group.last_event(log, position)
        event = group.traffic.events[last - 1] if last else None
        same("last event", card["last"], "%d: %s" % (last, event.entry.text(log.name)) if event else "no event yet")
        same("its bytes", card["told"], group.told(last))


def read_watches(path):
    with open(path, encoding="utf-8") as lines:
        return [tuple(line.rstrip("\n").split("=", 1)) for line in lines]
