// What stands at the cursor, in words: the event, the values, and each process with its threads and datagrams. All that comes
// from a recording is put on the page as text, and never as markup.

const LONGEST_LINE = 400;

function element(name, kind, text = "", inside = []) {
  const made = document.createElement(name);
  made.className = kind;
  made.textContent = text;
  made.append(...inside);
  return made;
}

// Words that go to a position where they are clicked.
function link(text, position, stage) {
  const made = element("button", "link", text);
  made.addEventListener("click", () => stage.moveTo(position));
  return made;
}

// How a thread stands, and where in its source.
function threadLine({ line, site }) {
  const made = element("li", "thread", line);
  made.append(site ? element("div", "site", site) : "");
  return made;
}

class Panel {
  constructor(stage, root) {
    this.stage = stage;
    this.headline = root.querySelector(".headline");
    this.site = root.querySelector(".site");
    this.told = root.querySelector(".told");
    this.values = root.querySelector(".values");
    this.processes = root.querySelector(".processes");
  }

  show() {
    const { recording, cursor } = this.stage;
    this.headline.textContent = recording.headline(cursor);
    this.site.textContent = recording.site(cursor);
    this.told.replaceChildren(...this.toldLines(cursor));
    this.values.replaceChildren(...this.stage.courses.map((course) => this.valueRow(course)));
    this.processes.replaceChildren(...this.stage.rows.shown.map((place) => this.card(place)));
  }

  toldLines(position) {
    return this.stage.recording.told(position).map((line) => element("div", "bytes", shortened(line, LONGEST_LINE)));
  }

  valueRow(course) {
    const { cursor } = this.stage;
    const changed = course.changedAt(cursor);
    const next = course.nextChange(cursor);
    const row = element("tr", "watch");
    row.title = course.expression;
    row.append(
      element("th", "name", shortened(course.name, 60)),
      element("td", "value", course.value(cursor)),
      element("td", "since", "", [changed ? link("since " + changed, changed, this.stage) : "from the beginning"]),
      element("td", "until", "", next ? [link("changes at " + next, next, this.stage)] : ["to the end"]),
    );
    return row;
  }

  card(place) {
    const { recording, standing, cursor } = this.stage;
    const process = recording.processes[place];
    const last = standing.lastEvent(place, cursor);
    const card = element("section", last && last === cursor ? "process here" : "process");
    card.dataset.name = process.name;
    card.append(
      element("h3", "end", process.name + " " + standing.endAt(place, cursor)),
      element("div", "count", this.countText(place)),
      ...this.timeTold(place),
      element("div", "last", "", [last ? link(recording.headline(last), last, this.stage) : "no event yet"]),
      ...this.toldLines(last),
      element("ol", "threads", "", standing.threadLines(place, cursor).map(threadLine)),
      ...this.pending(place),
    );
    return card;
  }

  // The wall time that a process was told last.
  timeTold(place) {
    const { recording, standing, cursor } = this.stage;
    const told = standing.timeTold(place, cursor);
    const inside = ["wall time " + recording.answer(told) + ", ", link("told at " + told, told, this.stage)];
    return told ? [element("div", "time", "", inside)] : [];
  }

  countText(place) {
    const { recording, cursor } = this.stage;
    const own = recording.own[place];
    const process = recording.processes[place];
    const verdict = process.verdict === "log whole" ? "" : "; " + process.verdict;
    return countUpTo(own, cursor) + " of " + own.length + " events; in the end " + process.end + verdict;
  }

  // The datagrams sent to a process that it has not taken yet.
  pending(place) {
    const { shown, count } = this.stage.standing.pendingAt(place, this.stage.cursor);
    const lines = shown.map((datagram) => this.datagram(datagram));
    if (count > shown.length) {
      lines.push(element("li", "more", "and " + (count - shown.length) + " more"));
    }
    return lines.length ? [element("ul", "pending", "", lines)] : [];
  }

  datagram({ send, taken }) {
    const { recording } = this.stage;
    const again = taken && recording.isAgain(taken) && recording.takers.get(send)[0] <= this.stage.cursor;
    const fate = taken ? "taken " + (again ? "again " : "") + "at " + taken : "lost, or never taken";
    const from = "sent by " + recording.processes[recording.process[send]].name + " at " + send + ", " + fate + ": ";
    return element("li", taken ? "datagram" : "datagram untaken", shortened(from + recording.bytes(send), LONGEST_LINE));
  }
}
