// The space-time diagram where events stand apart: a line for each process, a dot for each event, an arrow from each send to
// the event that took its datagram.

const INK = "#1c2733";
const FAINT = "#d5dbe1";
const CURSOR = "#d9480f";
const CURSOR_FAINT = "rgba(217, 72, 15, 0.45)";
const RED = "#c92a2a";
const KINDS = [
  [["send"], "#1971c2"],
  [["recv", "try_recv"], "#2b8a3e"],
  [["print", "note"], "#862e9c"],
  [["lock", "unlock", "join", "spawn", "yield"], "#e67700"],
  [["now", "sleep_until", "random", "me", "thread", "on_signal"], "#868e96"],
  [["begin", "exit"], INK],
];
const COLOURS = new Map(KINDS.flatMap(([calls, colour]) => calls.map((call) => [call, colour])));
// Words have room from this scale and this height of a row on.
const WORDS_SCALE = 9;
const WORDS_HEIGHT = 70;
const LETTERS = 15;
const DIAGRAM_HEIGHT = 420;
// The numbers of positions stand above all rows, so far apart at least.
const TOP = 16;
const NUMBERS_APART = 60;

// Where the processes that are shown have their rows.
class Rows {
  constructor(recording, filters) {
    this.shown = recording.processes.map((_, place) => place).filter((place) => !filters.isHidden(recording.processes[place]));
    this.height = Math.min(Math.max(Math.floor(DIAGRAM_HEIGHT / Math.max(1, this.shown.length)), 26), 120);
    this.total = TOP + this.height * Math.max(1, this.shown.length) + 4;
    this.threads = recording.processes.map((process, place) =>
      recording.made.reduce((most, [at, thread]) => (recording.process[at] === place ? Math.max(most, thread + 1) : most), 1),
    );
    this.places = new Map(this.shown.map((place, row) => [place, row]));
  }

  isShown(place) {
    return this.places.has(place);
  }

  middle(place) {
    const part = this.height >= WORDS_HEIGHT ? 0.74 : 0.5;
    return TOP + this.height * (this.places.get(place) + part);
  }

  // Each thread has its own height.
  y(place, thread) {
    const threads = this.threads[place];
    const gap = Math.min(7, Math.max(0, (this.height * 0.4) / threads));
    return this.middle(place) + (thread - (threads - 1) / 2) * gap;
  }

  // The process whose row a height lies in.
  placeAt(y) {
    return this.shown[Math.min(Math.max(Math.floor((y - TOP) / this.height), 0), this.shown.length - 1)];
  }
}

class Diagram {
  constructor(stage) {
    this.stage = stage;
  }

  draw(context) {
    const { view } = this.stage;
    context.save();
    context.beginPath();
    context.rect(LABELS, 0, view.width - LABELS, this.stage.rows.total);
    context.clip();
    this.drawLines(context);
    this.drawArrows(context);
    this.drawEvents(context);
    context.restore();
  }

  // The line of a process, for each thread; it stops where the process ends.
  drawLines(context) {
    const { recording, view, rows } = this.stage;
    context.lineWidth = 1;
    context.strokeStyle = FAINT;
    for (const place of rows.shown) {
      const own = recording.own[place];
      const ends = recording.processes[place].end !== "running";
      const end = view.x(ends && own.length ? own[own.length - 1] : recording.count + 1);
      for (let thread = 0; thread < rows.threads[place]; thread++) {
        line(context, view.x(0), rows.y(place, thread), end, rows.y(place, thread));
      }
      if (ends) {
        context.fillStyle = INK;
        context.fillRect(end + 6, rows.middle(place) - 10, 2, 20);
      }
    }
  }

  place(position) {
    const { recording, rows, view } = this.stage;
    return [view.x(position), rows.y(recording.process[position], recording.thread[position])];
  }

  drawArrows(context) {
    const { recording, view } = this.stage;
    const drawn = new Set();
    for (let position = view.first; position <= view.last; position++) {
      const send = recording.sendOf[position];
      if (send) {
        drawn.add(position);
      }
      for (const taker of recording.takers.get(position) || []) {
        drawn.add(taker);
      }
      if (recording.fates.has(position)) {
        this.drawUntaken(context, position);
      }
    }
    drawn.forEach((receive) => this.drawArrow(context, recording.sendOf[receive], receive));
  }

  drawArrow(context, send, receive) {
    const { recording, rows, passes, cursor } = this.stage;
    if (!rows.isShown(recording.process[send]) || !rows.isShown(recording.process[receive])) {
      return;
    }
    const isFull = passes[send] && passes[receive];
    const isNamed = send === cursor || receive === cursor;
    context.strokeStyle = recording.altered.has(receive) ? RED : isNamed ? CURSOR : isFull ? "#5c7cfa" : FAINT;
    context.lineWidth = isNamed ? 2 : 1;
    context.setLineDash(recording.isAgain(receive) ? [5, 4] : []);
    arrow(context, this.place(send), this.place(receive));
    context.setLineDash([]);
  }

  // A cross for a datagram that no event took: below, where no words stand.
  drawUntaken(context, send) {
    const { recording, rows, passes } = this.stage;
    if (!rows.isShown(recording.process[send])) {
      return;
    }
    const [x, y] = this.place(send);
    const far = Math.min(18, rows.height * 0.4);
    context.strokeStyle = passes[send] ? RED : FAINT;
    context.lineWidth = 1;
    line(context, x, y, x + 7, y + far);
    line(context, x + 4, y + far - 3, x + 10, y + far + 3);
    line(context, x + 4, y + far + 3, x + 10, y + far - 3);
  }

  drawEvents(context) {
    const { recording, rows, view, passes, cursor, chosen } = this.stage;
    const radius = Math.min(4, Math.max(1.2, view.scale / 2.6));
    const hasWords = view.scale >= WORDS_SCALE && rows.height >= WORDS_HEIGHT;
    context.font = "10px sans-serif";
    for (let position = view.first; position <= view.last; position++) {
      if (!rows.isShown(recording.process[position])) {
        continue;
      }
      const [x, y] = this.place(position);
      context.fillStyle = passes[position] ? COLOURS.get(recording.call(position)) || INK : FAINT;
      disc(context, x, y, position === cursor ? radius + 2 : radius);
      this.drawMarks(context, position, x, y);
      if (hasWords && (passes[position] || position === cursor)) {
        slanted(context, shortened(recording.word(position), LETTERS), x + 1, y - 6);
      }
    }
    this.drawRing(context, cursor, CURSOR, radius + 5);
    this.drawRing(context, chosen, "#5f3dc4", radius + 8);
  }

  // A signal was delivered, the datagram came from outside, or the process does otherwise from here on in another recording.
  drawMarks(context, position, x, y) {
    const { recording, differs } = this.stage;
    if (differs[recording.process[position]] === position) {
      context.fillStyle = RED;
      context.fillRect(x - 6, y + 7, 12, 2);
      context.fillRect(x - 6, y + 11, 12, 2);
      line(context, x + 5, y + 4, x - 5, y + 16);
    }
    if (recording.signal(position)) {
      context.fillStyle = RED;
      context.fillText("!" + recording.signal(position), x - 4, y + 15);
    }
    if (recording.outside.has(position)) {
      context.fillText("in", x - 5, y + 15);
    }
  }

  drawRing(context, position, colour, radius) {
    if (position && this.stage.rows.isShown(this.stage.recording.process[position])) {
      const [x, y] = this.place(position);
      context.strokeStyle = colour;
      context.lineWidth = 2;
      context.beginPath();
      context.arc(x, y, radius, 0, 2 * Math.PI);
      context.stroke();
    }
  }
}

// The numbers of some positions, round ones, where they stand.
function drawScale(context, view) {
  const least = NUMBERS_APART / view.scale;
  const power = 10 ** Math.floor(Math.log10(least));
  const step = Math.max(1, [1, 2, 5, 10].find((times) => times * power >= least) * power);
  context.font = "10px sans-serif";
  context.textAlign = "center";
  context.fillStyle = "#5c6773";
  for (let position = Math.ceil(view.first / step) * step; position <= view.last; position += step) {
    context.fillText(position, view.x(position), 11);
  }
  context.textAlign = "start";
}

function line(context, fromX, fromY, toX, toY) {
  context.beginPath();
  context.moveTo(fromX, fromY);
  context.lineTo(toX, toY);
  context.stroke();
}

function disc(context, x, y, radius) {
  context.beginPath();
  context.arc(x, y, radius, 0, 2 * Math.PI);
  context.fill();
}

// A line that stops at the rim of the dot it leads to, with a head.
function arrow(context, [fromX, fromY], [x, y]) {
  const angle = Math.atan2(y - fromY, x - fromX);
  const toX = x - 5 * Math.cos(angle);
  const toY = y - 5 * Math.sin(angle);
  line(context, fromX, fromY, toX, toY);
  context.setLineDash([]);
  for (const turn of [2.7, -2.7]) {
    line(context, toX, toY, toX + 6 * Math.cos(angle + turn), toY + 6 * Math.sin(angle + turn));
  }
}

function slanted(context, text, x, y) {
  context.save();
  context.translate(x, y);
  context.rotate(-1.0);
  // White around the letters keeps them readable where lines cross them.
  context.strokeStyle = "rgba(255, 255, 255, 0.85)";
  context.lineWidth = 3;
  context.strokeText(text, 0, 0);
  context.fillText(text, 0, 0);
  context.restore();
}
