// Events that stand closer than they can be told apart, drawn as a bar for each column of the screen: the taller, the more
// events. Those that pass the filters are dark in it.

// From this many dots of the screen between two positions on, events are drawn one by one.
const APART = 3;
// So many dots make a column.
const COLUMN = 2;

class Density {
  constructor(recording, rows, passes) {
    this.recording = recording;
    this.rows = rows;
    this.passes = passes;
  }

  // How many events of one process each column has, of all and of those that pass; `start` and `scale` say where a position is.
  counts(own, { first, last, start, scale, columns }) {
    const all = new Uint32Array(columns);
    const passing = new Uint32Array(columns);
    for (let index = countUpTo(own, first - 1); index < own.length && own[index] <= last; index++) {
      const column = ((start + own[index] * scale) / COLUMN) | 0;
      all[column]++;
      passing[column] += this.passes[own[index]];
    }
    return { all, passing };
  }

  // The bars of all events, or of those that pass, which stand before them.
  draw(context, left, span, isPassing) {
    const { own } = this.recording;
    const shown = Array.from(this.rows.places, ([place, row]) => ({ row, ...this.counts(own[place], span) }));
    const most = shown.reduce((most, { all }) => all.reduce((one, other) => Math.max(one, other), most), 1);
    context.fillStyle = isPassing ? "#3b5bdb" : FAINT;
    for (const { row, all, passing } of shown) {
      const foot = this.rows.top + this.rows.height * (row + 0.9);
      this.drawBars(context, left, foot, (this.rows.height * 0.8) / most, isPassing ? passing : all);
    }
  }

  // All bars of a row are one shape, which is filled faster than many.
  drawBars(context, left, foot, unit, counts) {
    context.beginPath();
    context.moveTo(left, foot);
    for (let column = 0, next = 0; column < counts.length; column = next) {
      const count = counts[column];
      for (next = column + 1; next < counts.length && counts[next] === count; next++);
      const top = foot - (count ? Math.max(1, unit * count) : 0);
      context.lineTo(left + column * COLUMN, top);
      context.lineTo(left + next * COLUMN, top);
    }
    context.lineTo(left + counts.length * COLUMN, foot);
    context.fill();
  }
}

// The bars of a stage, kept apart: those of all events stay when the cursor brings other ones to pass.
class Bars {
  constructor() {
    this.all = new Kept();
    this.passing = new Kept();
  }

  draw(context, key, height, stage, drawn) {
    const { view, filtered, turn } = stage;
    this.all.draw(context, key + "," + filtered, view.width, height, (kept) => drawn(kept, false));
    this.passing.draw(context, key + "," + turn, view.width, height, (kept) => drawn(kept, true));
  }
}

// The part of a stage that is seen, as density.
function drawFar(stage, context, isPassing) {
  const { view, recording, rows, passes } = stage;
  const band = { height: rows.height, top: TOP, places: rows.places };
  const span = { first: view.first, last: view.last, start: view.x(0) - LABELS, scale: view.scale };
  // Events at the left edge may lie a little outside of it, which are left out.
  span.first = Math.max(span.first, Math.ceil(view.position(LABELS)));
  span.columns = Math.ceil((view.width - LABELS) / COLUMN) + 1;
  new Density(recording, band, passes).draw(context, LABELS, span, isPassing);
}
