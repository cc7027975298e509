// The strip of the whole recording, with the part that is seen below and the changes of the watched expressions.

const OVERVIEW_HEIGHT = 64;

class Overview {
  constructor(stage) {
    this.stage = stage;
    this.bars = new Bars();
    this.changes = new Kept();
  }

  x(position) {
    const { view, recording } = this.stage;
    return LABELS + MARGIN + (position * view.room) / Math.max(1, recording.count);
  }

  position(x) {
    const { view, recording } = this.stage;
    return Math.min(Math.max(Math.round(((x - LABELS - MARGIN) * recording.count) / view.room), 0), recording.count);
  }

  drawBars(context, isPassing) {
    const { view, recording, rows, passes } = this.stage;
    const band = { height: (OVERVIEW_HEIGHT - 8) / Math.max(1, rows.shown.length), top: 4, places: rows.places };
    const span = { first: 1, last: recording.count, start: this.x(0) - LABELS, scale: this.x(1) - this.x(0) };
    span.columns = Math.ceil((view.width - LABELS) / COLUMN) + 1;
    new Density(recording, band, passes).draw(context, LABELS, span, isPassing);
  }

  // Where the watched expressions change, a row of marks for each of the first ones.
  drawChanges(context) {
    context.fillStyle = CURSOR_FAINT;
    this.stage.courses.slice(0, 4).forEach((course, row) => {
      const columns = new Set(Array.from(course.positions, (position) => Math.round(this.x(position))));
      columns.forEach((column) => context.fillRect(column - 1, OVERVIEW_HEIGHT + 3 + 4 * row, 2, 3));
    });
  }

  get height() {
    return OVERVIEW_HEIGHT + 4 + 4 * Math.min(this.stage.courses.length, 4);
  }

  draw(canvas) {
    const { view, cursor } = this.stage;
    const context = prepared(canvas, view.width, this.height);
    this.bars.draw(context, view.width, this.height, this.stage, (kept, isPassing) => this.drawBars(kept, isPassing));
    this.changes.draw(context, view.width, view.width, this.height, (kept) => this.drawChanges(kept));
    context.fillStyle = INK;
    context.font = "11px sans-serif";
    context.fillText("all events", 6, OVERVIEW_HEIGHT / 2 + 4);
    context.strokeStyle = INK;
    context.lineWidth = 1;
    const left = this.x(view.left);
    context.strokeRect(left - 1, 1.5, this.x(Math.min(view.right, view.count)) - left + 2, OVERVIEW_HEIGHT - 3);
    context.fillStyle = CURSOR;
    context.fillRect(this.x(cursor) - 1, 0, 2, this.height);
  }
}
