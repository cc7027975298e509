// The courses of the watched expressions as steps below the diagram, with a mark where each changes.

const STEP_HEIGHT = 46;

class Steps {
  constructor(stage) {
    this.stage = stage;
    this.kept = new Kept();
  }

  get height() {
    return this.stage.courses.length * STEP_HEIGHT;
  }

  draw(context) {
    const { view } = this.stage;
    if (this.height) {
      this.kept.draw(context, view.key, view.width, this.height, (kept) => this.drawCourses(kept));
      this.drawNames(context);
    }
  }

  // The names, with the values at the cursor.
  drawNames(context) {
    const { view, courses, cursor } = this.stage;
    courses.forEach((course, row) => {
      const top = row * STEP_HEIGHT;
      context.fillStyle = FAINT;
      context.fillRect(0, top, view.width, 1);
      context.fillStyle = INK;
      context.font = "bold 11px sans-serif";
      context.fillText(shortened(course.name, 26), 6, top + 19, LABELS - 12);
      context.font = "11px sans-serif";
      context.fillText(shortened(course.value(cursor), 20), 6, top + 35, LABELS - 12);
    });
  }

  drawCourses(context) {
    const { view, courses } = this.stage;
    context.font = "11px sans-serif";
    courses.forEach((course, row) => {
      const top = row * STEP_HEIGHT;
      context.save();
      context.beginPath();
      context.rect(LABELS, top, view.width - LABELS, STEP_HEIGHT);
      context.clip();
      this.drawCourse(context, course, top);
      context.restore();
    });
  }

  // The height of a value in its row, between the least and the greatest that are seen; a single value has the middle, and
  // `undef` the foot.
  heights(course, first, last, top) {
    const [least, most] = course.bounds(first, last);
    return (index) => {
      const height = course.heights[index];
      const part = most > least ? (height - least) / (most - least) : 0.5;
      return Number.isNaN(height) ? top + STEP_HEIGHT - 3 : top + 36 - 22 * part;
    };
  }

  drawCourse(context, course, top) {
    const { view } = this.stage;
    const first = course.changes(view.first - 1);
    const last = course.changes(view.last);
    const heightOf = this.heights(course, first, last, top);
    if (last - first > view.room) {
      this.drawFarCourse(context, course, first, last, top, heightOf);
      return;
    }
    let x = first ? view.x(course.positions[first - 1]) : view.x(0);
    for (let index = first; index <= last; index++) {
      const next = index < course.positions.length ? view.x(course.positions[index]) : view.x(view.count);
      const y = heightOf(index);
      context.fillStyle = Number.isNaN(course.heights[index]) ? "#868e96" : "#1864ab";
      context.fillRect(x, y - 1, Math.max(1, next - x), 2);
      if (index > first) {
        this.drawMark(context, x, heightOf(index - 1), y, top);
      }
      // Values have room where the next change is far.
      const left = Math.max(x, LABELS);
      if (next - left > 12 + 7 * course.values[index].length) {
        context.fillStyle = INK;
        context.fillText(course.values[index], left + 6, y - 4);
      }
      x = next;
    }
  }

  // More changes than columns of the screen: of each column the least and the greatest value that it has.
  drawFarCourse(context, course, first, last, top, heightOf) {
    const { view } = this.stage;
    const highest = new Float64Array(Math.ceil(view.width) + 1).fill(Infinity);
    const lowest = new Float64Array(highest.length).fill(-Infinity);
    for (let index = Math.max(first, 1); index <= last; index++) {
      const column = Math.floor(view.x(course.positions[index - 1]));
      const y = heightOf(index);
      highest[column] = Math.min(highest[column], y);
      lowest[column] = Math.max(lowest[column], y);
    }
    highest.forEach((y, column) => {
      if (y < Infinity) {
        context.fillStyle = "#1864ab";
        context.fillRect(column, y - 1, 1, lowest[column] - y + 2);
        context.fillStyle = CURSOR_FAINT;
        context.fillRect(column, top + STEP_HEIGHT - 6, 1, 4);
      }
    });
  }

  drawMark(context, x, before, y, top) {
    context.fillRect(x - 0.5, Math.min(before, y), 1, Math.abs(before - y));
    if (this.stage.view.scale >= APART) {
      context.fillStyle = CURSOR;
      disc(context, x, y, 3.2);
    } else {
      context.fillStyle = CURSOR_FAINT;
      context.fillRect(x, top + STEP_HEIGHT - 6, 1, 4);
    }
  }

  // The event that a click means: the change that it hits, or else the one that made the value there.
  clicked(x, y) {
    const { view, courses } = this.stage;
    const course = courses[Math.floor(y / STEP_HEIGHT)];
    if (!course) {
      return null;
    }
    const next = course.nextChange(view.position(x));
    return next && view.x(next) - x <= 4 ? next : course.changedAt(view.position(x));
  }
}
