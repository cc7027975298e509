// One recording on the page: its cursor, what is drawn of it, and the words beside that.

class Stage {
  constructor(recording, courses, root) {
    this.recording = recording;
    this.courses = courses;
    this.root = root;
    this.causes = new Causes(recording);
    this.standing = new Standing(recording);
    this.view = new View(recording.count);
    this.cursor = 0;
    // The event that was chosen for the past and future; 0 is the one at the cursor.
    this.chosen = 0;
    // The first event of each process that another recording has otherwise.
    this.differs = [];
    // How often the filters changed, and how often the events that pass were found, for what is kept of them.
    this.filtered = 0;
    this.turn = 0;
    this.far = new Bars();
    this.moved = () => {};
    // Has the address written again.
    this.told = () => {};
    this.canvases = ["overview", "diagram", "steps"].map((name) => root.querySelector("canvas." + name));
    this.overview = new Overview(this);
    this.diagram = new Diagram(this);
    this.steps = new Steps(this);
    this.panel = new Panel(this, root);
    this.list = new EventList(this, root);
    root.querySelector(".files").textContent = recording.files.join(", ");
  }

  filter(filters) {
    this.filters = filters;
    this.rows = new Rows(this.recording, filters);
    this.filtered++;
    this.pass();
  }

  pass() {
    this.passes = this.filters.passing(this.recording, this.causes, this.chosen || this.cursor);
    this.turn++;
    this.passed = countOf(this.passes);
  }

  resize(filters) {
    this.view.resize(this.root.clientWidth);
    this.view.follow(this.cursor);
    this.filter(filters);
    this.draw();
  }

  // Goes to a position, as near as there is one; `moved` tells whoever goes along.
  moveTo(position) {
    this.place(position);
    this.moved(this);
  }

  // Goes to a position without telling; `x` is where the cursor is to stand, if that is not left open.
  place(position, x = null) {
    this.cursor = Math.min(Math.max(Math.round(position) || 0, 0), this.recording.count);
    if (x === null) {
      this.view.follow(this.cursor);
    } else {
      this.view.put(this.cursor, x);
    }
    if (this.filters.cause !== "all" && !this.chosen) {
      this.pass();
    }
    this.draw();
  }

  choose() {
    this.chosen = this.chosen === this.cursor ? 0 : this.cursor;
    this.pass();
    this.draw();
  }

  zoom(scale, position) {
    this.view.zoom(scale, position);
    this.draw();
  }

  // The next position, or the one before, whose event passes the filters; where there is none, the present one.
  passing(step) {
    for (let position = this.cursor + step; position > 0 && position <= this.recording.count; position += step) {
      if (this.passes[position]) {
        return position;
      }
    }
    return this.cursor;
  }

  // The nearest position, in this direction, at which a watched expression changes.
  changing(step) {
    const change = (course) => (step > 0 ? course.nextChange(this.cursor) : course.changedAt(this.cursor - 1));
    const found = this.courses.map(change).filter((position) => position > 0);
    return found.length ? Math[step > 0 ? "min" : "max"](...found) : this.cursor;
  }

  draw() {
    const [overview, diagram, steps] = this.canvases;
    this.overview.draw(overview);
    const context = prepared(diagram, this.view.width, this.rows.total);
    this.drawNames(context);
    drawScale(context, this.view);
    if (this.view.scale < APART) {
      this.far.draw(context, this.view.key, this.rows.total, this, (kept, isPassing) => drawFar(this, kept, isPassing));
    } else {
      this.diagram.draw(context);
    }
    this.drawCursor(context, this.rows.total);
    const below = prepared(steps, this.view.width, Math.max(1, this.steps.height));
    this.steps.draw(below);
    this.drawCursor(below, this.steps.height);
    this.panel.show();
    this.list.show();
    this.showPlace();
  }

  showPlace() {
    for (const name of [".slider", ".position"]) {
      const input = this.root.querySelector(name);
      input.max = this.recording.count;
      input.value = this.cursor;
    }
    const shown = this.passed < this.recording.count ? ", " + this.passed + " of them shown" : "";
    this.root.querySelector(".total").textContent = "of " + this.recording.count + shown;
    this.root.querySelector(".chosen").textContent = this.chosen ? "chosen: " + this.recording.headline(this.chosen) : "";
  }

  drawNames(context) {
    const { rows, recording, cursor } = this;
    context.font = "bold 12px sans-serif";
    for (const place of rows.shown) {
      context.fillStyle = cursor && recording.process[cursor] === place ? CURSOR : INK;
      context.fillText(shortened(recording.processes[place].name, 20), 6, rows.middle(place) + 4, LABELS - 12);
    }
  }

  drawCursor(context, height) {
    const x = this.view.x(this.cursor);
    if (x >= LABELS) {
      context.fillStyle = CURSOR_FAINT;
      context.fillRect(x - 0.75, 0, 1.5, height);
    }
  }

  // The event that a click in the diagram means: the nearest one of the row that was hit.
  clicked(x, y) {
    const place = this.rows.placeAt(y);
    const own = this.recording.own[place] || [];
    const near = countUpTo(own, this.view.position(x));
    const nearest = [own[near - 1], own[near]].filter((position) => position !== undefined);
    nearest.sort((one, other) => Math.abs(this.view.x(one) - x) - Math.abs(this.view.x(other) - x));
    const isHit = nearest.length && Math.abs(this.view.x(nearest[0]) - x) <= 8;
    return isHit ? nearest[0] : this.view.position(x);
  }
}
