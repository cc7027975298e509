// Keys, the wheel, clicks, the slider and the address: all that moves a cursor; and the filters.

const WHEEL_DOTS = 2;
const FAR_STEP = 10;
const ZOOM = 1.5;

class Controls {
  constructor(stages, filters) {
    this.stages = stages;
    this.filters = filters;
    this.active = stages[0];
    stages.forEach((stage) => this.listen(stage));
    document.addEventListener("keydown", (event) => this.key(event));
    window.addEventListener("resize", () => this.refresh());
    window.addEventListener("hashchange", (event) => this.readAddress(new URL(event.newURL).hash));
    this.buildFilters();
  }

  refresh() {
    this.stages.forEach((stage) => stage.resize(this.filters));
  }

  listen(stage) {
    const [overview, diagram, steps] = stage.canvases;
    const inside = (canvas, event) => {
      const box = canvas.getBoundingClientRect();
      return [event.clientX - box.left, event.clientY - box.top];
    };
    stage.root.addEventListener("pointerdown", () => (this.active = stage), true);
    overview.addEventListener("click", (event) => stage.moveTo(stage.overview.position(inside(overview, event)[0])));
    diagram.addEventListener("click", (event) => stage.moveTo(stage.clicked(...inside(diagram, event))));
    steps.addEventListener("click", (event) => {
      const position = stage.steps.clicked(...inside(steps, event));
      if (position !== null) {
        stage.moveTo(position);
      }
    });
    for (const canvas of stage.canvases) {
      const wheel = (event) => this.wheel(stage, event, inside(canvas, event)[0]);
      canvas.addEventListener("wheel", wheel, { passive: false });
    }
    for (const name of [".slider", ".position"]) {
      stage.root.querySelector(name).addEventListener("input", (event) => stage.moveTo(Number(event.target.value)));
    }
    stage.told = () => this.writeAddress();
  }

  // The wheel moves the cursor, with control it zooms; where events are far apart it moves by one.
  wheel(stage, event, x) {
    event.preventDefault();
    const way = Math.sign(event.deltaY || event.deltaX);
    if (event.ctrlKey) {
      stage.zoom(stage.view.scale * (way > 0 ? 1 / ZOOM : ZOOM), stage.view.position(x));
    } else {
      const step = event.shiftKey ? FAR_STEP : Math.max(1, Math.round(WHEEL_DOTS / stage.view.scale));
      stage.moveTo(stage.cursor + way * step);
    }
  }

  key(event) {
    const isTyped = event.target.closest?.("input:not([type=range]):not([type=checkbox]), select");
    if (isTyped || event.ctrlKey || event.altKey || event.metaKey) {
      return;
    }
    const stage = this.active;
    const step = event.shiftKey ? FAR_STEP : 1;
    const moves = {
      ArrowRight: () => stage.cursor + step,
      ArrowLeft: () => stage.cursor - step,
      PageDown: () => stage.cursor + Math.round((stage.view.right - stage.view.left) * 0.8),
      PageUp: () => stage.cursor - Math.round((stage.view.right - stage.view.left) * 0.8),
      Home: () => 0,
      End: () => stage.recording.count,
      n: () => stage.passing(1),
      p: () => stage.passing(-1),
      w: () => stage.changing(1),
      b: () => stage.changing(-1),
    };
    const others = {
      "+": () => stage.zoom(stage.view.scale * ZOOM, stage.cursor),
      "-": () => stage.zoom(stage.view.scale / ZOOM, stage.cursor),
      0: () => stage.zoom(stage.view.fit, 0),
      c: () => stage.choose(),
    };
    if (Object.hasOwn(moves, event.key)) {
      event.preventDefault();
      stage.moveTo(moves[event.key]());
    } else if (Object.hasOwn(others, event.key)) {
      event.preventDefault();
      others[event.key]();
    }
  }

  // The address has the position of each recording. Browsers refuse to have it written too often, so it waits a little.
  writeAddress() {
    clearTimeout(this.waiting);
    const write = () => history.replaceState(null, "", "#at=" + this.stages.map((stage) => stage.cursor).join(","));
    this.waiting = setTimeout(write, 120);
  }

  readAddress(fragment) {
    const found = /^#at=([0-9]+(?:,[0-9]+)*)$/.exec(fragment);
    const positions = found ? found[1].split(",").map(Number) : [];
    if (positions.length === 1) {
      this.stages[0].moveTo(positions[0]);
    } else {
      positions.slice(0, this.stages.length).forEach((position, place) => this.stages[place].place(position));
    }
  }

  buildFilters() {
    const { processes } = this.stages[0].recording;
    const calls = [...new Set(this.stages.flatMap((stage) => stage.recording.calls))].sort();
    const field = (name) => document.querySelector("#filters ." + name);
    field("processes").append(...processes.map(({ name, number }) => this.box(name, number, this.filters.hiddenProcesses)));
    field("calls").append(...calls.map((call) => this.box(call, call, this.filters.hiddenCalls, COLOURS.get(call))));
    field("cause").addEventListener("change", (event) => this.change(() => (this.filters.cause = event.target.value)));
    field("search").addEventListener("input", (event) => this.change(() => (this.filters.search = event.target.value)));
  }

  // A box that is checked while what it names is shown.
  box(text, key, hidden, colour = "") {
    const input = element("input", "");
    const swatch = element("i", colour ? "swatch" : "");
    swatch.style.background = colour;
    Object.assign(input, { type: "checkbox", checked: true, name: text });
    input.addEventListener("change", () => this.change(() => (input.checked ? hidden.delete(key) : hidden.add(key))));
    return element("label", "", "", [input, swatch, text]);
  }

  change(act) {
    act();
    this.stages.forEach((stage) => {
      stage.filter(this.filters);
      stage.draw();
    });
  }
}
