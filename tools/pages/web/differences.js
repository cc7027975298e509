// Two recordings beside each other: they move together, and a table tells where each process and each watch differs first.

class Differences {
  constructor(stages, root) {
    this.stages = stages;
    this.root = root;
    this.together = root.querySelector(".together");
    this.table = root.querySelector("tbody");
    root.hidden = false;
    stages.forEach((stage, place) => {
      stage.moved = (moved) => this.follow(moved);
      root.querySelector(place ? ".other" : ".one").textContent = shortened(stage.recording.files[0], 80) + " ..";
    });
    this.show();
  }

  // The other recording goes to the event that has the same number in the same process, and brings it to the same place.
  follow(moved) {
    const other = this.stages.find((stage) => stage !== moved);
    if (this.together.checked) {
      other.place(aligned(moved.recording, moved.cursor, other.recording), moved.view.x(moved.cursor));
    }
  }

  show() {
    const [one, other] = this.stages;
    const differences = firstDifferences(one.recording, other.recording);
    this.stages.forEach((stage, place) => (stage.differs = differences.map(({ positions }) => positions[place])));
    const rows = differences.map((found) => this.eventRow(found));
    one.courses.forEach((course, place) => rows.push(this.valueRow(course, other.courses[place])));
    this.table.replaceChildren(...rows);
  }

  eventRow({ process, number, positions }) {
    const row = element("tr", "difference");
    row.dataset.process = process.name;
    row.append(element("th", "", process.name), element("td", "number", number ? "its event " + number : "no difference"));
    if (number) {
      positions.forEach((position, place) => row.append(this.eventCell(position, place, positions)));
    }
    return row;
  }

  eventCell(position, place, positions) {
    const { recording } = this.stages[place];
    if (!position) {
      return element("td", "event", "has no such event");
    }
    const told = recording.told(position)[0];
    const bytes = told ? [element("div", "bytes", shortened(told, 120))] : [];
    return element("td", "event", "", [this.goTo(recording.headline(position), positions), ...bytes]);
  }

  // Goes to a place in each recording, and where one has none, nowhere in that.
  goTo(text, positions) {
    const made = element("button", "link", text);
    made.addEventListener("click", () => {
      positions.forEach((position, place) => position !== null && position > 0 && this.stages[place].place(position));
      this.stages[0].told();
    });
    return made;
  }

  valueRow(course, otherCourse) {
    const found = firstOtherValue(course, otherCourse);
    const row = element("tr", "difference");
    row.dataset.watch = course.name;
    const number = found ? "its first other value" : "no difference";
    row.append(element("th", "", shortened(course.name, 60)), element("td", "number", number));
    if (found) {
      const positions = found.map((value) => (value ? value.position : null));
      found.forEach((value) => row.append(this.valueCell(value, positions)));
    }
    return row;
  }

  valueCell(value, positions) {
    const text = value ? value.value + " at " + value.position : "changes no more";
    return element("td", "value", "", [value ? this.goTo(text, positions) : text]);
  }
}
