// The events around the cursor that pass the filters, as a list.

const EVENTS_BEFORE = 10;
const EVENTS_AFTER = 4;

class EventList {
  constructor(stage, root) {
    this.stage = stage;
    this.list = root.querySelector(".events");
  }

  show() {
    this.list.replaceChildren(...this.positions().map((position) => this.row(position)));
  }

  positions() {
    const { passes, cursor, recording } = this.stage;
    const found = [];
    for (let position = cursor; position > 0 && found.length < EVENTS_BEFORE; position--) {
      if (passes[position] || position === cursor) {
        found.unshift(position);
      }
    }
    const most = found.length + EVENTS_AFTER;
    for (let position = cursor + 1; position <= recording.count && found.length < most; position++) {
      if (passes[position]) {
        found.push(position);
      }
    }
    return found;
  }

  row(position) {
    const { recording, cursor } = this.stage;
    const row = element("li", position === cursor ? "event here" : "event", recording.headline(position));
    if (recording.site(position)) {
      row.append(element("span", "site", recording.site(position)));
    }
    const told = recording.told(position)[0];
    if (told) {
      row.append(element("span", "bytes", shortened(told, 120)));
    }
    row.addEventListener("click", () => this.stage.moveTo(position));
    return row;
  }
}
