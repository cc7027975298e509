// Which part of a recording is drawn, and where each of its positions stands.

const LABELS = 150;
const MARGIN = 14;
const WIDEST = 40;
const USUAL = 14;

class View {
  constructor(count) {
    this.count = count;
    this.left = 0;
    this.scale = USUAL;
  }

  // The room for events; where all of them fit, they are drawn as wide as they can be.
  resize(width) {
    this.width = width;
    this.room = Math.max(50, width - LABELS - 2 * MARGIN);
    this.fit = this.room / Math.max(1, this.count);
    this.zoom(this.scale, this.left);
  }

  x(position) {
    return LABELS + MARGIN + (position - this.left) * this.scale;
  }

  position(x) {
    return this.left + (x - LABELS - MARGIN) / this.scale;
  }

  get right() {
    return this.left + this.room / this.scale;
  }

  // The first and the last position that are seen.
  get first() {
    return Math.max(1, Math.floor(this.left));
  }

  get last() {
    return Math.min(this.count, Math.ceil(this.right));
  }

  // Which part is seen, for what is kept of it.
  get key() {
    return [this.left, this.scale, this.width].join(",");
  }

  // Another scale, under which this position stays where it is.
  zoom(scale, position) {
    const before = this.scale;
    this.scale = Math.min(Math.max(scale, Math.min(this.fit, WIDEST)), WIDEST);
    this.left = position - ((position - this.left) * before) / this.scale;
    this.hold();
  }

  hold() {
    const most = Math.max(0, this.count - this.room / this.scale);
    this.left = Math.min(Math.max(this.left, 0), most);
  }

  // Brings a position to a place on the screen, or as near as the ends of the recording let it.
  put(position, x) {
    this.left = position - (x - LABELS - MARGIN) / this.scale;
    this.hold();
  }

  // Brings a position well into the part that is seen.
  follow(position) {
    const border = (this.right - this.left) / 8;
    if (position < this.left + border || position > this.right - border) {
      this.left = position - (this.right - this.left) * 0.6;
      this.hold();
    }
  }
}

// A canvas with as many dots as the screen has, to be drawn on in the screen's measure.
function prepared(canvas, width, height) {
  const ratio = window.devicePixelRatio || 1;
  if (canvas.width !== Math.round(width * ratio) || canvas.height !== Math.round(height * ratio)) {
    canvas.width = Math.round(width * ratio);
    canvas.height = Math.round(height * ratio);
    canvas.style.width = width + "px";
    canvas.style.height = height + "px";
  }
  const context = canvas.getContext("2d");
  context.setTransform(ratio, 0, 0, ratio, 0, 0);
  context.clearRect(0, 0, width, height);
  return context;
}

// A picture that is drawn again only where its key is another one, since a move of the cursor changes little.
class Kept {
  constructor() {
    this.canvas = document.createElement("canvas");
    this.key = "";
  }

  draw(context, key, width, height, drawn) {
    if (this.key !== key + "," + height) {
      drawn(prepared(this.canvas, width, height));
      this.key = key + "," + height;
    }
    context.drawImage(this.canvas, 0, 0, width, height);
  }
}
