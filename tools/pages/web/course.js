// The course of a watched expression: its value at each position, and where it changes.

class Course {
  constructor({ name, expression, positions, values }) {
    this.name = visible(name);
    this.expression = expression;
    this.positions = Uint32Array.from(positions);
    this.values = values;
    // For heights alone, so it may be rounded; `undef` has none.
    this.heights = Float64Array.from(values, (value) => (value === "undef" ? NaN : Number(value)));
  }

  // The least and the greatest of some values, from one index to another.
  bounds(first, last) {
    let least = Infinity;
    let most = -Infinity;
    for (let index = first; index <= last; index++) {
      const height = this.heights[index];
      if (!Number.isNaN(height)) {
        least = Math.min(least, height);
        most = Math.max(most, height);
      }
    }
    return [least, most];
  }

  // How many changes there were up to a position.
  changes(position) {
    return countUpTo(this.positions, position);
  }

  value(position) {
    return this.values[this.changes(position)];
  }

  // The event that made the value at a position; 0 where it is the first value.
  changedAt(position) {
    return this.positions[this.changes(position) - 1] || 0;
  }

  nextChange(position) {
    return this.positions[this.changes(position)] || 0;
  }
}
