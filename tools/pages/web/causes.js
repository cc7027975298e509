// What happened before what. The vector clock of an event says of each process how many of its events happened before, or
// are the event itself.

class Causes {
  constructor(recording) {
    const width = recording.processes.length;
    this.recording = recording;
    this.width = width;
    this.clocks = new Uint32Array((recording.count + 1) * width);
    const latest = new Uint32Array(width);
    for (let position = 1; position <= recording.count; position++) {
      const process = recording.process[position];
      this.clocks.copyWithin(position * width, latest[process] * width, (latest[process] + 1) * width);
      this.join(position, recording.sendOf[position]);
      this.clocks[position * width + process] = recording.numbers[position];
      latest[process] = position;
    }
  }

  // The clock of position 0, which is that of no send too, is all zeros.
  join(position, send) {
    for (let place = 0; send && place < this.width; place++) {
      const at = position * this.width + place;
      this.clocks[at] = Math.max(this.clocks[at], this.clocks[send * this.width + place]);
    }
  }

  // Whether one event is another, or happened before it.
  isBefore(position, later) {
    const { process, numbers } = this.recording;
    return this.clocks[later * this.width + process[position]] >= numbers[position];
  }

  // Of each process how many events are in the past of the chosen one, and the number of the first that is in its future: the
  // clocks of a process's own events only rise.
  bounds(cause, chosen) {
    return this.recording.own.map((own, place) => {
      if (cause === "all" || !chosen) {
        return { past: own.length, future: 1 };
      }
      let low = 0;
      let high = cause === "past" ? 0 : own.length;
      while (low < high) {
        const middle = (low + high) >> 1;
        [low, high] = this.isBefore(chosen, own[middle]) ? [low, middle] : [middle + 1, high];
      }
      const past = cause === "future" ? 0 : this.clocks[chosen * this.width + place];
      return { past, future: cause === "past" ? Infinity : low + 1 };
    });
  }
}
