// Which events are shown in full: those of the chosen processes and calls, in the past or future of the chosen event, and
// with the bytes that are looked for.

// How many marks there are.
function countOf(marks) {
  let count = 0;
  for (let place = 0; place < marks.length; place++) {
    count += marks[place];
  }
  return count;
}

class Filters {
  constructor() {
    this.hiddenProcesses = new Set();
    this.hiddenCalls = new Set();
    this.cause = "all";
    this.search = "";
  }

  isHidden(process) {
    return this.hiddenProcesses.has(process.number);
  }

  // A mark for each position whose event passes.
  passing(recording, causes, chosen) {
    const calls = recording.calls.map((call) => !this.hiddenCalls.has(call));
    const processes = recording.processes.map((process) => !this.isHidden(process));
    const pattern = this.search ? patternOf(this.search) : null;
    const pieces = pattern ? recording.pieces.map((piece) => holdsBytes(piece, pattern)) : null;
    const bounds = causes.bounds(this.cause, chosen);
    const passes = new Uint8Array(recording.count + 1);
    recording.own.forEach((own, place) => {
      const { past, future } = bounds[place];
      for (let index = 0; processes[place] && index < own.length; index++) {
        const position = own[index];
        const isRelated = index < past || index + 1 >= future;
        const isFound = !pieces || pieces[recording.piece[position]];
        passes[position] = isRelated && isFound && calls[recording.text[position]] ? 1 : 0;
      }
    });
    return passes;
  }
}
