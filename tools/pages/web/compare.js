// Where two recordings of one group differ. The events of each process are held against those of the same process in the
// other one, in their order; a Lamport clock is nothing that a process sees, so clocks are not compared.

// A number for what an event is, the same in both recordings for the same thing.
class Meanings {
  constructor() {
    this.numbers = new Map();
  }

  of(text) {
    if (!this.numbers.has(text)) {
      this.numbers.set(text, this.numbers.size);
    }
    return this.numbers.get(text);
  }
}

function pieceKey(recording, piece) {
  const bytes = Array.from(recording.pieces[piece], (byte) => String.fromCharCode(byte)).join("");
  return "bytes " + recording.wholes[piece] + " " + (recording.sums[piece] || "") + " " + bytes;
}

// Of each position: its text, its bytes, its thread and from whom it took something, as one list of numbers.
function meaningsOf(recording, meanings) {
  const texts = recording.texts.map((text) => meanings.of("text " + text));
  const pieces = recording.pieces.map((_, piece) => meanings.of(pieceKey(recording, piece)));
  return (position) => {
    const send = recording.sendOf[position];
    const stray = recording.strays.get(position);
    const sender = send ? recording.processes[recording.process[send]].number : stray ? stray.sender : -1;
    return [texts[recording.text[position]], pieces[recording.piece[position]], recording.thread[position], sender];
  };
}

// For each process the number of the first event that differs, with its positions, 0 where a recording has no such event.
function firstDifferences(one, other) {
  const meanings = new Meanings();
  const ofOne = meaningsOf(one, meanings);
  const ofOther = meaningsOf(other, meanings);
  return one.processes.map((process, place) => {
    const mine = one.own[place];
    const theirs = other.own[place];
    let index = 0;
    while (index < mine.length && index < theirs.length && isSame(ofOne(mine[index]), ofOther(theirs[index]))) {
      index++;
    }
    const isEqual = index === mine.length && index === theirs.length;
    return { process, number: isEqual ? 0 : index + 1, positions: [mine[index] || 0, theirs[index] || 0] };
  });
}

function isSame(one, other) {
  return one.every((number, place) => number === other[place]);
}

// The first value of a course that differs: which one it is, from 0, with its positions; null where it is not there.
function firstOtherValue(one, other) {
  const most = Math.max(one.values.length, other.values.length);
  for (let index = 0; index < most; index++) {
    if (one.values[index] !== other.values[index]) {
      return [one, other].map((course) =>
        index < course.values.length ? { value: course.values[index], position: index ? course.positions[index - 1] : 0 } : null,
      );
    }
  }
  return null;
}

// The position in one recording of the event that has, in its process, the number of an event of another recording.
function aligned(from, position, to) {
  if (!position) {
    return 0;
  }
  const own = to.own[from.process[position]];
  return own[Math.min(from.numbers[position], own.length) - 1] || 0;
}
