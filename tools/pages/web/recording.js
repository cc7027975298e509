// A recording: its events by their positions, which go from 1, with what they sent and took.

async function unpacked(packed) {
  const letters = atob(packed);
  const deflated = new Uint8Array(letters.length);
  for (let place = 0; place < letters.length; place++) {
    deflated[place] = letters.charCodeAt(place);
  }
  const stream = new Blob([deflated]).stream().pipeThrough(new DecompressionStream("deflate"));
  const whole = new Uint8Array(await new Response(stream).arrayBuffer());
  const pool = 4 + new DataView(whole.buffer).getUint32(0, true);
  const data = JSON.parse(new TextDecoder().decode(whole.subarray(4, pool)));
  return { recording: new Recording(data, whole.subarray(pool)), courses: data.courses.map((course) => new Course(course)) };
}

// A column by position, where 0 is none.
function byPosition(values) {
  const column = new Uint32Array(values.length + 1);
  column.set(values, 1);
  return column;
}

const FATES = [
  "no event took it: it was lost, or still waits",
  "the log of its receiver is not given",
  "the group has no such process",
  "no event that the cut kept took it: it was taken later, was lost, or still waits",
];
const BEGINNING = "the beginning";

class Recording {
  constructor(data, pool) {
    this.count = data.count;
    this.files = data.files.map(visible);
    this.processes = data.processes;
    this.texts = data.texts;
    this.calls = data.texts.map((text) => text.split(" ", 1)[0]);
    this.process = byPosition(data.process);
    this.thread = byPosition(data.thread);
    this.text = byPosition(data.text);
    this.piece = byPosition(data.bytes);
    this.clock = new BigUint64Array(data.count + 1);
    data.clock.forEach((step, place) => (this.clock[place + 1] = this.clock[place] + BigInt(step)));
    this.made = data.made;
    this.keepPieces(data, pool);
    this.number();
    this.keepTraffic(data);
    this.keepPlaces(data);
  }

  keepPieces(data, pool) {
    let start = 0;
    this.pieces = data.lengths.map((length) => pool.subarray(start, (start += length)));
    this.wholes = data.wholes;
    this.sums = data.sums;
  }

  // The events of each process, in their order, and of each event its number among them, from 1.
  number() {
    const own = this.processes.map(() => []);
    this.numbers = new Uint32Array(this.count + 1);
    for (let position = 1; position <= this.count; position++) {
      this.numbers[position] = own[this.process[position]].push(position);
    }
    this.own = own.map((positions) => Uint32Array.from(positions));
  }

  keepTraffic(data) {
    this.sendOf = new Uint32Array(this.count + 1);
    this.takers = new Map();
    this.lastTaker = new Uint32Array(this.count + 1);
    data.receives.forEach((receive, place) => {
      const send = data.sends[place];
      this.sendOf[receive] = send;
      this.takers.set(send, [...(this.takers.get(send) || []), receive]);
      this.lastTaker[send] = receive;
    });
    this.altered = new Set(data.altered);
    this.outside = new Set(data.outside);
    this.strays = new Map(data.strays.map(([position, sender, clock]) => [position, { sender, clock }]));
    this.fates = new Map(data.fates);
  }

  // Where in the source each event was called, and where threads wait in the end, as far as guests tell.
  keepPlaces(data) {
    const places = ["", ...data.places.map(visible)];
    this.places = data.sites.map((place) => places[place]);
    this.waiting = new Map(data.waiting.map(([node, thread, place]) => [node + " " + thread, places[place]]));
  }

  // The place in the source of an event's call, or nothing.
  site(position) {
    return this.places[position - 1] || "";
  }

  call(position) {
    return this.calls[this.text[position]];
  }

  // The event as the debugger writes it.
  line(position) {
    const name = this.processes[this.process[position]].name;
    return this.clock[position] + " " + name + " " + this.thread[position] + " " + this.texts[this.text[position]];
  }

  headline(position) {
    return position ? position + ": " + this.line(position) : "0: " + BEGINNING;
  }

  // The call with its arguments, as a thread stands at it before it is answered.
  pending(position) {
    return this.texts[this.text[position]].split(" = ", 1)[0].split(" ! ", 1)[0];
  }

  argument(position) {
    return this.pending(position).split(" ")[1];
  }

  // The reply as it is written, which may be a number of 64 bits.
  answer(position) {
    const [, reply] = this.texts[this.text[position]].split(" = ");
    return reply === undefined ? "" : reply.split(" ", 1)[0];
  }

  reply(position) {
    return Number(this.answer(position));
  }

  signal(position) {
    return this.texts[this.text[position]].split(" ! ")[1];
  }

  bytes(position) {
    const piece = this.piece[position];
    return shownBytes(this.pieces[piece], this.wholes[piece]);
  }

  // The place among the processes of the one to which a send went, if its log is given.
  receiver(position) {
    const number = Number(this.argument(position));
    return this.processes.findIndex((process) => process.number === number);
  }

  nameOf(number) {
    const process = this.processes.find((each) => each.number === number);
    return process ? process.name : String(number);
  }

  // The place of the process that sent what an event took, or its number in the tag of a stray one.
  source(position) {
    const send = this.sendOf[position];
    const stray = this.strays.get(position);
    if (send) {
      return this.processes[this.process[send]].name + " at its clock " + this.clock[send];
    }
    return stray ? this.nameOf(stray.sender) + " at its clock " + stray.clock : "outside";
  }

  // What an event printed, sent or took, and what became of its datagram.
  told(position) {
    const call = position ? this.call(position) : "";
    const lines = [];
    if (call === "print") {
      lines.push("printed " + this.bytes(position));
    } else if (call === "send") {
      lines.push("sent to " + this.nameOf(Number(this.argument(position))) + ": " + this.bytes(position));
    } else if (["recv", "try_recv"].includes(call) && this.reply(position) >= 0) {
      lines.push("taken from " + this.source(position) + ": " + this.bytes(position));
    } else if (call === "random" && this.reply(position) >= 0) {
      lines.push("taken " + this.bytes(position));
    }
    return [...lines, ...this.fate(position), ...this.arrival(position)];
  }

  fate(position) {
    const takers = this.takers.get(position);
    if (takers) {
      return ["taken at " + takers.join(", and again at ")];
    }
    return this.fates.has(position) ? [FATES[this.fates.get(position)]] : [];
  }

  arrival(position) {
    const send = this.sendOf[position];
    if (!send) {
      return this.strays.has(position) ? ["the logs given have no such send"] : [];
    }
    const again = this.isAgain(position) ? "; it came before" : "";
    const altered = this.altered.has(position) ? "; other bytes came than were sent" : "";
    return ["sent at " + send + ", taken at " + position + again + altered];
  }

  isAgain(receive) {
    return this.takers.get(this.sendOf[receive])[0] !== receive;
  }

  // The event in some words, for a place beside its dot.
  word(position) {
    const call = this.call(position);
    if (call === "print" && this.reply(position) >= 0) {
      return this.bytes(position).replace(/\\n"$/, '"');
    }
    if (call === "sleep_until") {
      return "until " + this.answer(position);
    }
    const isAnswered = this.reply(position) < 0 || ["now", "spawn"].includes(call);
    const answer = isAnswered ? " = " + this.answer(position) : "";
    if (call === "send") {
      return call + " " + this.nameOf(Number(this.argument(position))) + answer;
    }
    const isTold = ["exit", "note", "join", "lock", "unlock", "on_signal"].includes(call);
    return call + (isTold ? " " + this.argument(position) : "") + answer;
  }
}

// How many numbers of a rising column are at most this one.
function countUpTo(column, most) {
  let low = 0;
  let high = column.length;
  while (low < high) {
    const middle = (low + high) >> 1;
    if (column[middle] <= most) {
      low = middle + 1;
    } else {
      high = middle;
    }
  }
  return low;
}
