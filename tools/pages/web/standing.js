// How the processes stand at a position: what the debugger's line `threads` says there, and which datagrams are under way.

const MOST_DATAGRAMS = 6;

class Standing {
  constructor(recording) {
    this.recording = recording;
    this.threads = recording.processes.map((process) => this.threadsOf(process));
    this.sends = recording.processes.map(() => []);
    this.times = recording.processes.map(() => []);
    for (let position = 1; position <= recording.count; position++) {
      const { process, thread } = recording;
      this.threads[process[position]].get(thread[position]).events.push(position);
      this.noteSend(position);
      if (["now", "sleep_until"].includes(recording.call(position))) {
        this.times[process[position]].push(position);
      }
    }
  }

  // Of each thread since when it is made, its events, and how it stands behind the last one.
  threadsOf(process) {
    const place = this.recording.processes.indexOf(process);
    const threads = new Map([[0, { made: 0, events: [] }]]);
    for (const [position, thread] of this.recording.made) {
      if (this.recording.process[position] === place) {
        threads.set(thread, { made: position, events: [] });
      }
    }
    process.threads.forEach(([thread, standing]) => (threads.get(thread).last = standing));
    return threads;
  }

  noteSend(position) {
    if (this.recording.call(position) === "send" && this.recording.reply(position) >= 0) {
      const receiver = this.recording.receiver(position);
      if (receiver >= 0) {
        this.sends[receiver].push(position);
      }
    }
  }

  // A process ends with its last event, if it ends.
  endAt(place, position) {
    const own = this.recording.own[place];
    const isLast = countUpTo(own, position) === own.length;
    return isLast ? this.recording.processes[place].end : "running";
  }

  lastEvent(place, position) {
    const own = this.recording.own[place];
    return own[countUpTo(own, position) - 1] || 0;
  }

  // The event that told a process the wall time last, or 0.
  timeTold(place, position) {
    const times = this.times[place];
    return times[countUpTo(times, position) - 1] || 0;
  }

  // The debugger's lines for the threads that were made, each with the place in its source: each stands at the call that its
  // next event answers.
  threadLines(place, position) {
    if (this.endAt(place, position) !== "running") {
      return [];
    }
    const { recording } = this;
    const lines = [];
    for (const [number, thread] of this.threads[place]) {
      if (thread.made <= position) {
        const next = thread.events[countUpTo(thread.events, position)];
        const how = next ? "at " + recording.pending(next) : thread.last;
        const waiting = how.startsWith("at ") && how !== "at begin";
        const last = waiting ? recording.waiting.get(recording.processes[place].name + " " + number) || "" : "";
        lines.push({ line: number + " " + how, site: next ? recording.site(next) : last });
      }
    }
    return lines;
  }

  // The datagrams sent to a process that it takes later, in the order in which it does, and then the latest of those that no
  // event took: the first of them, and how many there are.
  pendingAt(place, position) {
    const sends = this.sends[place];
    const coming = [];
    const untaken = [];
    let lost = 0;
    for (let index = countUpTo(sends, position) - 1; index >= 0; index--) {
      const send = sends[index];
      const last = this.recording.lastTaker[send];
      if (last > position) {
        coming.push({ send, taken: this.recording.takers.get(send).find((taker) => taker > position) });
      } else if (!last && lost++ < MOST_DATAGRAMS) {
        untaken.push({ send, taken: 0 });
      }
    }
    coming.sort((one, other) => one.taken - other.taken);
    return { shown: [...coming, ...untaken].slice(0, MOST_DATAGRAMS), count: coming.length + lost };
  }
}
