
// State: what each thread does after a line of the log, and what each variable holds. The page has what each line changes.
const state = (() => {
  const changes = run.states, last = changes.length - 1;
  let place = 0, now, before;
  const element = (name, className, ...parts) => {
    const it = document.createElement(name);
    if (className) it.className = className;
    it.append(...parts);
    return it;
  };
  // The moment after the changes up to one of them; the one at -1 is before the run.
  function moment(wanted) {
    const found = { threads: {} };
    for (const { threads: changed = {}, ...rest } of changes.slice(0, wanted + 1)) {
      Object.assign(found, rest);
      for (const [number, it] of Object.entries(changed)) {
        if (it) found.threads[number] = it;
        else delete found.threads[number];
      }
    }
    return found;
  }
  const named = (it) => it.name ?? (it.call ? `${it.call.name}(..) at ${it.call.line}:${it.call.column}` : null);
  const valued = (it) => (it.values ? `{${it.values.join(", ")}${it.values.length < it.words ? ", .." : ""}}` : String(it.value));
  function variables(list, before) {
    const box = element("span", "variables");
    for (const it of list) {
      if (named(it) === null) continue;
      const old = before?.find((other) => named(other) === named(it));
      box.append(element("span", old && valued(old) !== valued(it) ? "changed" : "", `${named(it)} = ${valued(it)}`));
    }
    return box;
  }
  function doing(it) {
    if (it.thread === now.running) return "runs";
    if (!it.call) return "hasn't run";
    const until = it.call.until === null ? "" : `, until ${shown(it.call.until)}`;
    return `at ${it.call.name}(${it.call.arguments.join(", ")}) since ${shown(it.call.since)}${until}`;
  }
  function thread(it, before) {
    const table = element("table", "calls");
    it.stack.forEach((frame, level) => {
      const other = before?.stack[before.stack.length - it.stack.length + level];
      const beside = other?.function === frame.function ? other.locals : null;
      const at = frame.line ? link(`#line=${frame.line}`, `${frame.line}:${frame.column}`) : "";
      table.append(element("tr", "", element("td", "", frame.function), element("td", "", at), element("td", "", variables(frame.locals, beside))));
    });
    const head = element("h3", it.thread === now.running ? "running" : "", `thread ${run.threads[it.thread] ?? it.thread} `, element("small", "", doing(it)));
    return element("article", "", head, table);
  }
  function draw() {
    [now, before] = [moment(place), moment(place - 1)];
    const queues = element("ul", "");
    $("stateLine").value = now.line;
    $("stateRange").value = place;
    $("stateWhere").textContent = `of ${shown(changes[last].line)}, clock ${shown(now.clock)}, ${shown(now.free)} chunks free: ${lines[now.line - 1]}`;
    queues.append(element("li", "", `arrivals: ${now.arrivals.join(", ") || "none"}`));
    for (const it of now.channels) queues.append(element("li", "", `channel ${it.channel}: ${it.messages.join(", ")}`));
    for (const [number, used, cap] of now.resources) queues.append(element("li", "", `resource ${number}: ${used} of ${cap} in use`));
    const shared = element("article", "", element("h3", "", "Globals"), variables(now.globals, before.globals), element("h3", "", "Queues and resources"), queues);
    $("stateBody").replaceChildren(shared, ...Object.values(now.threads).map((it) => thread(it, before.threads[it.thread])));
  }
  // Shows the moment after a change.
  function go(wanted) {
    place = Math.min(Math.max(wanted, 0), last);
    if (!$("state").hidden) draw();
  }
  // The last change up to a line, or up to a clock.
  const upTo = (limit, of) => {
    let found = 0;
    while (found < last && of(changes[found + 1]) <= limit) found++;
    return found;
  };
  if (last < 0) {
    $("stateBody").textContent = "The page has the state of runs of up to 5,000 lines of log whose source can be replayed beside the log.";
    $("moment").hidden = true;
    return { draw: () => {}, toLine: () => {}, toClock: () => {} };
  }
  $("stateRange").max = last;
  $("stateRange").oninput = () => go(Number($("stateRange").value));
  $("stateBack").onclick = () => go(place - 1);
  $("stateNext").onclick = () => go(place + 1);
  $("moment").onsubmit = (event) => {
    event.preventDefault();
    go(upTo(Number($("stateLine").value), (it) => it.line));
  };
  return { draw, toLine: (line) => go(upTo(line, (it) => it.line)), toClock: (clock) => go(upTo(clock, (it) => it.clock)) };
})();
