// The walk: all that the page of a run has not. A walk is the list of its steps with their choices; the machine stands behind the last of them, and whatever
// is shown is what it answered: so a reload, a step back, a branch and an address are one call, and nothing can be out of step.
const WALK = (() => {
  const utf8 = new TextEncoder(), text = bytes => new TextDecoder().decode(bytes), none = new Uint8Array(0);
  const held = id => Uint8Array.from(atob($(id).textContent.trim()), c => c.charCodeAt(0));
  // the events of lines that come piece by piece, which are read while the machine goes on
  function reader() {
    const decoder = new TextDecoder(), events = [];
    let rest = "";
    function take(piece, isLast) {
      rest += decoder.decode(piece, { stream: !isLast });
      const end = rest.lastIndexOf("\n") + 1;
      if (end) { for (const e of parsed(rest.slice(0, end))) events.push(e); rest = rest.slice(end); }
    }
    return { take, events, rest: () => rest };
  }
  // the model's bytes are no text but to be shown and edited; `here` is the step behind which the machine stands, -1 where it does not live
  let bytes = none, name = "", more = [], legs = [], branches = [], view = null, ended = null, isBusy = false, here = -1, last = null, given = "";
  const marks = new Set(), AT_ONCE = 100, MOST = 1000, MOST_IN_ADDRESS = 2000, PATIENCE = 10000;

  // ---- the machine, in a worker: `ask` gives what it answers, and stops it after ten seconds
  const machine = {
    worker: null, ready: null, calls: new Map(), number: 0,
    begin() {
      const address = URL.createObjectURL(new Blob([$("machine").textContent], { type: "text/javascript" }));
      this.worker = new Worker(address);
      URL.revokeObjectURL(address);
      this.worker.onmessage = x => this.heard(x.data);
      return this.ready = this.send("load", { packed: $("wasm").textContent });
    },
    heard(said) {
      const call = this.calls.get(said.id);
      if (!call) return;
      if (said.piece) { call.lines.take(said.piece, false); return; }
      this.calls.delete(said.id);
      clearTimeout(call.timer);
      if (said.failed) call.no(new Error(said.failed));
      else { if (said.out) call.lines.take(said.out, true); call.yes({ ...said, events: call.lines.events, rest: call.lines.rest() }); }
    },
    async ask(what, words) { await this.ready; return this.send(what, words); },
    send(what, words) { return new Promise((yes, no) => { const id = ++this.number; this.calls.set(id, { yes, no, lines: reader(), timer: setTimeout(() => this.stop(), PATIENCE) }); this.worker.postMessage({ ...words, id, what }); }); },
    stop() {
      this.worker.terminate();
      for (const call of this.calls.values()) { clearTimeout(call.timer); call.no(new Error("it was stopped after ten seconds: go back, or on by fewer steps")); }
      this.calls.clear();
      here = -1;
      this.begin().catch(() => { });
    },
  };

  // ---- choices and lines
  const choicesOf = all => all.filter(leg => leg.of > 1).map(leg => leg.choice), record = all => choicesOf(all).map(c => c + "\n").join("");
  const legOf = e => ({ choice: e.choice, of: e.of }), stepsOf = events => events.filter(e => e.event === "step");
  const begins = (long, short) => short.length <= long.length && short.every((leg, i) => long[i].choice === leg.choice);
  async function told(what, words) {
    const since = performance.now();
    let answer;
    try { answer = await machine.ask(what, words); } catch (x) { here = -1; throw x; }
    if (answer.status) here = -1;
    if (!answer.events.length || (answer.status && answer.events[answer.events.length - 1].event !== "end")) { const failed = new Error((text(answer.err) || "status " + answer.status).trim()); failed.status = answer.status; throw failed; }
    last = { machine: answer.ms, answer: performance.now() - since };
    if (answer.more) more = answer.more;
    if (answer.err.length) say(text(answer.err).trim());
    return answer.events;
  }
  // what a call for a walk of these legs says: of the model that is walked, in the words that it is taken with
  const asked = (all, steps) => ({ model: bytes, called: name, more, choices: utf8.encode(record(all)), steps });
  // the walk of these legs anew, of so many steps at most, at this one
  async function open(all, at, steps = all.length) {
    const events = await told("open", asked(all, steps));
    here = stepsOf(events).length;
    show(events, at);
  }
  // lets the machine stand behind k steps; what it says of that state is known here
  async function stand(k) {
    if (here < 0) { await told("open", asked(legs.slice(0, k), k)); here = k; }
    if (here !== k) { await told("tell", { line: "at " + k + "\n" }); here = k; }
  }
  const isMarked = e => (e.processes || []).some(p => marks.has(p.line));
  // at most so many steps on from the end of the walk, of which the first question is answered so; no farther than a marked line
  async function on(most, choice) {
    await stand(legs.length);
    let events = await told("tell", { line: most + (choice ? " " + choice : "") + "\n" }), steps = stepsOf(events);
    here += steps.length;
    const cut = marks.size ? steps.findIndex((e, i) => i < steps.length - 1 && isMarked(e)) + 1 : 0;
    if (cut > 0) {
      await stand(legs.length + cut);
      events = steps.slice(0, cut).concat((await told("tell", { line: "0\n" })).slice(-1));
      steps = stepsOf(events);
    }
    const since = performance.now();
    legs.push(...steps.map(legOf));
    view.extend(events);
    last.page = performance.now() - since;
    beside();
  }

  // ---- the page
  const say = words => { $("note").textContent = words; };
  function show(events, at) {
    if (ended) ended.abort();
    ended = new AbortController();
    view = shown(events, text(bytes), at, ended.signal);
    legs = view.steps.map(legOf);
    for (const line of marks) mark(line, true);
    beside();
  }
  // one thing at a time; what fails is said, and the walk stays
  async function alone(what) {
    if (isBusy) return;
    isBusy = true;
    document.body.setAttribute("aria-busy", "true");
    say("");
    try { await what(); } catch (x) { say("The machine did not answer: " + x.message); }
    isBusy = false;
    document.body.removeAttribute("aria-busy");
  }
  // a walk that another one does not begin with is kept as a branch
  function kept(old) {
    if (old.length && !begins(legs, old) && !branches.some(b => begins(b, old))) branches.push(old);
    branches = branches.filter(b => !begins(legs, b)).slice(-100);
    beside();
  }
  function branch(b, i) {
    let common = 0;
    while (common < b.length && legs[common] && b[common].choice === legs[common].choice) common++;
    return '<li><button data-branch="' + i + '">' + b.length + " steps, another from step " + (common + 1) + " on" + (b[common] ? ": choice " + b[common].choice + " of " + b[common].of : "") + "</button></li>";
  }
  function beside() {
    const all = [];
    let many = 0;
    for (let i = legs.length; i-- > 0;) if (legs[i].of > 1 && ++many <= 200) all.push(legs[i].choice);
    $("branches").innerHTML = branches.map(branch).join("") || '<li class="none">none: go back and choose another</li>';
    $("rec").textContent = (many > all.length ? "(" + (many - all.length) + " before) " : "") + all.reverse().join(" ") || "no choice yet";
    $("cost").textContent = last ? "machine " + last.machine.toFixed(1) + " ms, answer " + last.answer.toFixed(1) + " ms" + (last.page ? ", page " + last.page.toFixed(1) + " ms" : "") : "";
    addressed();
  }
  // the address is the walk
  let later = 0;
  function address() {
    const all = choicesOf(legs), words = { at: view.at(), n: legs.length };
    if (all.length <= MOST_IN_ADDRESS) words.c = all.join(".");
    return "#" + new URLSearchParams(words);
  }
  function addressed() {
    clearTimeout(later);
    later = setTimeout(() => { given = address(); try { history.replaceState(null, "", given); } catch (x) { /* a page of a file may not have one */ } }, 150);
  }
  function mark(line, is) {
    const l = $("L" + line);
    if (is) marks.add(line); else marks.delete(line);
    if (l) { l.classList.toggle("stop", is); l.querySelector(".n").title = is ? "walks stop here" : ""; }
  }
  // who takes part in a move, each at a line
  const places = move => move.to ? [move, move.to] : [move], open_moves = () => view.end().choices || [];

  // ---- what a walker does
  // takes a choice of the state behind k steps: of the walk's end it goes on, and of its past another way, for which the rest is kept
  const choose = (k, i, of) => alone(async () => {
    if (legs[k] && legs[k].choice === i) { view.go(k + 1); return; }
    const old = legs;
    if (k < old.length) show([view.start, ...view.steps.slice(0, k), { event: "end", steps: k, end: "choices ended" }], k);
    await on(1 + ($("auto").checked ? AT_ONCE : 0), of > 1 ? i : 0);
    kept(old);
  });
  // takes the one move that is of this process, or on this line
  function taken(is) {
    const all = [...document.querySelectorAll("#moves button")], moves = view.at() < legs.length ? [] : open_moves();
    const found = moves.flatMap((move, i) => places(move).some(is) ? [i] : []);
    all.forEach((button, i) => button.classList.toggle("hint", found.length > 1 && found.includes(i)));
    if (found.length === 1) choose(legs.length, found[0] + 1, moves.length);
    else if (found.length) { all[found[0]].focus(); say(found.length + " moves there: choose one."); }
    else say(view.at() < legs.length ? "This is a state of the past: choose from the list." : "It has no move.");
  }
  const only = () => view.at() < legs.length ? view.go(legs.length) : alone(async () => { const before = legs.length; await on(MOST, 0); if (legs.length - before === MOST) say(MOST + " steps were taken."); });
  // PCG 32, as spinview's: one seed draws one walk
  const M64 = (1n << 64n) - 1n, chance = {
    state: 0n, inc: 109n,
    seed(seed) { this.state = (BigInt(seed) + this.inc) & M64; this.next(); },
    next() {
      const old = this.state, x = Number((((old >> 18n) ^ old) >> 27n) & 0xffffffffn), r = Number(old >> 59n);
      this.state = (old * 6364136223846793005n + this.inc) & M64;
      return ((x >>> r) | (x << (-r & 31))) >>> 0;
    },
  };
  const seeded = () => chance.seed(Math.min(4294967295, Math.max(0, Math.floor(+$("seed").value) || 0)));
  const randomly = most => alone(async () => {
    if (view.at() < legs.length) view.go(legs.length);
    for (let i = 0; i < most; i++) {
      const moves = open_moves(), before = legs.length;
      if (!moves.length || view.fault()) break;
      await on(1, moves.length > 1 ? 1 + chance.next() % moves.length : 0);
      if (legs.length === before || (marks.size && isMarked(view.steps[before]))) break;
    }
  });
  const again = () => alone(async () => { const old = legs; seeded(); await open([]); kept(old); });
  function save() {
    const link = document.createElement("a");
    link.href = URL.createObjectURL(new Blob([record(legs)]));
    link.download = name.replace(/\.pml$/, "") + ".choices";
    link.click();
    say(choicesOf(legs).length + " choices are written: spinplay --choices plays them, and -u" + legs.length + " stops at the last step.");
  }
  const session = async (all, steps, input) => text((await machine.ask("session", { ...asked(all, steps), input })).said);
  const why = () => alone(async () => {
    const k = view.at(), said = await session(legs.slice(0, k), k, "why\n"), lines = said.split("\n"), first = lines.findIndex(line => line.startsWith("at " + k + " of"));
    $("told").textContent = lines.slice(first + 1).join("\n").trim() || said;
    $("telling").showModal();
  });
  function asksGoal() { $("goal-said").textContent = ""; $("goals").showModal(); $("goal").select(); }
  // what a session said to its last line: the first line behind the question before it
  function answered(said) {
    const lines = said.split("\n").filter(line => line.trim()), questions = lines.flatMap((line, i) => /^at \d+ of \d+/.test(line) ? [i] : []);
    return lines[questions.length > 1 ? questions[questions.length - 2] + 1 : 0];
  }
  const until = () => alone(async () => {
    if (view.at() < legs.length) view.go(legs.length);
    const goal = $("goal").value.replace(/\n/g, " "), said = await session(legs, legs.length + MOST, "goto " + legs.length + "\nuntil " + goal + "\n"), stood = [...said.matchAll(/^at (\d+) of \d+/gm)].pop();
    if (stood && +stood[1] > legs.length) { $("goals").close(); await on(+stood[1] - legs.length, 0); }
    else $("goal-said").textContent = answered(said) || "It took no step.";
  });
  async function copied() {
    given = address();
    history.replaceState(null, "", given);
    try { await navigator.clipboard.writeText(location.href); say("The address is copied: it holds the walk."); } catch (x) { say("The address of this page holds the walk: copy it from there."); }
  }

  // ---- models: a text that is no UTF-8 is edited byte by byte
  const isText = b => { try { new TextDecoder("utf-8", { fatal: true }).decode(b); return true; } catch (x) { return false; } };
  const editable = b => isText(b) ? text(b) : Array.from(b, c => String.fromCharCode(c)).join("");
  const edited = (words, old) => isText(old) || /[^\u0000-\u00ff]/.test(words) ? utf8.encode(words) : Uint8Array.from(words, c => c.charCodeAt(0));
  let draft = { bytes: none, name: "model.pml" };
  function edit(model, called) {
    draft = { bytes: model, name: called };
    $("text").value = editable(model);
    $("refusal").textContent = "";
    if (!$("editor").open) $("editor").showModal();
    $("text").focus();
  }
  // shows why a text is refused, with its place selected
  function refused(why) {
    $("refusal").textContent = why;
    const at = /:(\d+):(\d+): M\d+/.exec(why), line = at ? +at[1] : +(/line (\d+): M/.exec(why) || [])[1], carets = /\n *\| *(\^+)/.exec(why);
    if (!line) return;
    const lines = $("text").value.split("\n"), before = lines.slice(0, line - 1).join("\n").length + (line > 1 ? 1 : 0), signs = Array.from(lines[line - 1] || "");
    const from = at ? signs.slice(0, +at[2] - 1).join("").length : 0, to = at ? signs.slice(0, +at[2] - 1 + (carets ? carets[1].length : 1)).join("").length : signs.join("").length;
    $("text").focus();
    $("text").setSelectionRange(before + from, before + to);
    $("text").scrollTop = Math.max(0, (line - 6) * 18);
  }
  // plays a text, if it is a model: then this is the model that is walked, and else it is shown why not
  const play = (model, called, all = [], at = undefined, steps = 0) => alone(async () => {
    let events, why = "";
    const take = most => told("open", { ...asked(most ? all : [], most), model, called, more: null });
    try { events = await take(steps); }
    catch (x) {
      if (!x.status && steps) { events = await take(0); why = "The walk of this address was not made: " + x.message; }
      else if (!x.status) throw x;
      else { here = -1; if (!$("editor").open) edit(model, called); refused(x.message); return; }
    }
    if ($("editor").open) $("editor").close();
    bytes = model; name = called; branches = [];
    marks.clear();
    document.title = document.querySelector("h1").textContent = called;
    seeded();
    here = stepsOf(events).length;
    show(events, at);
    if (why) say(why);
    else if (!legs.length && !$("note").textContent) say("Choose: click a choice or press its number, o goes on where there is one move, ? shows the keys.");
  });
  async function dropped(file) { if (file) play(new Uint8Array(await file.arrayBuffer()), file.name); }

  // ---- keys, clicks and the begin
  const KEYS = { r: () => randomly(1), R: () => randomly(20), o: only, b: () => view.go(view.at() - 1), s: save, y: why, u: asksGoal, e: () => edit(bytes, name), "?": () => $("help").showModal(), m: x => { const l = x.target.closest("#source .l"); if (l) mark(+l.id.slice(1), !l.classList.contains("stop")); } };
  function pressed(x) {
    if (x.ctrlKey || x.metaKey || x.altKey || !view || document.querySelector("dialog[open]")) return;
    if (/^(SELECT|INPUT|TEXTAREA)$/.test(x.target.tagName) && x.target.type !== "range") return;
    const all = [...document.querySelectorAll("#moves button")], i = all.indexOf(document.activeElement), isFree = i >= 0 || [document.body, $("moves")].includes(document.activeElement);
    if (Object.hasOwn(KEYS, x.key)) { x.preventDefault(); KEYS[x.key](x); }
    else if (/^[1-9]$/.test(x.key) && all[+x.key - 1]) { x.preventDefault(); all[+x.key - 1].focus({ preventScroll: true }); all[+x.key - 1].click(); }
    else if (/^Arrow(Down|Up)$/.test(x.key) && all.length && isFree) {
      x.preventDefault();
      all[x.key === "ArrowDown" ? (i + 1) % all.length : (Math.max(i, 0) + all.length - 1) % all.length].focus();
    }
  }
  function clicked(x) {
    const move = x.target.closest("button[data-m]"), to = x.target.closest("button[data-branch]"), number = x.target.closest("#source .n");
    if (move) choose(+move.dataset.k, +move.dataset.m, +move.dataset.of);
    if (to) alone(async () => { const old = legs, target = branches[+to.dataset.branch]; await open(target); kept(old); });
    if (number) mark(+number.parentNode.id.slice(1), !marks.has(+number.parentNode.id.slice(1)));
  }
  // the walk that an address names
  function named() {
    const words = new URLSearchParams(location.hash.slice(1)), inFile = text(held("given")).split("\n").map(line => parseInt(line, 10)).filter(n => n > 0);
    const whole = (word, most) => Math.max(0, Math.min(most, Math.floor(+words.get(word)) || 0)), all = words.has("c") ? words.get("c").split(".").map(Number).filter(n => n > 0 && n < 1e9) : inFile;
    return { all: all.map(choice => ({ choice, of: 2 })), at: words.has("at") ? whole("at", 1000000) : undefined, steps: words.has("n") ? whole("n", 1000000) : all.length ? Math.max(10000, 20 * all.length) : 0 };
  }
  async function begin() {
    const buttons = { "go-only": only, "go-random": () => randomly(1), "go-random20": () => randomly(20), "go-again": again, "go-save": save, "go-link": copied, "go-why": why, "go-until": asksGoal, "go-edit": KEYS.e, "go-keys": KEYS["?"], "go-open": () => $("file").click(), play: () => play(edited($("text").value, draft.bytes), draft.name) };
    for (const [id, does] of Object.entries(buttons)) $(id).onclick = does;
    $("more").onclick = () => $("more").setAttribute("aria-expanded", $("tools").classList.toggle("all"));
    $("seed").onchange = seeded;
    $("goal-form").onsubmit = x => { x.preventDefault(); until(); };
    $("file").onchange = () => { dropped($("file").files[0]); $("file").value = ""; };
    const examples = JSON.parse($("examples").textContent);
    $("example").innerHTML = "<option>an example</option>" + Object.keys(examples).map(it => "<option>" + esc(it) + "</option>").join("");
    $("example").onchange = () => { if ($("example").selectedIndex) edit(utf8.encode(examples[$("example").value]), $("example").value); $("example").selectedIndex = 0; };
    document.addEventListener("keydown", pressed);
    document.addEventListener("click", clicked);
    document.addEventListener("dragover", x => x.preventDefault());
    document.addEventListener("drop", x => { if (x.dataTransfer.files.length) { x.preventDefault(); dropped(x.dataTransfer.files[0]); } });
    addEventListener("hashchange", () => { if (view && location.hash !== given) alone(async () => { const { all, at, steps } = named(), old = legs; await open(all, at, steps); kept(old); }); });
    const model = held("model"), { all, at, steps } = named();
    try { await machine.begin(); } catch (x) { $("source").textContent = text(model); say("This browser has no WebAssembly, or not all that the machine wants of it: here is the source alone. (" + x.message + ")"); return; }
    if (model.length) await play(model, text(held("name")), all, at, steps);
    else edit(none, "model.pml");
  }
  return {
    begin, taken, moved() { if (view) addressed(); },
    // marks the lines on which a move can be taken
    listed(moves) { const lines = new Set(moves.flatMap(places).map(p => p.line)); document.querySelectorAll("#source .l").forEach((l, i) => l.classList.toggle("open", lines.has(i + 1))); },
  };
})();
