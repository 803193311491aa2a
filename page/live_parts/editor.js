"use strict";
/**
 * The editor of a plain offer, which the module makes and runs; page/live puts it into the page.
 *
 * @typedef {{ do: string, arc: number, lock: number, onto: number, height: string }} Move
 * @typedef {{ name: string, acts: string, leads: boolean, moves: Move[], next: Move }} EditedParty
 * @typedef {{ from: number, to: number, amount: string }} EditedPayment
 * @typedef {{ swap: number, mode: string, start: string, delta: string, bound: string,
 *   parties: EditedParty[], arcs: EditedPayment[] }} Offer
 */

// ---- The offer, and the texts that are made of it.
SwapPage.offer = (() => {
  /** @returns {Move} */
  const moveOf = () => ({ do: "publish", arc: 0, lock: 0, onto: 0, height: "20" });
  /** @param {string} name @param {boolean} leads @returns {EditedParty} */
  const partyOf = (name, leads = false) => ({ name, acts: "conforming", leads, moves: [], next: moveOf() });
  /** @type {Offer} */
  const offer = {
    swap: 1, mode: "hashkeys", start: "10", delta: "10", bound: "2",
    parties: [partyOf("alice", true), partyOf("bob"), partyOf("carol")],
    arcs: [{ from: 0, to: 1, amount: "100" }, { from: 1, to: 2, amount: "5" }, { from: 2, to: 0, amount: "1" }],
  };

  /** @param {string} text */
  const numberOf = (text) => (/^[0-9]+$/.test(text.trim()) ? Number(text) : text);
  /** @param {number} party */
  const nameOf = (party) => offer.parties[party]?.name ?? "";

  /**
   * A move as a job's script has it.
   * @param {Move} move @param {string} name
   */
  function scripted(move, name) {
    const { arc, lock } = move;
    if (move.do === "short") return { do: "publish", arc, amount: Math.max(0, Number(offer.arcs[arc]?.amount ?? 1) - 1) };
    if (move.do === "own") return { do: "craft", arc, lock, via: [name] };
    if (move.do === "pass") return { do: "craft", arc, lock, via: [name], onto: move.onto };
    return move.do === "wait" ? { do: "wait", arc, height: numberOf(move.height) } : { do: move.do, arc };
  }

  /** @param {EditedParty} party */
  function actorOf({ name, acts, moves }) {
    if (acts === "conforming") return {};
    return { actor: acts === "script" ? { script: moves.map((move) => scripted(move, name)) } : { strategy: acts } };
  }

  /**
   * The offer's object: with seeds and actors, or without.
   * @param {string[] | null} seeds
   */
  function header(seeds) {
    const parties = offer.parties.map((party, at) => ({ name: party.name, ...(seeds === null ? {} : { seed: seeds[at], ...actorOf(party) }) }));
    const arcs = offer.arcs.map(({ from, to, amount }) => ({ from: nameOf(from), to: nameOf(to), amount: numberOf(amount) }));
    const leaders = offer.parties.filter(({ leads }) => leads).map(({ name }) => ({ party: name }));
    const times = { start: numberOf(offer.start), delta: numberOf(offer.delta), bound: numberOf(offer.bound) };
    return { swap: offer.swap, mode: offer.mode, ...times, parties, arcs, leaders, ...(seeds === null ? {} : { finish: "fair" }) };
  }

  /**
   * The offer as a transcript in which nothing happened; the deal's own timelocks where it is made.
   * @param {any} made the header of the job that was made, or null
   */
  function emptyTranscript(made) {
    const bare = header(null), digest = "0".repeat(64);
    const parties = offer.parties.map(({ name, acts }) => ({ name, actor: acts === "conforming" ? "conforming" : "manual" }));
    const arcs = bare.arcs.map((arc, at) => ({ ...arc, ...(offer.mode === "timelocks" ? { timelock: made?.arcs[at]?.timelock ?? 0 } : {}) }));
    const leaders = bare.leaders.map(({ party }) => ({ party, hashlock: digest }));
    const ledgers = arcs.map((_, at) => `ledger ${at} 0\n`).join("");
    return `swap transcript 1\n${JSON.stringify({ ...bare, parties, arcs, leaders })}\n${ledgers}end\n`;
  }

  /**
   * Takes the offer of a text, whose fields may be wrong but have to be there. It throws where they
   * aren't.
   * @param {string} text
   */
  function take(text) {
    const { swap, mode, start, delta, bound, parties, arcs, leaders } = JSON.parse(text);
    /** @type {string[]} */
    const names = parties.map((/** @type {any} */ it) => String(it.name));
    const leading = new Set(leaders.map((/** @type {any} */ it) => String(it.party)));
    const payments = arcs.map((/** @type {any} */ it) => ({ from: names.indexOf(it.from), to: names.indexOf(it.to), amount: String(it.amount) }));
    if (payments.some((/** @type {EditedPayment} */ { from, to }) => from < 0 || to < 0)) throw new RangeError("an arc names no party");
    Object.assign(offer, { swap: Number(swap), mode: String(mode), start: String(start), delta: String(delta), bound: String(bound),
      parties: names.map((name) => partyOf(name, leading.has(name))), arcs: payments });
  }

  /**
   * Removes a party, and every payment of it.
   * @param {number} party
   */
  function removeParty(party) {
    const before = (/** @type {number} */ it) => it - Number(it > party);
    offer.parties.splice(party, 1);
    offer.arcs = offer.arcs.filter(({ from, to }) => from !== party && to !== party).map((arc) => ({ ...arc, from: before(arc.from), to: before(arc.to) }));
    offer.parties.forEach((it) => { Object.assign(it, { moves: [], next: moveOf() }); });
  }

  /**
   * Removes a payment; the moves of scripts on it go with it.
   * @param {number} payment
   */
  function removePayment(payment) {
    const before = (/** @type {number} */ it) => it - Number(it > payment);
    offer.arcs.splice(payment, 1);
    offer.parties.forEach((it) => {
      it.moves = it.moves.filter(({ arc, onto }) => arc !== payment && onto !== payment).map((move) => ({ ...move, arc: before(move.arc), onto: before(move.onto) }));
      it.next = moveOf();
    });
  }

  function addParty() {
    const used = new Set(offer.parties.map(({ name }) => name));
    const names = ["dave", "eve", "frank", "grace", "heidi", ...offer.parties.map((_, at) => `party${at}`)];
    offer.parties.push(partyOf(names.find((name) => !used.has(name)) ?? "another"));
  }

  const addPayment = () => { offer.arcs.push({ from: 0, to: Math.min(1, offer.parties.length - 1), amount: "1" }); };

  return { offer, numberOf, header, emptyTranscript, take, removeParty, removePayment, addParty, addPayment };
})();

// ---- Faults: each reason as a sentence, beside the fields that it speaks of.
SwapPage.faults.tell = (() => {
  const { find } = SwapPage.elements;
  const { offer, numberOf } = SwapPage.offer;
  /** @type {Record<string, string>} */
  const PLACES = { start: "faultStart", delta: "faultDelta", bound: "faultBound", swap: "faultVersion", mode: "faultMode", parties: "faultParties",
    arcs: "faultPayments", leaders: "faultLeaders", script: "faultParties" };

  /** @param {string} name @returns {string[]} */
  const partiesOf = (name) => offer.parties.flatMap((party, at) => (party.name === name ? [`faultParty${at}`] : []));
  const scripts = () => offer.parties.flatMap(({ acts }, at) => (acts === "script" ? [`faultParty${at}`] : []));

  /**
   * The places of a reason that names a field, and its value where it tells one.
   * @param {string[]} words @returns {string[]}
   */
  function fieldPlaces([, field = "", value]) {
    if (PLACES[field] !== undefined) return [PLACES[field]];
    if (field === "height") return scripts();
    if (field !== "amount") return [];
    const isIts = (/** @type {string} */ amount) => (value === undefined ? typeof numberOf(amount) !== "number" : Number(amount) === Number(value));
    const found = offer.arcs.flatMap(({ amount }, at) => (isIts(amount) ? [`faultPayment${at}`] : []));
    return found.length > 0 ? found.slice(0, 1) : scripts();
  }

  /**
   * The elements beside the fields that a reason speaks of.
   * @param {string} reason @returns {string[]}
   */
  function placesOf(reason) {
    const [kind, ...words] = reason.split(" ");
    const name = words.slice(1).join(" ");
    /** @type {Record<string, () => string[]>} */
    const places = {
      BoundTooSmall: () => ["faultBound"], StartTooSoon: () => ["faultStart"], ManyLeaders: () => ["faultLeaders"], NotFeedback: () => ["faultLeaders"],
      NotStrong: () => words[0].split(",").flatMap(partiesOf), SelfArc: () => [`faultPayment${words[0]}`], Parallel: () => [`faultPayment${words[1]}`],
      BadName: () => partiesOf(name), Duplicate: () => partiesOf(name).slice(-1), ConformingCall: () => partiesOf(name), NotAdjacent: scripts,
    };
    const found = (places[kind]?.() ?? fieldPlaces(words)).filter((id) => find(id) !== null);
    return found.length > 0 ? found : ["liveAll"];
  }

  /**
   * Tells a reason where it belongs, and nothing elsewhere.
   * @param {string} reason the empty text where nothing is refused
   */
  return function tell(reason) {
    const live = find("live");
    const places = reason === "" ? [] : placesOf(reason);
    live.querySelectorAll(".fault").forEach((/** @type {any} */ it) => { it.textContent = places.includes(it.id) ? SwapPage.reasons.sentence(reason) : ""; });
    live.querySelectorAll("[aria-describedby]").forEach((/** @type {any} */ it) => {
      it.setAttribute("aria-invalid", String(places.includes(it.getAttribute("aria-describedby"))));
    });
  };
})();

// ---- The editor.
SwapPage.editor = (() => {
  const { find, make, button } = SwapPage.elements;
  const { offer, header } = SwapPage.offer;
  const { tell } = SwapPage.faults;
  const ACTS = { conforming: "keeps to the protocol", silent: "stays silent", greedy: "is greedy", replayer: "replays", spoiler: "spoils", script: "follows a script" };
  /** @type {Record<string, string>} */
  const MOVES = { publish: "locks the units", short: "locks one unit less", own: "opens with its own secret", pass: "passes on what opened", claim: "takes the units",
    refund: "takes them back", wait: "waits for height" };
  const AFTER = 200, SEED = 32;
  /** @type {any} */
  let swap = null;
  /** @type {any} */
  let timer;
  /** @type {string[]} */
  let seeds = [];

  const freshSeed = () => [...crypto.getRandomValues(new Uint8Array(SEED))].map((it) => it.toString(16).padStart(2, "0")).join("");

  // ---- what the module says

  /**
   * The job that the module makes of the offer, or null where it is refused, which is told.
   * @returns {string | null}
   */
  function madeJob() {
    const said = swap.answer(["make"], `${JSON.stringify(header(seeds))}\n`);
    const { DONE, REFUSED } = SwapPage.module;
    tell(said.status === REFUSED ? SwapPage.reasons.reasonOf(said.text) : "");
    if (said.status !== DONE && said.status !== REFUSED) find("liveAll").textContent = `The program has no answer: ${swap.statusText(said.status)}.`;
    return said.status === DONE ? said.text : null;
  }

  /** Draws the offer where the page can, and tells why the program refuses it. */
  function redraw() {
    const job = swap === null ? null : madeJob();
    const text = SwapPage.offer.emptyTranscript(job === null ? null : JSON.parse(job.split("\n")[0]));
    find("liveText").value = `${JSON.stringify(header(null))}\n`;
    try {
      SwapPage.documents.read(text);
    } catch {
      return;
    }
    SwapPage.page.open(text, "An offer", { verdict: "offer" });
  }

  function changed() {
    clearTimeout(timer);
    timer = setTimeout(redraw, AFTER);
  }

  /** Makes the offer with fresh seeds, runs it, and plays what happened. */
  function run() {
    clearTimeout(timer);
    seeds = offer.parties.map(freshSeed);
    const job = swap === null ? null : madeJob();
    if (job === null) return find("live").querySelector("[aria-invalid=true]")?.focus();
    const ran = swap.answer(["run", "--transcript"], job);
    if (ran.status > SwapPage.module.WARNED) return tell(SwapPage.reasons.reasonOf(ran.text));
    const report = swap.answer(["audit"], ran.bytes).text;
    SwapPage.page.open(ran.text, "Your swap", { report, verdict: swap.isProved ? "proved" : "unproved" });
    find("bar").scrollIntoView({ block: "start" });
    SwapPage.page.play();
  }

  // ---- controls

  /**
   * A cell, with the words that stand above it where the table is a list of cards.
   * @param {string} label @param {(Node | string)[]} children
   */
  const cell = (label, ...children) => make("td", label === "" ? {} : { "data-label": label }, ...children);

  /**
   * A field of a row. The party's name stands for # in its label.
   * @param {string} value @param {Record<string, string>} attributes @param {(text: string) => void} set
   */
  function field(value, attributes, set) {
    const made = /** @type {HTMLInputElement} */ (make("input", attributes));
    made.value = value;
    made.addEventListener("input", () => { set(made.value); changed(); });
    return made;
  }

  /**
   * A choice among named values.
   * @param {[string, string][]} options @param {string} value @param {Record<string, string>} attributes @param {(value: string) => void} set
   */
  function choice(options, value, attributes, set) {
    const made = /** @type {HTMLSelectElement} */ (make("select", attributes, ...options.map(([it, words]) => make("option", { value: it }, words))));
    made.value = value;
    made.addEventListener("change", () => { set(made.value); rebuild(); });
    return made;
  }

  /**
   * The attributes by which a control of a party is named, and found after the rows are built again.
   * @param {string} name @param {string} label in which # is the party's name
   */
  const named = (name, label) => ({ "aria-label": label.replace("#", name), "data-label-of": label });

  /**
   * Tells a party's name wherever it stands, and leaves each control where it is.
   * @param {number} number
   */
  function rename(number) {
    const { name } = offer.parties[number];
    find(`liveParty${number}`).querySelectorAll("[data-label-of]").forEach((/** @type {HTMLElement} */ it) => {
      it.setAttribute("aria-label", (it.dataset.labelOf ?? "").replace("#", name));
    });
    find("livePayments").querySelectorAll(`option[value="${number}"]`).forEach((/** @type {Element} */ it) => { it.textContent = name; });
  }

  // ---- a script by clicks

  /** @param {Move} move */
  function moveWords(move) {
    const more = { wait: ` ${move.height}`, pass: ` payment ${move.onto} with lock ${move.lock}`, own: ` of lock ${move.lock}` };
    return `${MOVES[move.do]}${/** @type {Record<string, string>} */ (more)[move.do] ?? ""} on payment ${move.arc}`;
  }

  /**
   * What adds a move to a script: a choice of what it does, and of what that needs.
   * @param {EditedParty} party @param {number} number
   */
  function moveMaker(party, number) {
    const { next } = party;
    const own = offer.arcs.flatMap(({ from, to }, at) => (from === number || to === number ? [at] : []));
    if (!own.includes(next.arc)) next.arc = own[0] ?? 0;
    const payments = (/** @type {number[]} */ arcs, /** @type {string} */ words) => arcs.map((at) => /** @type {[string, string]} */ ([String(at), `${words} ${at}`]));
    const locks = offer.parties.filter(({ leads }) => leads).map((_, at) => /** @type {[string, string]} */ ([String(at), `lock ${at}`]));
    const opens = next.do === "own" || next.do === "pass";
    return make("div", { class: "move" },
      choice(Object.entries(MOVES), next.do, named(party.name, "What # does next"), (value) => { next.do = value; }),
      ...(next.do === "wait" ? [field(next.height, { class: "number", inputmode: "numeric", ...named(party.name, "For which height # waits") }, (text) => { next.height = text; })] : []),
      ...(next.do === "pass" ? [choice(payments([...offer.arcs.keys()], "of payment"), String(next.onto), named(party.name, "Of which payment # passes it on"),
        (value) => { next.onto = Number(value); })] : []),
      ...(opens ? [choice(locks, String(next.lock), named(party.name, "Which lock # opens"), (value) => { next.lock = Number(value); })] : []),
      choice(payments(own, "on payment"), String(next.arc), named(party.name, "On which payment # does it"), (value) => { next.arc = Number(value); }),
      button(named(party.name, "Add the move to the script of #"), () => { party.moves.push({ ...next }); rebuild(); }, "Add the move"));
  }

  /** @param {EditedParty} party @param {number} number */
  function scriptRow(party, number) {
    const remove = (/** @type {number} */ at) => button(named(party.name, `Remove move ${at} of #`), () => { party.moves.splice(at, 1); rebuild(); }, "×");
    const list = party.moves.map((it, at) => make("li", {}, `${moveWords(it)} `, remove(at)));
    const empty = list.length === 0 ? [make("p", { class: "note" }, `A script without moves: ${party.name} does nothing.`)] : [make("ol", { class: "moves" }, ...list)];
    return make("tr", { class: "of-script" }, make("td", { colspan: 4 }, ...empty, moveMaker(party, number)));
  }

  // ---- rows

  /** @param {EditedParty} party @param {number} number */
  function partyRows(party, number) {
    const fault = `faultParty${number}`;
    const name = field(party.name, { class: "name", "aria-label": `Name of party ${number}`, "aria-describedby": fault, autocomplete: "off", spellcheck: "false" },
      (text) => { party.name = text; rename(number); });
    const leads = /** @type {HTMLInputElement} */ (make("input", { type: "checkbox", ...named(party.name, "# leads") }));
    leads.checked = party.leads;
    leads.addEventListener("change", () => { party.leads = leads.checked; rebuild(); });
    const acts = choice(Object.entries(ACTS), party.acts, named(party.name, "How # acts"), (value) => { party.acts = value; });
    const remove = button(named(party.name, "Remove #"), () => { SwapPage.offer.removeParty(number); rebuild(); }, "×");
    const row = make("tr", { id: `liveParty${number}` }, cell("Party", name, make("span", { id: fault, class: "fault", role: "status" })), cell("Leads", leads),
      make("td", { class: "acts", "data-label": "Acts" }, acts), make("td", { class: "last" }, remove));
    return party.acts === "script" ? [row, scriptRow(party, number)] : [row];
  }

  /** @param {EditedPayment} payment @param {number} number */
  function paymentRow(payment, number) {
    const fault = `faultPayment${number}`;
    const names = offer.parties.map(({ name }, at) => /** @type {[string, string]} */ ([String(at), name]));
    const end = (/** @type {"from" | "to"} */ which, /** @type {string} */ label) =>
      choice(names, String(payment[which]), { "aria-label": `${label} payment ${number}` }, (value) => { payment[which] = Number(value); });
    const amount = field(payment.amount, { class: "number", inputmode: "numeric", "aria-label": `Units of payment ${number}`, "aria-describedby": fault },
      (text) => { payment.amount = text; });
    const remove = button({ "aria-label": `Remove payment ${number}` }, () => { SwapPage.offer.removePayment(number); rebuild(); }, "×");
    return make("tr", {}, make("th", { scope: "row" }, make("span", { class: "narrow-only" }, "Payment "), String(number)),
      cell("From", end("from", "Who pays")), cell("To", end("to", "Who is paid by")),
      cell("Units", amount), make("td", { class: "last" }, remove), make("td", { class: "fault-room" }, make("span", { id: fault, class: "fault", role: "status" })));
  }

  /** Builds the rows of what the offer has, keeps the focus where it was, and draws the offer. */
  function rebuild() {
    const label = document.activeElement?.getAttribute("aria-label");
    while (seeds.length < offer.parties.length) seeds.push(freshSeed());
    find("liveParties").replaceChildren(...offer.parties.flatMap(partyRows));
    find("livePayments").replaceChildren(...offer.arcs.map(paymentRow));
    if (label) find("live").querySelector(`[aria-label=${JSON.stringify(label)}]`)?.focus();
    changed();
  }

  // ---- wires

  const TIMES = { liveMode: "mode", liveStart: "start", liveDelta: "delta", liveBound: "bound", liveVersion: "swap" };

  /** Shows the fields that have a place of their own. */
  function fill() {
    Object.entries(TIMES).forEach(([id, name]) => { find(id).value = String(/** @type {any} */ (offer)[name]); });
  }

  function takeText() {
    try {
      SwapPage.offer.take(find("liveText").value);
    } catch (why) {
      find("faultText").textContent = `This is no plain offer: ${/** @type {Error} */ (why).message}.`;
      return;
    }
    find("faultText").textContent = "";
    fill();
    rebuild();
  }

  function wireAll() {
    Object.entries(TIMES).forEach(([id, name]) => find(id).addEventListener("input", () => {
      const { value } = find(id);
      /** @type {any} */ (offer)[name] = name === "swap" ? Number(value) : value;
      changed();
    }));
    find("liveAddParty").addEventListener("click", () => { SwapPage.offer.addParty(); rebuild(); });
    find("liveAddPayment").addEventListener("click", () => { SwapPage.offer.addPayment(); rebuild(); });
    find("liveTake").addEventListener("click", takeText);
    find("liveRun").addEventListener("click", run);
    // (the page's own keys and its own pasting are for what stands below)
    ["keydown", "paste"].forEach((name) => find("live").addEventListener(name, (/** @type {Event} */ event) => event.stopPropagation()));
  }

  /** Takes the module in the page, and begins. */
  async function begin() {
    fill();
    wireAll();
    try {
      swap = await SwapPage.module.Swap.of(Uint8Array.from(atob(find("module").textContent.trim()), (it) => it.charCodeAt(0)));
      find("liveBuild").textContent = swap.isProved ? "The program in this page is compiled from what is proved." : "The program in this page is built without its proofs.";
    } catch (why) {
      find("liveBuild").textContent = "";
      find("liveAll").textContent = `This browser doesn't run the page's program (${why}), so an offer is drawn and not run.`;
      find("liveRun").disabled = true;
    }
    rebuild();
  }

  return { begin, run, rebuild, redraw };
})();
if (JSON.parse(SwapPage.elements.find("given").textContent) === null) SwapPage.editor.begin();
else SwapPage.elements.find("live").hidden = true;
