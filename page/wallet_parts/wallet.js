"use strict";

// ---- A wallet in a tab: one seed, what it noted, and what is due for it.
SwapPage.wallet = (() => {
  const { DONE, WARNED, REFUSED } = SwapPage.module;
  const SEED = 32;
  // Under which headings FORMATS has the reasons of each call
  const REASONS = { keys: ["A row"], deal: ["A deal of rows"], terms: ["Terms"], next: ["A wallet's lines", "A bad entry"] };
  /** @param {string} id @returns {any} */
  const find = (id) => document.getElementById(id);
  /** @type {any} */
  let swap = null;
  /**
   * What was read, and what was agreed on.
   * @typedef {{ digest: string, header: string }} Deal
   * @type {{ read: Deal, agreed: Deal | null }}
   */
  const deals = { read: { digest: "", header: "" }, agreed: null };
  /** @type {string[]} */
  const notes = [];

  /** Why a call has no answer, and the place beside the field that it speaks of, if that is one. */
  class RefusedError extends Error {
    /** @param {string} message @param {string} place */
    constructor(message, place = "") {
      super(message);
      this.place = place;
    }
  }

  /** @param {string} line */
  const ended = (line) => (line.endsWith("\n") || line === "" ? line : `${line}\n`);

  /** The seed's bytes. */
  function seed() {
    const digits = find("seed").value.trim();
    if (!/^[0-9a-fA-F]{64}$/.test(digits)) throw new RefusedError("The seed isn't 64 hexadecimal digits.", "faultSeed");
    return Uint8Array.from(digits.match(/../g) ?? [], (/** @type {string} */ it) => parseInt(it, 16));
  }

  const name = () => find("name").value.trim();

  /**
   * The text of a call that ended well.
   * @param {{ status: number, text: string }} said @param {string[]} headings of the tables that have its reasons
   */
  function answered({ status, text }, headings) {
    if (status === DONE || status === WARNED) return text;
    const { sentence, reasonOf } = SwapPage.reasons;
    throw new RefusedError(status === REFUSED ? sentence(reasonOf(text), headings) : `The program has no answer: ${swap.statusText(status)}.`);
  }

  /**
   * Wires a button, whose fault is told beside it.
   * @param {string} id @param {string} place @param {() => void | Promise<void>} does
   */
  function wire(id, place, does) {
    find(id).addEventListener("click", async () => {
      document.querySelectorAll(".fault").forEach((it) => { it.textContent = ""; });
      try {
        await does();
      } catch (why) {
        if (why instanceof RefusedError) find(why.place || place).textContent = why.message;
        else find(place).textContent = `It failed: ${why}`;
      }
    });
  }

  // ---- terms in words

  /** @param {string} count */
  const unitsOf = (count) => `${count} ${count === "1" ? "unit" : "units"}`;
  /** @type {[RegExp, (...words: string[]) => string][]} */
  const TERMS = [
    [/^terms (\S+) (\d+) of (\d+)$/, (who, number, count) => `You are ${who}, party ${number} of ${count}, counted from 0.`],
    [/^deal (\S+)$/, (id) => `The deal's id is ${id}.`],
    [/^agree (\S+)$/, (digest) => `Compare this digest with everybody; it binds the deal, the names and the context: ${digest}.`],
    [/^mode (\S+) start (\d+) delta (\d+) bound (\d+) horizon (\d+)$/, (mode, start, delta, bound, horizon) =>
      `It goes by ${mode}: start ${start}, delta ${delta}, bound ${bound}. Above height ${horizon} all is over.`],
    [/^pays (\d+) (\S+) (\d+) publish by (\d+) back (\d+)$/, (arc, to, units, by, back) =>
      `You pay ${to} ${unitsOf(units)} on ledger ${arc}: lock them up to height ${by}. What nobody opened comes back from height ${back} on.`],
    [/^gets (\d+) (\S+) (\d+) open until (\d+) claim by (\d+)$/, (arc, from, units, until, by) =>
      `${from} pays you ${unitsOf(units)} on ledger ${arc}: open their contract up to height ${until}, and take them up to height ${by}.`],
    [/^about (\d+) (.*)$/, (arc, text) => `Of ledger ${arc} the wallets say: ${text}`],
    [/^leads (\d+) show by (\d+)$/, (lock, by) => `You lead lock ${lock}: show its secret up to height ${by}.`],
    [/^awake until (\d+)$/, (until) => `Your wallet has to be awake until height ${until}.`],
  ];

  /** @param {string} line */
  function termWords(line) {
    for (const [form, words] of TERMS) {
      const found = form.exec(line);
      if (found !== null) return words(...found.slice(1));
    }
    return line;
  }

  /** @param {string} id @param {string[]} lines @param {(line: string) => string} words */
  function list(id, lines, words) {
    find(id).replaceChildren(...lines.map((line) => {
      const item = document.createElement("li");
      item.textContent = words(line);
      item.dataset.line = line;
      return item;
    }));
  }

  function readTerms() {
    find("agree").hidden = true;
    find("terms").replaceChildren();
    const header = ended(find("header").value);
    const lines = answered(swap.terms(header, name()), REASONS.terms).trimEnd().split("\n");
    list("terms", lines, termWords);
    deals.read = { digest: (lines.find((line) => line.startsWith("agree ")) ?? "").slice("agree ".length), header };
    find("agree").hidden = false;
  }

  /** Agrees to what was read. The notes of another deal are of no use to it. */
  function agree() {
    if (deals.agreed !== null && deals.agreed.header !== deals.read.header) notes.length = 0;
    deals.agreed = deals.read;
    find("agreed").textContent = `agreed ${deals.read.digest}`;
    find("notes").textContent = notes.join("\n");
  }

  // ---- what is due

  /**
   * An answer's line in words.
   * @param {string} line
   */
  function dueWords(line) {
    const call = /^call (\d+) \d+ by (\d+)(?: until (\d+))? (.*)$/.exec(line);
    if (call !== null) {
      const [, arc, by, until, said] = call;
      const last = until === undefined || until === by ? "" : `, and of no use above height ${until}`;
      return `Present this call on ledger ${arc}, at the latest at height ${by}${last}: ${said}`;
    }
    const [kind, ...words] = line.split(" ");
    if (kind === "keep") return `Kept in the notes: the hashkey of lock ${words[0]}.`;
    if (kind === "wait") return words.length > 0 ? `Nothing is due before a call lands, or a ledger stands above height ${words[0]}.` : "Nothing is due before a call lands.";
    if (kind === "done") return "It is over: nothing is due any more.";
    if (kind === "landing") return `Your publish on ledger ${words[0]} went out and isn't told, so it may land at any height.`;
    if (kind === "bad") return `Ledger ${words[0]} tells what its contract wouldn't, at entry ${words[1]}. What stands behind that entry isn't used.`;
    if (kind === "unkept") return `Ledger ${words[0]} has an unlock of yours, at entry ${words[1]}, with a hashkey of lock ${words[2]} that isn't in the notes. That lock isn't opened.`;
    return line;
  }

  /**
   * What of a telling stands behind its header.
   * @param {string} text
   */
  function ledgersOf(text) {
    const lines = text.split("\n");
    return ended(lines[0] === "swap transcript 1" ? lines.slice(2).join("\n") : text);
  }

  /**
   * Notes what a line asks to be kept, before it goes out.
   * @param {string} line
   */
  function note(line) {
    const publish = /^call (\d+) \d+ by \d+ until \d+ publish /.exec(line) ?? /^call (\d+) \d+ by \d+ publish /.exec(line);
    const kept = line.startsWith("keep ") ? line : publish !== null ? `sent ${publish[1]}` : "";
    if (kept !== "" && !notes.includes(kept)) notes.push(kept);
  }

  function ask() {
    if (deals.agreed === null) throw new RefusedError("Nothing is agreed on: read the terms first, and agree to them.");
    const { digest, header } = deals.agreed;
    find("answer").replaceChildren();
    const asked = `agreed ${digest}\n${notes.map((line) => `${line}\n`).join("")}${header}${ledgersOf(find("telling").value)}`;
    const lines = answered(swap.next(asked, name(), seed()), REASONS.next).trimEnd().split("\n");
    lines.forEach(note);
    list("answer", lines, dueWords);
    find("notes").textContent = notes.join("\n");
  }

  async function fetchTelling() {
    const reply = await fetch(find("url").value, { cache: "no-store" });
    if (!reply.ok) throw new RefusedError(`The address answers ${reply.status}.`);
    find("telling").value = await reply.text();
    ask();
  }

  // ---- wires

  const freshSeed = () => [...crypto.getRandomValues(new Uint8Array(SEED))].map((it) => it.toString(16).padStart(2, "0")).join("");

  async function begin() {
    wire("drawSeed", "fault", () => { find("seed").value = freshSeed(); });
    wire("makeRow", "faultDeal", () => { find("row").textContent = answered(swap.keys(ended(find("offer").value.split("\n")[0]), name(), seed()), REASONS.keys); });
    wire("makeDeal", "faultDeal", () => { find("header").value = answered(swap.deal(ended(find("offer").value)), REASONS.deal); });
    wire("readTerms", "faultTerms", readTerms);
    wire("agree", "faultTerms", agree);
    wire("ask", "faultDue", ask);
    wire("fetch", "faultDue", fetchTelling);
    try {
      swap = await SwapPage.module.Swap.of(Uint8Array.from(atob(find("module").textContent.trim()), (it) => it.charCodeAt(0)));
      find("build").textContent = swap.isProved ? "The program in this page is compiled from what is proved." : "The program in this page is built without its proofs.";
    } catch (why) {
      find("fault").textContent = `This browser doesn't run the page's program (${why}), so this page does nothing.`;
      document.querySelectorAll("button").forEach((it) => { it.disabled = true; });
    }
  }

  return { begin, notes };
})();
SwapPage.wallet.begin();
