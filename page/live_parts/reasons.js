"use strict";

// ---- Reasons: what the tables of FORMATS say of each, which stand in this page.
SwapPage.reasons = (() => {
  /** @type {{ job: string, reasons: [string, string, string][], fields: Record<string, string> }} */
  const { job, reasons, fields } = JSON.parse(document.getElementById("reasons")?.textContent ?? "");
  const isOpen = (/** @type {string} */ word) => /^[A-Z]+$/.test(word);

  /**
   * What each of a pattern's words in capitals is in a reason, if that has its form.
   * @param {string} pattern @param {string} reason @returns {[string, string][] | null}
   */
  function wordsOf(pattern, reason) {
    const names = pattern.split(" "), words = reason.split(" ");
    if (names.length > words.length) return null;
    // (the last word may be a name with spaces)
    words.push(words.splice(names.length - 1).join(" "));
    if (names.some((name, at) => !isOpen(name) && name !== words[at])) return null;
    return names.flatMap((name, at) => (isOpen(name) ? [/** @type {[string, string]} */ ([name, words[at]])] : []));
  }

  /**
   * The row that speaks of a reason: of the tables with these headings, else of a job's, else of any.
   * @param {string} reason @param {string[]} headings
   */
  function rowOf(reason, headings) {
    const fits = reasons.filter(([, pattern]) => wordsOf(pattern, reason) !== null);
    return fits.find(([it]) => headings.includes(it)) ?? fits.find(([it]) => it === job) ?? fits[0];
  }

  /**
   * A reason as a sentence, which tells the line where the text has several.
   * @param {string} reason @param {string[]} headings of the tables that have this call's reasons
   */
  function sentence(reason, headings = [job]) {
    const row = rowOf(reason, headings);
    if (row === undefined) return `The program refuses it: ${reason}.`;
    const words = wordsOf(row[1], reason) ?? [];
    const told = words.filter(([name]) => name !== "L" || !headings.includes(job));
    const given = told.map(([name, word]) => `${name === "L" ? "line" : name.toLowerCase()} ${word}`).join(", ");
    const field = words.find(([name]) => name === "FIELD");
    const allowed = field !== undefined && fields[field[1]] ? ` “${field[1]}” may be ${fields[field[1]]}.` : "";
    return `The program refuses ${row[2]}${given === "" ? "" : ` (${given})`}.${allowed}`;
  }

  /**
   * What a refusal's line names.
   * @param {string} text
   */
  const reasonOf = (text) => text.trim().replace(/^swap: refused: /, "");

  return { sentence, reasonOf };
})();
