// What the page has more, if the office has set it up: notes of the field, and questions of the desk. notes.js and
// questions.js are loaded then, and put functions of their own in the place of these.

export const notes = {
  /** A collector has signed in: { who, key }. */
  begin: async (collector) => {},
  /** Fills the form in for an entry: { month, slot }, and what was written of it before, as `written` gave it. */
  fill: (edited, draft) => {},
  /** What is written in the form, as a text, or null. */
  written: () => null,
  /**
   * Puts what is written in the form on the phone's disk, for an entry and its choice; false if the form says that it
   * can't, so the entry waits for it. Throws the browser's error.
   */
  keep: async (edited, choice) => true,
  /** Entries were answered. */
  settled: () => {},
  /** How many notes of the collector aren't sent. */
  count: () => 0,
  /** What the head says of them, and its red button: no text for nothing. */
  told: () => "",
  alarm: () => "",
  /** What is lost of them by signing out: a sentence, or no text. */
  whatIsLeft: () => "",
  /** Brings those that aren't sent into sight; whether there are any. */
  showAll: () => false,
  /** Shows all of it anew: the language has changed. */
  render: () => {},
  /** Forgets what was kept for a collector, and leaves nothing of one in the page. */
  forget: async (who) => {},
  clear: () => {},
};

export const questions = {
  /** A collector has signed in. */
  begin: async () => {},
  /** Fills the form in for an entry: { month, slot, entry, stored }. */
  fill: (edited) => {},
  /** What the form answers now, or null. */
  written: () => null,
  /**
   * Keeps what the form answered, as `written` gave it, with an entry and its choice; false if the entry waits. Throws the
   * browser's error.
   */
  keep: async (edited, choice, said) => true,
  /** Entries were answered. */
  settled: () => {},
  /** Whether the desk asks about a slot of the month that is shown, and what its row says of that: no text for nothing. */
  isOpen: (slot) => false,
  lineOf: (slot) => "",
  /** How many answers aren't sent, and how many were written and not saved. */
  count: () => 0,
  countTyped: () => 0,
  /** What the head says of them, and its red button: no text for nothing. */
  told: () => "",
  alarm: () => "",
  /** What is lost of them by signing out: a sentence, or no text. */
  whatIsLeft: () => "",
  /** Brings them into sight; whether there are any. */
  showAll: () => false,
  /** Shows all of it anew: the language has changed. */
  render: () => {},
  /** Forgets what was kept for a collector, and leaves nothing of one in the page. */
  forget: async (who) => {},
  clear: () => {},
};
