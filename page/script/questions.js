// The questions that are put to the program, one after another.

// Of two questions with the same key the later one counts: the earlier one is left out, or ended.
export class Questions {
  // `changed` is told whether a question is being answered.
  constructor(program, changed = () => {}) {
    this.program = program;
    this.changed = changed;
    this.waiting = [];
    this.asked = null;
  }

  put(key, words, text, heard) {
    this.waiting = this.waiting.filter((question) => question.key !== key);
    if (this.asked?.key === key) this.end();
    this.waiting.push({ key, words, text, heard });
    this.next();
  }

  // Leaves out all that is asked.
  clear() {
    this.waiting = [];
    if (this.asked) this.end();
    this.changed(false);
  }

  end() {
    this.asked = null;
    this.program.stop();
  }

  next() {
    if (this.asked) return;
    const question = this.waiting.shift();
    this.changed(question !== undefined);
    if (!question) return;
    this.asked = question;
    this.program.ask(question.words, question.text, (found) => {
      this.asked = null;
      question.heard(found);
      this.next();
    });
  }
}
