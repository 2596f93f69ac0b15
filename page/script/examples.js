// The list of examples, and what is asked of each: {texts, questions}, with the texts by their names, and each question
// as a heading, the text's name, the command and its words.

export class Examples {
  constructor(list, { texts, questions }, lacking) {
    this.list = list;
    this.texts = texts;
    this.questions = questions.filter(([, , command]) => !lacking.has(command));
    list.replaceChildren(new Option("(your own)", ""));
    for (const [heading, name, command, words] of this.questions) {
      let group = list.lastElementChild;
      if (group.label !== heading) {
        group = document.createElement("optgroup");
        group.label = heading;
        list.append(group);
      }
      group.append(new Option(`${name}: ${command} ${words}`.trimEnd()));
    }
  }

  // The question that is chosen: its text, command and words, and the words of the text's first question for each
  // command; null for none.
  chosen() {
    const question = this.questions[this.list.selectedIndex - 1];
    if (!question) return null;
    const [, name, command, words] = question;
    const first = {};
    for (const [, itsName, itsCommand, itsWords] of this.questions.toReversed()) {
      if (itsName === name) first[itsCommand] = itsWords;
    }
    return { text: this.texts[name], command, words, first };
  }
}
