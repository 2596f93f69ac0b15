// Measures the page from within. It runs before the scripts of the page, and changes none of them.

const PATIENCE = 60;

window.measured = (() => {
  // When the page could be asked first and when its first answer stood there, since the browser began to open it.
  const opened = { ready: null, answered: null };
  // How long the program has answered in its worker since a question was put.
  let worker = 0;

  const Plain = window.Worker;
  window.Worker = class extends Plain {
    constructor(address) {
      super(address);
      this.addEventListener("message", ({ data }) => {
        worker += data.time;
      });
    }
  };

  new MutationObserver(() => {
    const { state } = document.body.dataset;
    if (state === "running") opened.ready ??= performance.now();
    if (state === "answered") opened.answered ??= performance.now();
  }).observe(document, { subtree: true, attributeFilter: ["data-state"] });

  const part = (name) => document.getElementById(name);

  // Does something, and gives the milliseconds until what is awaited stands in the page, and those of the worker.
  function took(act, isThere) {
    return new Promise((done, fail) => {
      setTimeout(() => fail(new Error(`the answer doesn't come in ${PATIENCE} seconds`)), 1000 * PATIENCE);
      const observer = new MutationObserver(() => {
        if (!isThere()) return;
        observer.disconnect();
        done([performance.now() - begin, worker]);
      });
      observer.observe(document.body, { attributeFilter: ["data-state", "data-asked"] });
      observer.observe(part("type"), { childList: true });
      worker = 0;
      const begin = performance.now();
      act();
    });
  }

  const ask = () => part("name").dispatchEvent(new Event("change"));
  const isAnswered = () => document.body.dataset.state === "answered";
  const isAllSaid = () => isAnswered() && document.body.dataset.asked === "false";

  // A letter of the text is replaced, as if it were typed.
  function type(at, letter) {
    part("text").focus();
    part("text").setSelectionRange(at, at + 1);
    document.execCommand("insertText", false, letter);
  }

  return {
    opened,
    // The chosen command is asked: until its answer is shown, or until what explains it is shown too.
    answer: () => took(ask, isAnswered),
    explained: () => took(ask, isAllSaid),
    // A letter is typed: until the type of the part at the cursor is shown.
    typed: (at, letter, shown) => took(() => type(at, letter), () => part("type").textContent === shown),
  };
})();
