// Stands in for the module in a browser that a test drives: each question goes to the driver, which runs a program.

let number = 0;
let heard = null;

window.hearProgram = (asked, status, answer, time) => {
  if (asked !== number || !heard) return;
  const hear = heard;
  heard = null;
  hear({ status, bytes: Uint8Array.from(atob(answer), (character) => character.charCodeAt(0)), time });
};

function coded(bytes) {
  let characters = "";
  for (const byte of bytes) characters += String.fromCharCode(byte);
  return btoa(characters);
}

class Program {
  stop() {
    heard = null;
  }

  ask(words, text, hear) {
    number += 1;
    heard = hear;
    window.askProgram(JSON.stringify({ number, words, text: coded(text) }));
  }
}

export async function start() {
  return new Program();
}
