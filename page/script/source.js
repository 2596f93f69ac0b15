// The program's text: what stands in the field, or the bytes of a file that the field can't hold as they are.

const TEXT_LIMIT = 1048576;

export class Source {
  // `parts` are the elements: text, size, held. `read` takes the field's text after a change.
  constructor(parts, read) {
    Object.assign(this, { parts, read, held: null });
  }

  bytes() {
    return this.held ?? new TextEncoder().encode(this.parts.text.value);
  }

  // After the user changed the field.
  edited() {
    this.held = null;
    this.changed();
  }

  set(text, bytes = null) {
    this.held = bytes;
    this.parts.text.value = text;
    this.parts.text.scrollTop = 0;
    this.changed();
  }

  changed() {
    this.read();
    const size = this.bytes().length;
    const lines = this.parts.text.value.split("\n").length;
    this.parts.size.textContent = `${many(lines, "line")}, ${many(size, "byte")}`
      + (size > TEXT_LIMIT ? `, ${many(size - TEXT_LIMIT, "byte")} over the limit` : "");
    this.parts.held.textContent = this.held ? "The file's bytes as they are, until you edit" : "";
  }

  // Takes a file's text; its bytes are kept as they are where the field would change them.
  async open(file) {
    const bytes = new Uint8Array(await file.arrayBuffer());
    const text = new TextDecoder("utf-8", { ignoreBOM: true }).decode(bytes);
    this.set(text, bytes);
    const same = new TextEncoder().encode(this.parts.text.value);
    if (same.length === bytes.length && same.every((byte, at) => byte === bytes[at])) this.set(text);
  }
}

function many(count, word) {
  return `${count.toLocaleString("en")} ${word}${count === 1 ? "" : "s"}`;
}
