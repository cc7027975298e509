// The bytes of an event in words, as tools/events.py writes them, and what is looked for in bytes.

const HEX = Array.from({ length: 256 }, (_, byte) => byte.toString(16).padStart(2, "0"));

// Text where all of it can be printed, and otherwise hexadecimal digits; `whole` is how many bytes there were.
function shownBytes(bytes, whole) {
  const isText = bytes.length > 0 && bytes.every((byte) => (byte >= 32 && byte <= 126) || byte === 10);
  const text = isText
    ? '"' + Array.from(bytes, (byte) => (byte === 10 ? "\\n" : String.fromCharCode(byte))).join("") + '"'
    : Array.from(bytes, (byte) => HEX[byte]).join("") || (whole ? "" : "nothing");
  return bytes.length < whole ? text + ".. (" + whole + " bytes)" : text;
}

// The bytes that a search means: those of its text, or of hexadecimal digits behind 0x.
function patternOf(search) {
  if (/^0x([0-9a-f]{2})+$/i.test(search)) {
    return Uint8Array.from(search.slice(2).match(/../g), (digits) => parseInt(digits, 16));
  }
  return new TextEncoder().encode(search);
}

function holdsBytes(bytes, pattern) {
  const last = bytes.length - pattern.length;
  for (let start = bytes.indexOf(pattern[0]); start >= 0 && start <= last; start = bytes.indexOf(pattern[0], start + 1)) {
    if (pattern.every((byte, place) => bytes[start + place] === byte)) {
      return true;
    }
  }
  return false;
}

// A name from outside, with its signs that are not seen, or that turn the order of others, spelled out.
function visible(name) {
  return name.replace(/[\p{C}\p{Zl}\p{Zp}]/gu, (sign) => "\\u{" + sign.codePointAt(0).toString(16) + "}");
}

function shortened(text, longest) {
  return text.length <= longest ? text : text.slice(0, longest - 2) + "..";
}
