// Bytes as text in base 85, in the alphabet of RFC 1924: five characters for four bytes. Base 64 would need a fifteenth more.
const ALPHABET = "0123456789ABCDEFGHIJKLMNOPQRSTUVWXYZabcdefghijklmnopqrstuvwxyz!#$%&()*+-;<=>?@^_`{|}~";
const BASE = 85, CHARACTERS = 5, BYTES = 4;

/**
 * The bytes of such a text.
 * @param {string} text
 */
export function bytesOf(text) {
  const digits = new Uint8Array(128);
  for (let at = 0; at < BASE; at++) digits[ALPHABET.charCodeAt(at)] = at;
  const missing = (CHARACTERS - text.length % CHARACTERS) % CHARACTERS;
  const whole = text + "~".repeat(missing);
  const bytes = new DataView(new ArrayBuffer(whole.length / CHARACTERS * BYTES));
  for (let from = 0, to = 0; from < whole.length; from += CHARACTERS, to += BYTES) {
    let value = 0;
    for (let at = from; at < from + CHARACTERS; at++) value = value * BASE + digits[whole.charCodeAt(at)];
    bytes.setUint32(to, value);
  }
  return new Uint8Array(bytes.buffer, 0, bytes.byteLength - missing);
}
