/** Bytes of documents: base64 as the room has it, text where they are text. */

export const MOST_BYTES = 65_536;

// (Browsers of before 2025 lack both.)
export const toBase64 = bytes =>
  bytes.toBase64?.() ?? btoa(Array.from(bytes, it => String.fromCharCode(it)).join(""));
export const fromBase64 = text =>
  Uint8Array.fromBase64?.(text) ?? Uint8Array.from(atob(text), it => it.charCodeAt(0));

export const hexOf = bytes => [...bytes].map(it => it.toString(16).padStart(2, "0")).join("");
export const randomHex = count => hexOf(crypto.getRandomValues(new Uint8Array(count)));
export const fromText = text => new TextEncoder().encode(text);

/** Null where they are no text; with `isStart` they may end within a letter. */
export function toText(bytes, isStart = false) {
  try {
    const text = new TextDecoder("utf-8", { fatal: true, ignoreBOM: true }).decode(bytes, { stream: isStart });
    return /[\u0000-\u0008\u000b\u000c\u000e-\u001f]/.test(text) ? null : text;
  } catch {
    return null;
  }
}
