/** What many modules take: words, elements, names, and the room. */
export * from "./busy.js";
export * from "./bytes.js";
export * from "./dialogs.js";
export * from "./dom.js";
export * from "./lists.js";
export * from "./names.js";
export * from "./notices.js";
export * from "./room.js";
export * from "./wire.js";
export * from "./words.js";
