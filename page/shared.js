/** What views and actions take: all of common.js, and files, folders and the trash. */
export * from "./common.js";
export * from "./dav.js";
export * from "./files.js";
export * from "./manifest.js";
export * from "./parts.js";
export * from "./preview.js";
export * from "./questions.js";
export * from "./rail.js";
export * from "./reading.js";
export * from "./transfers.js";
export * from "./trash.js";
export * from "./uploads.js";
