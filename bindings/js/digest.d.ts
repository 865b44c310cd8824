import { Source } from "./bracetwill.js";

/** What `./digest SEED COUNT` prints: a digest of the answers and values of COUNT calls of each kind, and of all. */
export function digest(source?: Source, seed?: number, count?: number): Promise<string>;

/** The digest of all, the last number of that text. */
export function total(printed: string): string;
