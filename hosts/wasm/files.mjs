// files.mjs: where the tests find the wasm and the files of the repository.
import { readFileSync } from "node:fs";
import { fileURLToPath } from "node:url";

import { Skumvari } from "./skumvari.mjs";

/** A path from the repository's root. */
export function path(name) {
    return fileURLToPath(new URL(`../../${name}`, import.meta.url));
}

/** The wasm's module, and an instance of it. */
export async function loaded() {
    const folder = process.env.SKUMVARI_ARCHIVE || path("target/staticlib");
    const module = new WebAssembly.Module(readFileSync(`${folder}/skumvari.wasm`));
    return { module, skumvari: await Skumvari.load(module) };
}
