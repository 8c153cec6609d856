// example.mjs: the shortest use of skumvari.wasm: prints the inductance of conductor 1 in the first section of a file:
// node hosts/wasm/example.mjs target/staticlib/skumvari.wasm FILE.
import { readFile } from "node:fs/promises";

import { KIND, Skumvari, valueText } from "./skumvari.mjs";

async function inductance(wasm, file) {
    const skumvari = await Skumvari.load(await readFile(wasm));
    const text = await readFile(file);
    const intake = skumvari.intake(text);
    const answer = intake.given ? skumvari.entry(text, intake.table, 0, KIND.L, 1, 1) : intake;
    if (!answer.given) {
        throw new Error(`refused ${answer.number} at line ${answer.line}`);
    }
    return valueText(answer.word);
}

const [wasm, file, ...more] = process.argv.slice(2);
if (file === undefined || more.length > 0) {
    console.error("usage: example WASM FILE");
    process.exitCode = 2;
} else {
    await inductance(wasm, file).then(console.log, (error) => {
        console.error(error.message);
        process.exitCode = 1;
    });
}
