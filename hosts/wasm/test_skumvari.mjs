// test_skumvari.mjs: checks that a program in JavaScript gets from skumvari.wasm what the header and the paper promise,
// and that every function that the wasm exports is called here. All but the doubles is asked about the paper's example.
// The folder of the wasm is named by SKUMVARI_ARCHIVE (default target/staticlib of the repository).
import assert from "node:assert/strict";
import { readFileSync } from "node:fs";
import { test } from "node:test";

import { loaded, path } from "./files.mjs";
import { KIND, Skumvari, valueText, written } from "./skumvari.mjs";

const TEXT = readFileSync(path("crates/icm_list/stdin"));
const USED = 92;
const GUARD = 0xa5a5a5a5a5a5a5a5n; // what memory holds that a call must leave alone
const MOST = 2n ** 64n - 1n;

const { module, skumvari } = await loaded();
const called = new Set();
const call = skumvari.call;
skumvari.call = (name, ...parts) => {
    called.add(name);
    return call.call(skumvari, name, ...parts);
};
const TABLE = skumvari.intake(TEXT).table;

function words(count, word = GUARD) {
    return new BigUint64Array(count).fill(word);
}

/** The example with one line replaced. */
function edited(line, replacement) {
    const lines = TEXT.toString().split("\n");
    lines[line - 1] = replacement;
    return new TextEncoder().encode(lines.join("\n"));
}

function refused({ given, number, line }) {
    return given ? null : [number, line];
}

test("the intake fills a table, and zeroes the words past those used", () => {
    for (const room of [USED, 299]) {
        const table = words(room);
        const answer = skumvari.intake(TEXT, table);
        assert.deepEqual([answer.given, answer.number, answer.line], [true, 0, 0]);
        assert.equal(answer.table.length, USED);
        assert.deepEqual([...table.subarray(0, 6)], [1n, 150n, 1n, 2n, 0n, 6n]);
        assert.ok(table.subarray(USED).every((word) => word === 0n));
    }
    assert.ok(skumvari.tableWords() > USED);
});

test("a refused text leaves zeros", () => {
    const cases = [
        [TEXT, USED - 1, 18, 0],
        [TEXT, 0, 18, 0],
        [new Uint8Array(0), 299, 5, 0],
        [new Uint8Array(0), 0, 5, 0],
        [TEXT.subarray(0, -1), 299, 4, 39],
        [edited(35, "1e99 1"), 299, 14, 35],
        [edited(16, "Section Mult=1 T"), 299, 23, 16],
        [edited(11, "ICM_model_type MLM\nSGR 3:1"), 299, 29, 12],
        [new Uint8Array(1_048_577).fill(10), 299, 1, 0],
        [new Uint8Array(1_048_576).fill(10), 299, 5, 0],
    ];
    for (const [text, room, number, line] of cases) {
        const table = words(room);
        assert.deepEqual(refused(skumvari.intake(text, table)), [number, line]);
        assert.ok(table.every((word) => word === 0n));
    }
});

test("the table that the intake leaves is sound, a bent one is not", () => {
    assert.equal(skumvari.sound(TEXT, TABLE), true);
    assert.equal(skumvari.sound(TEXT, TABLE.subarray(0, USED - 1)), false);
    assert.equal(skumvari.sound(new Uint8Array(0), TABLE), false);
    const bent = TABLE.slice();
    bent[USED - 1] = 0n;
    assert.equal(skumvari.sound(TEXT, bent), false);
    assert.deepEqual(refused(skumvari.entry(TEXT, bent, 0, KIND.L, 1, 1)), [30, 0]);
    assert.deepEqual(refused(skumvari.matrix(TEXT, bent, 0, KIND.L)), [30, 0]);
    assert.deepEqual(refused(skumvari.walk(TEXT, bent, { model: 0, step: 0, depth: 0 })), [30, 0]);
});

test("entries", () => {
    const value = (...place) => valueText(skumvari.entry(TEXT, TABLE, ...place).word);
    assert.equal(value(0, KIND.L, 1, 1), "45e-10");
    assert.equal(value(0n, KIND.L, 2n, 2n), "45e-10");
    assert.equal(value(0, KIND.L, 1, 2), "8e-10");
    assert.equal(value(0, KIND.L, 2, 1), "8e-10");
    assert.equal(value(0, KIND.C, 1, 1), "0e0");
    const none = [[1, 1, 1, 1], [0, 4, 1, 1], [0, 1, 0, 1], [0, 1, 3, 1], [0, 1, 1, 0], [0, 1, 1, 3], [-1, 1, 1, 1]];
    for (const place of [...none, [0, 1, 2n ** 64n + 1n, 1], [MOST, MOST, MOST, MOST]]) {
        assert.deepEqual(refused(skumvari.entry(TEXT, TABLE, ...place)), [31, 0]);
    }
});

test("whole matrices", () => {
    const { given, conductors, values } = skumvari.matrix(TEXT, TABLE, 0, KIND.L);
    assert.deepEqual([given, conductors, ...values], [true, 2, 11_628n, 2156n, 2156n, 11_628n]);
    assert.deepEqual([...skumvari.matrix(TEXT, TABLE, 0, KIND.R).values], [128n, 128n, 128n, 128n]);
    assert.deepEqual(refused(skumvari.matrix(TEXT, TABLE, 1, KIND.L)), [31, 0]);
    assert.deepEqual(refused(skumvari.matrix(TEXT, TABLE, 0, 4)), [31, 0]);
});

test("a walk goes from place to place", () => {
    // kind, target, amount, side start, side length, line; the next step and depth
    const path = [
        [0n, 0n, 0n, 0n, 0n, 13n, 1n, 0n],
        [1n, 0n, 2n, 0n, 0n, 14n, 2n, 0n],
        [2n, 0n, 0n, 0n, 0n, 15n, 3n, 1n],
        [1n, 0n, 1n, 0n, 0n, 16n, 4n, 1n],
        [3n, 0n, 0n, 0n, 0n, 17n, 5n, 0n],
        [0n, 1n, 0n, 0n, 0n, 18n, 6n, 0n],
    ];
    let place = { model: 0n, step: 0n, depth: 0n };
    for (const wanted of path) {
        const { given, done, step, next } = skumvari.walk(TEXT, TABLE, place);
        assert.deepEqual([given, done], [true, false]);
        assert.deepEqual([...Object.values(step), next.step, next.depth], wanted);
        place = next;
    }
    const end = skumvari.walk(TEXT, TABLE, place);
    assert.deepEqual([end.given, end.done, end.next], [true, true, place]);
    for (const [model, step, depth] of [[1, 0, 0], [0, 7, 0], [0, 3, 0], [MOST, MOST, MOST]]) {
        assert.deepEqual(refused(skumvari.walk(TEXT, TABLE, { model, step, depth })), [31, 0]);
    }
});

test("the listing is the paper's, as far as there is room", () => {
    const listing = `accepted 92
models 1
A MLM 6
steps 6
end 13 P
section 14 S 2
fork 15
section 16 S 1
endfork 17
end 18 Q
maps 2
P 2
Q 2
sections 1
S Lumped 2
values 3
S L 1 1 45e-10
S L 1 2 8e-10
S L 2 2 45e-10
`;
    assert.equal(skumvari.listing(TEXT, TABLE), listing);
    for (let room = 0; room <= listing.length + 2; room++) {
        const out = new Uint8Array(room).fill(0x7e);
        const length = Number(skumvari.call("skumvari_list", TEXT, TABLE, USED, written(out)));
        assert.equal(length, Math.min(room, listing.length));
        assert.equal(Buffer.from(out).toString(), listing.slice(0, length).padEnd(room, "~"));
    }
    // No word of a table is trusted: one whose counts do not fit shows no records.
    const none = "accepted 9\nmodels 0\nsteps 0\nmaps 0\nsections 0\nvalues 0\n";
    assert.equal(skumvari.listing(TEXT, words(9)), none);
    assert.equal(skumvari.listing(TEXT, words(0)), none.replace("9", "0"));
});

// The table is what the intake left for the text, so the questions may be asked without judging it.
test("without judging the answers are the same", () => {
    const alike = (name, count, ...parts) => {
        const answers = [name, `${name}_unjudged`].map((asked) => {
            const [values, answer] = [words(6), words(count + 1)];
            const given = parts.map((part) => (part === "values" ? written(values) : part));
            assert.equal(skumvari.call(asked, TEXT, TABLE, ...given, written(answer.subarray(0, count))), 1);
            return [...answer, ...values];
        });
        assert.deepEqual(answers[1], answers[0]);
        return answers[1];
    };
    for (const section of [0, 1, MOST]) {
        for (const kind of [0, 1, 2, 3, 4, MOST]) {
            alike("skumvari_matrix", 4, section, kind, "values");
            for (const row of [0, 1, 2, 3, MOST]) {
                [0, 1, 2, 3, MOST].forEach((column) => alike("skumvari_entry", 4, section, kind, row, column));
            }
        }
    }
    let place = [0n, 0n, 0n];
    for (let step = 0; step < 7; step++) {
        place = alike("skumvari_walk", 13, ...place).slice(10, 13);
    }
    assert.deepEqual(place, [0n, 6n, 0n]);
});

test("doubles and pairs", () => {
    const word = (negative, size, exponent) => 256n * BigInt(size) + 2n * BigInt(exponent + 64) + BigInt(negative);
    assert.equal(skumvari.double(word(1, 45, -10)), -45 / 1e10);
    assert.equal(skumvari.double(word(0, 1, 22)), 1e22);
    assert.equal(skumvari.double(word(0, 1, 23)), null);
    assert.equal(skumvari.double(word(0, 900_719_925_474_099, 1)), 9_007_199_254_740_990);
    assert.ok(Object.is(skumvari.double(128), 0));
    for (const none of [129, 0, word(0, 10, 0), MOST, -1, 2n ** 64n + 128n]) {
        assert.equal(skumvari.double(none), null);
    }
    assert.deepEqual(skumvari.pair(word(0, 1, 9), word(1, 45, -10)), [1e9, -45 / 1e10]);
    assert.equal(skumvari.pair(word(0, 1, 9), 129), null);
    assert.equal(skumvari.pair(129, word(0, 1, 9)), null);
});

test("too few words for an answer: nothing is written but zeros to the table of an intake", () => {
    const questions = [
        ["skumvari_entry", 4, TEXT, TABLE, 0, KIND.L, 1, 1],
        ["skumvari_walk", 13, TEXT, TABLE, 0, 0, 0],
        ["skumvari_matrix", 4, TEXT, TABLE, 0, KIND.L, written(words(4))],
        ["skumvari_entry_unjudged", 4, TEXT, TABLE, 0, KIND.L, 1, 1],
        ["skumvari_walk_unjudged", 13, TEXT, TABLE, 0, 0, 0],
        ["skumvari_matrix_unjudged", 4, TEXT, TABLE, 0, KIND.L, written(words(4))],
        ["skumvari_double", 4, 128],
        ["skumvari_pair", 5, 128, 128],
    ];
    for (const [name, count, ...parts] of questions) {
        for (let room = 0; room <= count + 1; room++) {
            const answer = words(room);
            assert.equal(skumvari.call(name, ...parts, written(answer)), room < count ? 0 : 1, name);
            assert.equal(answer.every((word) => word === GUARD), room < count, name);
            assert.ok(answer.subarray(count).every((word) => word === GUARD), name);
        }
    }
    const [table, answer] = [words(USED), words(3)];
    assert.equal(skumvari.call("skumvari_intake", TEXT, written(table), written(answer)), 0);
    assert.ok(table.every((word) => word === 0n) && answer.every((word) => word === GUARD));
});

test("too few values for a whole matrix are told by number 0, with the conductors", () => {
    for (let count = 0; count < 6; count++) {
        const [values, answer] = [words(count), words(4)];
        const parts = [TEXT, TABLE, 0, KIND.L, written(values), written(answer)];
        assert.equal(skumvari.call("skumvari_matrix", ...parts), 1);
        const wanted = count < 4 ? [] : [11_628n, 2156n, 2156n, 11_628n];
        assert.deepEqual([...answer], [count < 4 ? 0n : 1n, 0n, 0n, 2n]);
        assert.deepEqual([...values], [...wanted, ...words(count - wanted.length)]);
    }
});

test("only bytes are a text, and only words a table", () => {
    assert.throws(() => skumvari.intake("text"), TypeError);
    assert.throws(() => skumvari.sound(TEXT, [0]), TypeError);
    assert.throws(() => skumvari.entry(TEXT, TABLE, 0, KIND.L, 1.5, 1), RangeError);
});

test("calls do not know of each other", async () => {
    const other = await Skumvari.load(module);
    const texts = [TEXT, edited(35, "1e99 1"), TEXT, new Uint8Array(1_048_577), TEXT];
    assert.deepEqual(texts.map((text) => refused(other.intake(text))), [null, [14, 35], null, [1, 0], null]);
});

const exported = WebAssembly.Module.exports(module).map(({ name }) => name).filter((name) => /^skumvari_/.test(name));

test("nothing is imported, and what is exported is what the header declares", () => {
    assert.deepEqual(WebAssembly.Module.imports(module), []);
    const header = readFileSync(path("include/skumvari.h"), "utf8");
    const declared = [...header.matchAll(/^\w+ (skumvari_\w+)\(/gm)].map(([, name]) => name);
    assert.deepEqual([...exported].sort(), declared.sort());
});

// The last of all, since it looks at what the others have called.
test("every export is called", () => {
    assert.deepEqual(exported.filter((name) => !called.has(name)), []);
});
