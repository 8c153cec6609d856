// test_vectors.mjs: the test files through the wasm: answers, tables of other lengths, hashes of whole tables, listings,
// questions and doubles. Their answers were found from the papers apart from this project; hosts/vectors/README.md
// tells what the tables of hosts/vectors hold. The base's files stand with the program `test_vectors`.
import assert from "node:assert/strict";
import { readdirSync, readFileSync } from "node:fs";
import { test } from "node:test";

import { loaded, path } from "./files.mjs";
import { written } from "./skumvari.mjs";

const { skumvari } = await loaded();

/** The words of the table for which the answers are told: of the base's files, and of those of the requests. */
const BASE_WORDS = 8192;
const WORDS = 524_288;

/** The bytes of the longest text that the programs take. */
const BASE_BYTES = 65_536;

const LANDED = lines("hosts/vectors/landed.txt")[0];

/** The landings in their order, from the head of the answers. */
const LANDINGS = lines("hosts/vectors/levels.txt")[0].split("landings ")[1].split(" ");

function lines(name) {
    return readFileSync(path(name), "utf8").trimEnd().split("\n");
}

/** The lines of a table but for its head, each as its words. */
function records(name) {
    return lines(name).filter((line) => !line.startsWith("#")).map((line) => line.split(" "));
}

function before(landing) {
    const at = LANDINGS.indexOf(landing);
    assert.notEqual(at, -1, `no landing of request ${landing}`);
    return at;
}

/** By name what holds after a landing. */
function column(name, landing) {
    return new Map(records(name).map((record) => [record[0], record[before(landing) + 1]]));
}

function baseFile(name) {
    return readFileSync(path(`crates/test_vectors/data/${name}.icm`));
}

function file(name) {
    return readFileSync(path(`hosts/vectors/${name}.icm`));
}

/** The intake's answer and the table it leaves, which held other words before: those past the words used are zero. */
function takeIn(text, room) {
    const table = new BigUint64Array(room);
    new Uint8Array(table.buffer).fill(0xff);
    const answer = skumvari.intake(text, table);
    const used = answer.table.length;
    const rest = Buffer.from(table.buffer, used * table.BYTES_PER_ELEMENT);
    assert.ok(rest.equals(Buffer.alloc(rest.length)), "words that are not used are left as they were");
    return { ...answer, used, whole: table };
}

function spelled({ given, used, number, line }) {
    return given ? `accepted ${used}` : `refused ${number} ${line}`;
}

/** FNV-1a, 64 bits, over the little-endian bytes of the words; in halves, as BigInt would take most of the time. */
function hash(words) {
    const half = 2 ** 32;
    let [high, low] = [0xcbf29ce4, 0x84222325];
    for (const byte of new Uint8Array(words.buffer, words.byteOffset, words.byteLength)) {
        low = (low ^ byte) >>> 0;
        const product = low * 0x1b3; // the prime is two to the 40 and this
        high = (high * 0x1b3 + low * 0x100 + Math.floor(product / half)) % half;
        low = product % half;
    }
    return [high, low].map((word) => word.toString(16).padStart(8, "0")).join("");
}

/** What the program `test_vectors` prints for a line of its input. */
function told(line) {
    const [fileName, question] = line.split(" ");
    const name = fileName.replace(/\.icm$/, "");
    const text = baseFile(name);
    if (question === undefined) {
        return `${name} ${text.length > BASE_BYTES ? "toolong" : spelled(takeIn(text, BASE_WORDS))}\n`;
    }
    if (question === "hash") {
        const { used, whole } = takeIn(text, BASE_WORDS);
        return `${name} ${used} ${hash(whole)}\n`;
    }
    if (question === "list") {
        return `${name}\n${listed(text)}`;
    }
    return `${name} ${question} ${spelled(takeIn(text, Number(question)))}\n`;
}

/** What the program `icm_list` prints for a text. */
function listed(text) {
    if (text.length > BASE_BYTES) {
        return "toolong\n";
    }
    const answer = takeIn(text, BASE_WORDS);
    return answer.given ? skumvari.listing(text, answer.table) : `${spelled(answer)}\n`;
}

test("the base's answers, rooms, hashes and listings", () => {
    let rest = readFileSync(path("crates/test_vectors/stdout"), "utf8");
    for (const line of lines("crates/test_vectors/stdin")) {
        const printed = told(line);
        assert.equal(rest.slice(0, printed.length), printed, line);
        rest = rest.slice(printed.length);
    }
    assert.equal(rest, "");
});

// Told from the landing on that adds a line to all of them, so before it there are none here.
test("the requests' listings", () => {
    for (const name of readdirSync(path("hosts/vectors/listings"))) {
        if (name.endsWith(`.${LANDED}.out`)) {
            const wanted = readFileSync(path(`hosts/vectors/listings/${name}`), "utf8");
            assert.equal(listed(file(name.replace(`.${LANDED}.out`, ""))), wanted, name);
        }
    }
});

test("the requests' answers and hashes", () => {
    const answers = column("hosts/vectors/levels.txt", LANDED);
    const hashes = column("hosts/vectors/hashes.txt", LANDED);
    for (const [name, wanted] of answers) {
        const text = file(name);
        const { given, used, number, line, table } = takeIn(text, WORDS);
        assert.equal(given ? `a${used}` : `${number}:${line}`, wanted, name);
        if (given) {
            assert.ok(skumvari.sound(text, table), name);
        }
        if (hashes.has(name)) {
            assert.equal(given ? hash(table) : "-", hashes.get(name), name);
        }
    }
    assert.equal(readdirSync(path("hosts/vectors")).filter((name) => name.endsWith(".icm")).length, answers.size);
    assert.ok([...hashes.keys()].every((name) => answers.has(name)));
});

// Told for some landings only. Those of the next one told hold already for a file whose answer stays till then, since
// the table it needs stays too.
test("the requests' tables of other lengths", () => {
    const rooms = records("hosts/vectors/rooms.txt");
    const told = rooms.map(([, landing]) => landing).filter((landing) => before(landing) >= before(LANDED));
    const next = LANDINGS[Math.min(...told.map(before))];
    const [now, then] = [LANDED, next].map((landing) => column("hosts/vectors/levels.txt", landing));
    const holding = rooms.filter(([name, landing]) => landing === next && now.get(name) === then.get(name));
    for (const [name, , room, ...wanted] of holding) {
        assert.equal(spelled(takeIn(file(name), Number(room))), wanted.join(" "), `${name} ${room}`);
    }
    assert.ok(holding.length > 0);
});

test("the base's answers that a request changed", () => {
    const latest = new Map();
    const changes = records("hosts/vectors/base-changes.txt");
    changes.sort((one, other) => before(one[1]) - before(other[1]));
    for (const [name, landing, ...answer] of changes) {
        if (before(landing) <= before(LANDED)) {
            latest.set(name, answer.join(" "));
        }
    }
    for (const [name, wanted] of latest) {
        assert.equal(spelled(takeIn(baseFile(name), BASE_WORDS)), wanted, name);
    }
    assert.ok(latest.size > 0);
});

test("questions", () => {
    const folder = "hosts/vectors/questions";
    const files = readdirSync(path(folder)).map((name) => [name, ...lines(`${folder}/${name}`)]);
    const landing = ([, first]) => before(first.replace(/^after /, ""));
    // what is asked changes with some landings: of those that have files the last one holds
    const asked = Math.max(...files.map(landing).filter((at) => at <= before(LANDED)));
    files.filter((one) => landing(one) === asked).forEach(([name, , ...rest]) => ask(name, rest));
});

/** What follows the landing: the text, the table, whether it is sound, and the questions with their answers. */
function ask(name, [textLine, tableLine, ...rest]) {
    const text = readFileSync(path(`hosts/vectors/${textLine.replace(/^text /, "")}`));
    const long = Number(tableLine.replace(/^table /, ""));
    const table = BigUint64Array.from(numbers(rest.splice(0, Math.ceil(long / 16)).join(" ")));
    assert.equal(table.length, long, name);
    assert.equal(`sound ${Number(skumvari.sound(text, table))}`, rest.shift(), name);
    for (const line of rest) {
        const [question, wanted] = line.split(" = ");
        const [kind, ...place] = question.split(" ");
        // The answer begins with given, number and line; the line is not told, as it is 0.
        const words = numbers(wanted);
        const answer = new BigUint64Array(words.length + 2);
        assert.equal(skumvari.call(`skumvari_${kind}`, text, table, ...place, written(answer)), 1, name);
        const [given, number, noLine, ...told] = answer;
        assert.deepEqual([number, ...told], words, `${name}: ${question}`);
        assert.deepEqual([given, noLine], [number === 0n ? 1n : 0n, 0n], `${name}: ${question}`);
    }
}

function numbers(line) {
    return line === "" ? [] : line.split(" ").map(BigInt);
}

test("doubles, and pairs of a word and the one below it", () => {
    const bits = (number) => {
        const view = new DataView(new ArrayBuffer(8));
        view.setFloat64(0, number);
        return view.getBigUint64(0).toString(16).padStart(16, "0");
    };
    const words = records("hosts/vectors/doubles.txt").map(([word, wanted]) => [BigInt(word), wanted]);
    words.forEach(([word, wanted], at) => {
        const drawn = skumvari.double(word);
        assert.equal(drawn === null ? "outside" : bits(drawn), wanted, word);
        if (at > 0) {
            const [frequency, first] = words[at - 1];
            const pair = skumvari.pair(frequency, word);
            const both = first !== "outside" && wanted !== "outside";
            assert.deepEqual(pair && pair.map(bits), both ? [first, wanted] : null, word);
        }
    });
});
