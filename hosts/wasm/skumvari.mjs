// skumvari.mjs: the proved intake and its questions from skumvari.wasm, for node and browsers.
//
//     import { Skumvari, KIND, valueText } from "./skumvari.mjs";
//
//     const skumvari = await Skumvari.load(await readFile("target/staticlib/skumvari.wasm"));
//     const text = await readFile("t.icm");
//     const { given, number, line, table } = skumvari.intake(text);     // given, or refused with number and line
//     const { word } = skumvari.entry(text, table, 0, KIND.L, 2, 1);    // of the first section
//     valueText(word);                                                  // 8e-10
//
// In a browser, load(await (await fetch("skumvari.wasm")).arrayBuffer()).
//
// A text is a Uint8Array, a table a BigUint64Array, and a word a BigInt. Every text, table and number is taken.
// include/skumvari.h tells what each function answers, and the layout of a table. The caller holds text and table here, so
// every question judges its table: the functions that do not are for hosts that keep both themselves.

/** The bytes by which a wasm's memory grows. */
const PAGE = 65_536;

const WORD_MOST = 2n ** 64n - 1n;

/** How many bytes of listing there is room for at first, for each word of the table. */
const BYTES_A_WORD = 8;

/** How many words an answer has: of the intake, an entry, a whole matrix and a double; of a pair; of a walk. */
const ANSWER_WORDS = 4;
const PAIR_WORDS = 5;
const WALK_WORDS = 13;

/** The kinds of matrix: resistance, inductance, conductance, capacitance. */
export const KIND = Object.freeze({ R: 0n, L: 1n, G: 2n, C: 3n });

/** A slice that a function writes: `call` copies it back. */
class Written {
    constructor(array) {
        this.array = array;
    }
}

export function written(array) {
    return new Written(array);
}

/** A number as a word. What no word can hold becomes the greatest, which is out of range too, never another number. */
function wordOf(number) {
    const word = BigInt(number);
    return 0n <= word && word <= WORD_MOST ? word : WORD_MOST;
}

function bytesOf(array) {
    return new Uint8Array(array.buffer, array.byteOffset, array.byteLength);
}

/** The double that has these bits. */
function doubleOfBits(bits) {
    return new Float64Array(BigUint64Array.of(bits).buffer)[0];
}

/** A value word as the listing prints it: m, e and k. */
export function valueText(word) {
    return `${word % 2n ? "-" : ""}${word / 256n}e${((word % 256n) / 2n) - 64n}`;
}

export class Skumvari {
    #exports;

    constructor(instance) {
        this.#exports = instance.exports;
    }

    /** Of the bytes of skumvari.wasm, or of a WebAssembly.Module made of them. */
    static async load(source) {
        const module = source instanceof WebAssembly.Module ? source : await WebAssembly.compile(source);
        return new Skumvari(await WebAssembly.instantiate(module));
    }

    /**
     * Calls a function of the header. A slice is an array, which is copied into the wasm's memory and lent there as a
     * pointer and a length; one that the function writes is handed in as `written(array)`. Any other part is a number.
     */
    call(name, ...parts) {
        const { memory, __heap_base: heap, [name]: proved } = this.#exports;
        let end = heap.value;
        const slices = [];
        const given = parts.flatMap((part) => {
            const array = part instanceof Written ? part.array : part;
            if (!ArrayBuffer.isView(array)) {
                return [wordOf(array)];
            }
            const start = Math.ceil(end / 8) * 8; // a pointer to words is aligned
            end = start + array.byteLength;
            slices.push({ array, start, back: part instanceof Written });
            return [start, BigInt(array.length)];
        });
        const missing = end - memory.buffer.byteLength;
        if (missing > 0) {
            memory.grow(Math.ceil(missing / PAGE));
        }
        const lent = ({ array, start }) => new Uint8Array(memory.buffer, start, array.byteLength);
        slices.forEach((slice) => lent(slice).set(bytesOf(slice.array)));
        const told = proved(...given);
        slices.filter((slice) => slice.back).forEach((slice) => bytesOf(slice.array).set(lent(slice)));
        return told;
    }

    /** Calls a function that answers in so many words: what the first three say, and the others. */
    #ask(name, count, ...parts) {
        const answer = new BigUint64Array(count);
        if (!this.call(name, ...parts, written(answer))) {
            throw new Error(`${name} does not answer in ${count} words: the wasm is of another version`);
        }
        const [given, number, line, ...words] = answer;
        return { given: given === 1n, number: Number(number), line: Number(line), words };
    }

    /** How many words a table has that is long enough for every text. */
    tableWords() {
        return Number(this.call("skumvari_table_words"));
    }

    /** Reads a text into a table; `table` of the answer is the words of it that are used, none where it is refused. */
    intake(text, table = new BigUint64Array(this.tableWords())) {
        const { words, ...told } = this.#ask("skumvari_intake", ANSWER_WORDS, textOf(text), written(tableOf(table)));
        return { ...told, table: table.subarray(0, Number(words[0])) };
    }

    /** Whether a table is sound for a text. */
    sound(text, table) {
        return this.call("skumvari_sound", textOf(text), tableOf(table)) === 1;
    }

    /** One entry of a section's matrix, as its value word; sections count from 0, rows and columns from 1. */
    entry(text, table, section, kind, row, column) {
        const place = [section, kind, row, column];
        const { words, ...told } = this.#ask("skumvari_entry", ANSWER_WORDS, textOf(text), tableOf(table), ...place);
        return { ...told, word: words[0] };
    }

    /** One step from a place in a model's path; a walk starts at { model, step: 0, depth: 0 } and goes on at `next`. */
    walk(text, table, { model, step, depth }) {
        const place = [model, step, depth];
        const { words, ...told } = this.#ask("skumvari_walk", WALK_WORDS, textOf(text), tableOf(table), ...place);
        const [done, kind, target, amount, side, sideLength, stepLine, nextModel, nextStep, nextDepth] = words;
        return {
            ...told,
            done: done === 1n,
            step: { kind, target, amount, side, sideLength, line: stepLine },
            next: { model: nextModel, step: nextStep, depth: nextDepth },
        };
    }

    /** Every entry of a section's matrix of a kind, row by row, with the number of conductors. */
    matrix(text, table, section, kind) {
        const ask = (values) => {
            const parts = [textOf(text), tableOf(table), section, kind, written(values)];
            const { words, ...told } = this.#ask("skumvari_matrix", ANSWER_WORDS, ...parts);
            return { ...told, conductors: Number(words[0]), values };
        };
        const size = ask(new BigUint64Array(0)); // too few values are told by number 0, with the conductors
        return size.number === 0 ? ask(new BigUint64Array(size.conductors ** 2)) : size;
    }

    /** The listing of an accepted text and its table, of which the words are those that are used. */
    listing(text, table) {
        // Where the listing fills its room there may be more, so it is written anew.
        for (let room = BYTES_A_WORD * Math.max(table.length, 1); ; room *= 2) {
            const out = new Uint8Array(room);
            const parts = [textOf(text), tableOf(table), table.length, written(out)];
            const length = Number(this.call("skumvari_list", ...parts));
            if (length < room) {
                return new TextDecoder().decode(out.subarray(0, length));
            }
        }
    }

    /** The double to draw a value word by, or null where it is outside. */
    double(word) {
        const { given, words } = this.#ask("skumvari_double", ANSWER_WORDS, word);
        return given ? doubleOfBits(words[0]) : null;
    }

    /** The doubles of a frequency and a value, or null where either is outside. */
    pair(frequency, value) {
        const { given, words } = this.#ask("skumvari_pair", PAIR_WORDS, frequency, value);
        return given ? words.map(doubleOfBits) : null;
    }
}

function textOf(text) {
    if (!(text instanceof Uint8Array)) {
        throw new TypeError("a text is a Uint8Array");
    }
    return text;
}

function tableOf(table) {
    if (!(table instanceof BigUint64Array)) {
        throw new TypeError("a table is a BigUint64Array");
    }
    return table;
}
