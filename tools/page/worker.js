'use strict';
// The worker: one report of one image in one format, by the proved code. Each has an instance of its own, so that none
// sees another's memory, and all of it is let go.

const FORMATS = { text: 0, json: 1, html: 2 };
const TOO_SMALL = 12;
const ANSWER_BYTES = 32;

const compiled = WebAssembly.compile(Uint8Array.from(atob(MODULE), (letter) => letter.charCodeAt(0)));

// An instance whose memory has grown once to about what the report needs: Firefox moves all of it at each growth.
async function newInstance(imageLength) {
    const instance = await WebAssembly.instantiate(await compiled, {});
    const pages = BigInt(Math.ceil((imageLength * 40 + (1 << 22)) / 65536));
    try {
        instance.exports.memory.grow(pages);
    } catch (fault) {
        // Then it grows as it goes.
    }
    return instance.exports;
}

function take(module, count) {
    const at = module.take(BigInt(count));
    if (at === 0n) {
        throw new RangeError('there is no memory for it');
    }
    return at;
}

// The place and the length of a copy of the bytes in the module's memory.
function lend(module, bytes) {
    const at = take(module, bytes.length);
    new Uint8Array(module.memory.buffer, Number(at), bytes.length).set(bytes);
    return [at, BigInt(bytes.length)];
}

// The answer, as struct oopsbox_report_answer of include/oopsbox.h.
function readAnswer(module, at) {
    const view = new DataView(module.memory.buffer, Number(at), ANSWER_BYTES);
    return {
        hint: Number(view.getBigUint64(0, true)),
        text: Number(view.getBigUint64(8, true)),
        word: Number(view.getBigUint64(16, true)),
        fault: view.getUint32(24, true),
        needed: view.getUint32(28, true),
    };
}

// The report, as { status, answer, bytes }. If there is too little room for the text it is made again.
async function report({ line, name, words, tree, format }, image, room) {
    const module = await newInstance(image.length);
    const encoder = new TextEncoder();
    const given = [encoder.encode(line), encoder.encode(name), encoder.encode(words), tree, image];
    const lent = given.flatMap((bytes) => lend(module, bytes));
    const at = lend(module, new Uint8Array(ANSWER_BYTES))[0];
    const text = take(module, room);
    const status = module.report(...lent, FORMATS[format], text, BigInt(room), at);
    const answer = readAnswer(module, at);
    if (status === TOO_SMALL) {
        return report({ line, name, words, tree, format }, image, answer.text);
    }
    const bytes = new Uint8Array(module.memory.buffer, Number(text), answer.text).slice();
    return { status, answer, bytes };
}

// The content of a record of the line of JSON.
function content(record) {
    if (record.base64 === null) {
        return new TextEncoder().encode(record.text);
    }
    return Uint8Array.from(atob(record.base64), (letter) => letter.charCodeAt(0));
}

// What the page shows of a line of JSON: why the machine died, and the records with their bytes.
function told(bytes) {
    const { death, records } = JSON.parse(new TextDecoder().decode(bytes));
    return { death, records: records.map((it) => ({ name: it.name, time: it.time, bytes: content(it) })) };
}

async function answerTo(asked) {
    const begun = performance.now();
    const image = new Uint8Array(await asked.file.arrayBuffer());
    const made = await report(asked, image, (1 << 20) + 2 * image.length);
    const took = performance.now() - begun;
    const isTold = asked.format === 'json' && made.status === 0;
    return { ...made, size: image.length, took, told: isTold ? told(made.bytes.subarray(made.answer.hint)) : null };
}

onmessage = async ({ data: { id, asked } }) => {
    try {
        const made = await answerTo(asked);
        postMessage({ id, made }, [made.bytes.buffer]);
    } catch (fault) {
        postMessage({ id, fault: fault.message });
    }
};
