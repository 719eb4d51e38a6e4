// Bad input of each kind gets its sentence, and leaves what was drawn; what is no number takes the safe way.
import assert from 'node:assert/strict';
import fs from 'node:fs';
import { Calls, Frame, MaskcullError, OCCLUDED, OUTSIDE, VISIBLE, loadModule } from '../maskcull.js';
import { CLIP_FROM_VIEW, bytes, module, withMemories } from './module.mjs';

const SCREEN = { width: 64, height: 32, near: 1 };
const WALL = Float32Array.of(-9, -9, 3, 9, -9, 3, 9, 9, 3, -9, 9, 3), QUAD = Uint16Array.of(0, 1, 2, 0, 2, 3);
const BEHIND = [-1, -1, 5, 1, 1, 6], BEFORE = [-1, -1, 2, 1, 1, 2.5], BESIDE = [50, -1, 5, 51, 1, 6];

/** The module, with a memory that may not grow: a most is set behind its least in the section of memories. */
function withFullMemory() {
    let section = 8;
    const numberAt = (place) => {
        let number = 0, shift = 0, byte;
        do {
            byte = bytes[place++];
            number |= (byte & 127) << shift;
            shift += 7;
        } while (byte & 128);
        return [number, place];
    };
    for (;;) {
        const [length, body] = numberAt(section + 1);
        if (bytes[section] === 5) {
            const least = bytes.subarray(body + 2, body + length);
            const limits = [bytes[body], bytes[body + 1] | 1, ...least, ...least];
            assert([0, 4].includes(bytes[body + 1])); // 32 or 64 bits, no most
            return Buffer.concat([bytes.subarray(0, section + 1), Buffer.of(limits.length, ...limits),
                bytes.subarray(body + length)]);
        }
        section = body + length;
    }
}

/** Loads the module with a 64-bit memory in an engine that has none. */
const beWithoutLargeMemories = () => withMemories(false,
    () => loadModule(fs.readFileSync(new URL('../out/maskcull.wasm', import.meta.url))));

function drawnFrame() {
    return Frame.make(module, SCREEN).then((frame) => {
        frame.draw(WALL, QUAD, CLIP_FROM_VIEW);
        return frame;
    });
}

const make = (more) => Frame.make(module, { ...SCREEN, ...more });
const makeCalls = (more) => Calls.make(module, { ...SCREEN, ...more });

// What is tried, on a frame on which a wall is drawn, by the kind of error that has to come.
const ATTEMPTS = {
    engine: [beWithoutLargeMemories],
    module: [
        () => loadModule(Uint8Array.of(1, 2, 3)),
        () => withMemories(false, () => loadModule(Uint8Array.of(1, 2, 3))),
        () => withMemories(false, () => loadModule(bytes.subarray(0, 100))),
        () => loadModule('http://127.0.0.1:1/none.wasm'),
        async () => Frame.make(await WebAssembly.compile(Uint8Array.of(0, 0x61, 0x73, 0x6d, 1, 0, 0, 0)), SCREEN),
        () => Frame.make(undefined, SCREEN),
    ],
    memory: [
        async () => Frame.make(await loadModule(withFullMemory()), { width: 2048, height: 2048, near: 1 }),
        async () => {
            const frame = await Frame.make(await loadModule(withFullMemory()), SCREEN);
            frame.draw(new Float32Array(3 * 262144), QUAD, CLIP_FROM_VIEW);
        },
    ],
    screen: [
        ...[60, 0, -8, 2056, 64.5, NaN, 2 ** 32 + 64, undefined].map((width) => () => make({ width })),
        ...[30, 0, 2052, Infinity].map((height) => () => make({ height })),
    ],
    near: [
        ...[0, -1, NaN, Infinity, undefined].map((near) => () => make({ near })),
        ...[0, 1.5, 1025, NaN].map((near) => () => makeCalls({ near })),
    ],
    winding: [
        ...[3, -1, NaN].map((winding) => () => make({ winding })),
        ...[16, undefined].map((winding) => (frame) => frame.calls.setWinding(winding)),
    ],
    grade: [1, 32, NaN].map((grade) => () => makeCalls({ near: 16, grade })),
    array: [
        (frame) => frame.draw([...WALL], QUAD, CLIP_FROM_VIEW),
        (frame) => frame.draw(WALL.subarray(1), QUAD, CLIP_FROM_VIEW),
        (frame) => frame.draw(WALL, Int32Array.of(0, 1, 2), CLIP_FROM_VIEW),
        (frame) => frame.draw(WALL, QUAD.subarray(1), CLIP_FROM_VIEW),
        (frame) => frame.draw(WALL, QUAD, CLIP_FROM_VIEW.slice(1)),
        (frame) => frame.draw(WALL, QUAD),
        (frame) => frame.testMesh(WALL, null, CLIP_FROM_VIEW),
        (frame) => frame.testBox([1, 2, 3], CLIP_FROM_VIEW),
        (frame) => frame.testBoxes(Float32Array.of(1, 2, 3), CLIP_FROM_VIEW),
        (frame) => frame.testBoxes(Float32Array.from([...BEHIND, ...BEHIND]), CLIP_FROM_VIEW, new Uint8Array(1)),
        (frame) => frame.calls.draw(WALL, Uint32Array.from(QUAD)),
        (frame) => frame.calls.testBox(new Int32Array(21)),
    ],
    index: [
        (frame) => frame.draw(WALL, Uint16Array.of(0, 1, 4), CLIP_FROM_VIEW),
        (frame) => frame.testMesh(WALL, Uint32Array.of(0, 1, 2, 2 ** 32 - 1, 0, 1), CLIP_FROM_VIEW),
        (frame) => frame.calls.draw(new Int32Array(9), Uint32Array.of(0, 1, 3)),
        (frame) => frame.calls.testMesh(new Int32Array(9), Uint32Array.of(0, 1, 3)),
    ],
    number: [
        ...[[0.5, 0, 1, 1, 9], [0, NaN, 1, 1, 9], [0, 0, 2 ** 31, 1, 9], [0, 0, 1, 1, 1e10]].map((area) =>
            (frame) => frame.calls.test(...area)),
        ...[3, -1, 0.5, NaN].map((count) => (frame) => {
            frame.calls.room(9, 2);
            frame.calls.drawRoom(count);
        }),
    ],
};

export async function checkFaults() {
    const frame = await drawnFrame(), tiles = frame.calls.tiles(), sentences = [];
    for (const [kind, attempts] of Object.entries(ATTEMPTS)) {
        for (const attempt of attempts) {
            const error = await Promise.resolve(frame).then(attempt).then(() => null, (reason) => reason);
            assert(error instanceof MaskcullError, `${attempt} gives ${error}`);
            assert.equal(error.kind, kind);
            assert.match(error.message, /^[A-Z].*\.$/s);
            sentences.push(error.message);
        }
    }
    assert.deepEqual(frame.calls.tiles(), tiles);
    assert.equal(frame.testBox(BEHIND, CLIP_FROM_VIEW), OCCLUDED);
    const kinds = Object.keys(ATTEMPTS).length;
    console.log(`${sentences.length} faults of ${kinds} kinds get a sentence each`);
}

const inEachPlace = (...numbers) => numbers.flatMap((number) => [0, 1, 2].map((place) => [number, place]));

function checkObjects(frame) {
    assert.equal(frame.testBox(BEHIND, CLIP_FROM_VIEW), OCCLUDED);
    assert.equal(frame.testBox(BEFORE, CLIP_FROM_VIEW), VISIBLE);
    assert.equal(frame.testBox(BESIDE, CLIP_FROM_VIEW), OUTSIDE);
    assert.equal(frame.testBox([-1, -1, -6, 1, 1, -5], CLIP_FROM_VIEW), OUTSIDE); // behind the eye
    assert.equal(frame.testBox([-1, -1, 0.1, 1, 1, 0.9], CLIP_FROM_VIEW), VISIBLE); // before the near distance
    assert.equal(frame.testBox([-1, -1, 5, 1, 1, 1e30], CLIP_FROM_VIEW), OCCLUDED); // as far as you like
    const behind = Float32Array.of(-1, -1, 5, 1, -1, 5, 1, 1, 6);
    assert.equal(frame.testMesh(behind, QUAD.subarray(0, 3), CLIP_FROM_VIEW), OCCLUDED);
    assert.equal(frame.testMesh(behind, QUAD.subarray(0, 0), CLIP_FROM_VIEW), OUTSIDE);
    for (const [wrong, place] of inEachPlace(NaN, Infinity, -Infinity)) {
        for (const box of [BEHIND, BESIDE]) {
            assert.equal(frame.testBox(box.with(place, wrong), CLIP_FROM_VIEW), VISIBLE);
        }
        assert.equal(frame.testMesh(behind.with(3 + place, wrong), QUAD.subarray(0, 3), CLIP_FROM_VIEW), VISIBLE);
        assert.equal(frame.testBox(BEHIND, CLIP_FROM_VIEW.with(0, wrong)), VISIBLE);
    }
    // in parallel w is 1 everywhere, so nothing is behind anything
    assert.equal(frame.testBox(BEHIND, [1, 0, 0, 0, 0, 1, 0, 0, 0, 0, 0, 0, 0, 0, 0, 1]), VISIBLE);
}

function checkOccluders(frame) {
    for (const [wrong, place] of inEachPlace(NaN, Infinity, -Infinity, 1e9)) {
        frame.clear();
        frame.draw(WALL.with(place, wrong), QUAD, CLIP_FROM_VIEW); // the vertex of both triangles
        assert(frame.calls.tiles().every((number) => number === 0), `a corner with ${wrong} is drawn`);
    }
    frame.draw(WALL, QUAD, CLIP_FROM_VIEW.with(0, NaN));
    assert(frame.calls.tiles().every((number) => number === 0));
}

async function checkWindings() {
    for (const [winding, verdict] of [[0, OCCLUDED], [1, OCCLUDED], [2, VISIBLE]]) {
        const frame = await make({ winding });
        frame.draw(WALL, QUAD, CLIP_FROM_VIEW); // counterclockwise on the screen
        assert.equal(frame.testBox(BEHIND, CLIP_FROM_VIEW), verdict);
    }
}

export async function checkSafety() {
    const frame = await drawnFrame();
    checkObjects(frame);
    checkOccluders(frame);
    await checkWindings();
    console.log('what is no number is visible as an object, and not drawn as an occluder');
}
