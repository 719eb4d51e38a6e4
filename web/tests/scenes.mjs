// Random scenes of checks/many-scenes: the verdict of each object in each frame, by the calls in whole numbers, has to
// be the one in the program's report.
import assert from 'node:assert/strict';
import { spawn } from 'node:child_process';
import { fileURLToPath } from 'node:url';
import { Calls, NARROW, OCCLUDED, OUTSIDE, VISIBLE, WIDE } from '../maskcull.js';
import { module } from './module.mjs';

const WORDS = { [VISIBLE]: 'visible', [OCCLUDED]: 'occluded', [OUTSIDE]: 'outside' };
const HEADER_BYTES = 32, BATCH_BYTES = 5, OBJECT_BYTES = 25;
const RECTANGLE = 0, BOX = 1;
const MOST = 0x7fffffff; // past the guard, as all beyond it
const WRITERS = 4;

/** The parts of a scene; docs/FORMAT.md has the table of offsets. */
function sceneOf(bytes) {
    const short = (offset) => bytes.readUInt16LE(offset), counts = [16, 20, 24, 28].map((at) => bytes.readUInt32LE(at));
    const isSecond = short(4) === 2, batchCount = isSecond ? bytes.readUInt32LE(HEADER_BYTES) : 0;
    let end = HEADER_BYTES + (isSecond ? 4 : 0);
    const numbers = (type, count) => {
        end += 4 * count;
        return new type(Uint8Array.from(bytes.subarray(end - 4 * count, end)).buffer);
    };
    const vertices = numbers(Int32Array, 3 * counts[0]);
    const occluders = numbers(Uint32Array, 3 * counts[1]), firstBatch = end;
    end += BATCH_BYTES * batchCount;
    const batches = isSecond ? Array.from({ length: batchCount }, (_, k) => {
        const at = firstBatch + BATCH_BYTES * k;
        return { count: bytes.readUInt32LE(at), winding: bytes[at + 4] };
    }) : [{ count: counts[1], winding: bytes[12] }];
    const meshes = numbers(Uint32Array, 3 * counts[2]);
    const objects = Array.from({ length: counts[3] }, (_, k) => {
        const at = end + OBJECT_BYTES * k;
        return { kind: bytes[at], numbers: [0, 1, 2, 3, 4, 5].map((number) => bytes.readInt32LE(at + 1 + 4 * number)) };
    });
    end += OBJECT_BYTES * counts[3];
    const cameras = Array.from({ length: short(14) }, () => numbers(Int32Array, 12));
    assert.equal(end, bytes.length);
    const screen = { width: short(6), height: short(8), near: short(10), grade: bytes[13] ? WIDE : NARROW };
    return { screen, vertices, occluders, batches, meshes, objects, cameras };
}

/** x, y and w of vertices as a camera sees them: whole numbers below 2^53, and then of 32 bits. */
function clipsOf(vertices, camera) {
    return Int32Array.from(vertices, (_, k) => {
        const [a, b, c, d] = camera.subarray(4 * (k % 3)), first = k - k % 3;
        const sum = a * vertices[first] + b * vertices[first + 1] + c * vertices[first + 2];
        return Math.max(-MOST, Math.min(MOST, Math.floor(sum / 65536) + d));
    });
}

function cornersOf([x0, y0, z0, x1, y1, z1]) {
    return [0, 1, 2, 3, 4, 5, 6, 7].flatMap((k) => [k & 1 ? x1 : x0, k & 2 ? y1 : y0, k & 4 ? z1 : z0]);
}

function verdictOf(calls, { kind, numbers }, clips, meshes, camera) {
    if (kind === RECTANGLE) return calls.test(...numbers.slice(0, 5));
    if (kind === BOX) return calls.testBox(clipsOf(cornersOf(numbers), camera));
    return calls.testMesh(clips, meshes.subarray(3 * numbers[0], 3 * (numbers[0] + numbers[1])));
}

async function linesOf(scene) {
    const calls = await Calls.make(module, scene.screen);
    return scene.cameras.flatMap((camera) => {
        const clips = clipsOf(scene.vertices, camera);
        calls.clear();
        let first = 0;
        for (const { count, winding } of scene.batches) {
            calls.setWinding(winding);
            calls.draw(clips, scene.occluders.subarray(3 * first, 3 * (first + count)));
            first += count;
        }
        return scene.objects.map((object, k) => `${k} ${WORDS[verdictOf(calls, object, clips, scene.meshes, camera)]}`);
    });
}

/** What the script writes, part by part. */
async function* partsFrom(stream) {
    let bytes = Buffer.alloc(0);
    for await (const more of stream) {
        bytes = Buffer.concat([bytes, more]);
        while (bytes.length >= 4 && bytes.length >= 4 + bytes.readUInt32LE(0)) {
            const end = 4 + bytes.readUInt32LE(0);
            yield bytes.subarray(4, end);
            bytes = bytes.subarray(end);
        }
    }
    assert.equal(bytes.length, 0, 'the last part is cut off');
}

/** Compares so many scenes from a seed on, and counts their verdicts. */
async function compare(program, count, seed, counts) {
    const script = fileURLToPath(new URL('scenes.py', import.meta.url));
    const words = [script, program, String(count), String(seed)];
    const writer = spawn('python3', words, { stdio: ['ignore', 'pipe', 'inherit'] });
    let scene = null, agreeing = 0;
    for await (const part of partsFrom(writer.stdout)) {
        if (scene === null) {
            scene = sceneOf(part);
            continue;
        }
        const expected = part.toString().split('\n').filter((line) => /^\d+ [a-z]+$/.test(line));
        assert.deepEqual(await linesOf(scene), expected, `the scene of seed ${seed + agreeing}`);
        for (const line of expected) counts[line.split(' ')[1]]++;
        agreeing++;
        scene = null;
    }
    assert.equal(agreeing, count);
}

/** Compares so many scenes, which some processes write side by side. */
export async function checkScenes(program, count) {
    const counts = { visible: 0, occluded: 0, outside: 0 }, share = Math.ceil(count / WRITERS), writers = [];
    for (let first = 0; first < count; first += share) {
        writers.push(compare(program, Math.min(share, count - first), 1 + first, counts));
    }
    await Promise.all(writers);
    console.log(`${count} random scenes: each verdict is the program's, `
        + Object.entries(counts).map(([word, number]) => `${number} ${word}`).join(', '));
}
