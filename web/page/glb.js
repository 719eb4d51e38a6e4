// Reads the triangles of a glb, a glTF 2.0 file in one piece: positions and indices of each mesh, where its nodes put
// it. Colours, pictures, skins and movement are passed over.
import { KEEPS_BOTH } from '../maskcull.js';

const MAGIC = 0x46546c67, JSON_CHUNK = 0x4e4f534a, BINARY_CHUNK = 0x004e4942;
const TRIANGLES = 4;
const INDEX_TYPES = { 5121: Uint8Array, 5123: Uint16Array, 5125: Uint32Array };
const FLOAT = 5126;
const UNIT_MATRIX = [1, 0, 0, 0, 0, 1, 0, 0, 0, 0, 1, 0, 0, 0, 0, 1];

/** A glb that can't be read, in a sentence. */
export class GlbError extends Error {}

function demand(isSo, sentence) {
    if (!isSo) throw new GlbError(sentence);
}

/** The description and the bytes that it speaks of. */
function chunksOf(file) {
    const view = new DataView(file);
    demand(file.byteLength >= 20 && view.getUint32(0, true) === MAGIC, 'This file isn\'t a glb.');
    demand(view.getUint32(4, true) === 2, 'This glb has another version than 2.');
    const chunks = {};
    for (let at = 12; at + 8 <= file.byteLength;) {
        const length = view.getUint32(at, true), kind = view.getUint32(at + 4, true);
        demand(at + 8 + length <= file.byteLength, 'This glb is cut off.');
        chunks[kind] ??= file.slice(at + 8, at + 8 + length);
        at += 8 + length;
    }
    demand(chunks[JSON_CHUNK], 'This glb has no description.');
    const description = JSON.parse(new TextDecoder().decode(chunks[JSON_CHUNK]));
    const wanted = description.extensionsRequired ?? [];
    demand(wanted.length === 0, `This glb requires ${wanted.join(' and ')}, which this page can't read.`);
    return { description, binary: chunks[BINARY_CHUNK] ?? new ArrayBuffer(0) };
}

/** The numbers of an accessor, so many for each element. */
function numbersOf({ description, binary }, number, each, types) {
    const accessor = description.accessors?.[number], type = types[accessor?.componentType];
    const source = description.bufferViews?.[accessor?.bufferView];
    demand(type && source && !accessor.sparse, 'This glb has numbers of a kind that this page can\'t read.');
    const stride = source.byteStride ?? each * type.BYTES_PER_ELEMENT, bytes = each * type.BYTES_PER_ELEMENT;
    const first = (source.byteOffset ?? 0) + (accessor.byteOffset ?? 0);
    demand(first + stride * (accessor.count - 1) + bytes <= binary.byteLength, 'This glb lacks bytes that it names.');
    const numbers = new type(each * accessor.count);
    for (let k = 0; k < accessor.count; k++) {
        numbers.set(new type(binary.slice(first + stride * k, first + stride * k + bytes)), each * k);
    }
    return numbers;
}

/** The matrix that does what `second` does and then what `first` does, column by column. */
function product(first, second) {
    return UNIT_MATRIX.map((_, k) => {
        const row = k % 4, column = k - row;
        return [0, 1, 2, 3].reduce((sum, i) => sum + first[row + 4 * i] * second[column + i], 0);
    });
}

function matrixOf({ matrix, translation = [0, 0, 0], rotation = [0, 0, 0, 1], scale = [1, 1, 1] }) {
    if (matrix) return matrix;
    const [x, y, z, w] = rotation, [across, up, along] = scale;
    return [
        (1 - 2 * (y * y + z * z)) * across, 2 * (x * y + z * w) * across, 2 * (x * z - y * w) * across, 0,
        2 * (x * y - z * w) * up, (1 - 2 * (x * x + z * z)) * up, 2 * (y * z + x * w) * up, 0,
        2 * (x * z + y * w) * along, 2 * (y * z - x * w) * along, (1 - 2 * (x * x + y * y)) * along, 0,
        ...translation, 1,
    ];
}

function moved(positions, matrix) {
    return positions.map((_, k) => {
        const row = k % 3, [x, y, z] = positions.subarray(k - row);
        return matrix[row] * x + matrix[4 + row] * y + matrix[8 + row] * z + matrix[12 + row];
    });
}

function boundsOf(positions) {
    const bounds = [Infinity, Infinity, Infinity, -Infinity, -Infinity, -Infinity];
    positions.forEach((number, k) => {
        bounds[k % 3] = Math.min(bounds[k % 3], number);
        bounds[3 + k % 3] = Math.max(bounds[3 + k % 3], number);
    });
    return bounds;
}

function objectOf(glb, primitive, matrix) {
    const positions = moved(numbersOf(glb, primitive.attributes.POSITION, 3, { [FLOAT]: Float32Array }), matrix);
    const vertexCount = positions.length / 3;
    const indices = primitive.indices === undefined
        ? Uint32Array.from({ length: vertexCount }, (_, k) => k)
        : Uint32Array.from(numbersOf(glb, primitive.indices, 1, INDEX_TYPES));
    const past = indices.find((index) => index >= vertexCount);
    demand(past === undefined, `This glb has an index ${past} past the end of ${vertexCount} vertices.`);
    const whole = indices.subarray(0, indices.length - indices.length % 3);
    return { bounds: boundsOf(positions), positions, indices: whole, occluder: { positions, indices: whole } };
}

function addNode(glb, number, above, objects) {
    const node = glb.description.nodes[number], matrix = product(above, matrixOf(node));
    for (const primitive of glb.description.meshes?.[node.mesh]?.primitives ?? []) {
        const isMesh = (primitive.mode ?? TRIANGLES) === TRIANGLES && primitive.attributes.POSITION !== undefined;
        if (isMesh) objects.push(objectOf(glb, primitive, matrix));
    }
    for (const child of node.children ?? []) addNode(glb, child, matrix, objects);
}

/** Around a place, and a little above it. */
function circlePath([x, y, z], radius) {
    return Array.from({ length: 24 }, (_, k) => {
        const turn = 2 * Math.PI * k / 24;
        return [x + radius * Math.cos(turn), y + 0.2 * radius, z + radius * Math.sin(turn)];
    });
}

/** The scene in a glb. What can't be read is a GlbError. */
export function sceneOf(file, name) {
    const glb = chunksOf(file), objects = [], { description } = glb;
    const roots = description.scenes?.[description.scene ?? 0]?.nodes ?? description.nodes?.map((_, k) => k) ?? [];
    for (const root of roots) addNode(glb, root, UNIT_MATRIX, objects);
    demand(objects.length > 0, 'This glb has no triangles.');
    const whole = boundsOf(Float32Array.from(objects.flatMap(({ bounds }) => bounds)));
    const size = Math.hypot(...[0, 1, 2].map((axis) => whole[axis + 3] - whole[axis]));
    demand(size > 0 && size < Infinity, 'This glb has no extent.');
    const middle = [0, 1, 2].map((axis) => (whole[axis] + whole[axis + 3]) / 2), path = circlePath(middle, 0.6 * size);
    const ground = { positions: new Float32Array(0), indices: [] }, speed = size / 20;
    return { name, near: size / 1000, far: 4 * size, winding: KEEPS_BOTH, objects, ground, path, middle, speed };
}
