// The calls of include/maskcull.h in a browser, in whole numbers. They run in a WebAssembly module that is proved as
// they are. No proof covers this file, which is the module's host: it keeps the tiles, and what is passed, in the
// module's memory, and throws errors that say in a sentence what is wrong.

/** Verdicts: not hidden, or it can't be told; hidden; not on the screen. */
export const VISIBLE = 16;
export const OCCLUDED = 17;
export const OUTSIDE = 18;

/** Windings: which occluder triangles aren't drawn, by how they run on the screen. */
export const KEEPS_BOTH = 0;
export const DROPS_CLOCKWISE = 1;
export const DROPS_COUNTERCLOCKWISE = 2;

/** Grades: whether nearness goes to 65535 or to 16777215, and so how finely distances are told apart. */
export const NARROW = 0;
export const WIDE = 16;

/**
 * What is wrong, in a sentence. Its kind is 'engine', 'module', 'memory', 'screen', 'near', 'winding', 'grade',
 * 'array', 'index' or 'number'.
 */
export class MaskcullError extends Error {
    /**
     * @param {string} kind
     * @param {string} sentence
     */
    constructor(kind, sentence) {
        super(sentence);
        this.name = 'MaskcullError';
        this.kind = kind;
    }
}

// The least module with a 64-bit memory.
const WITH_LARGE_MEMORY = Uint8Array.of(0, 0x61, 0x73, 0x6d, 1, 0, 0, 0, 5, 3, 1, 4, 1);
const SECTIONS = 8, MEMORIES = 5, IS_LARGE = 4;

const hasLargeMemories = () => typeof WebAssembly === 'object' && WebAssembly.validate(WITH_LARGE_MEMORY);

/**
 * Whether bytes are a module with a 64-bit memory, as a flag in its section of memories says.
 * @param {Uint8Array} bytes
 */
function needsLargeMemory(bytes) {
    let place = SECTIONS;
    const next = () => {
        let number = 0, scale = 1, byte;
        do {
            byte = bytes[place++] ?? 0;
            number += (byte & 127) * scale;
            scale *= 128;
        } while (byte & 128);
        return number;
    };
    while (place < bytes.length) {
        const section = next(), length = next();
        if (section === MEMORIES) return next() > 0 && (next() & IS_LARGE) !== 0;
        place += length;
    }
    return false;
}

/** @param {Uint8Array} bytes */
function demandEngine(bytes) {
    if (hasLargeMemories() || (typeof WebAssembly === 'object' && !needsLargeMemory(bytes))) return;
    throw new MaskcullError('engine', 'This browser has no 64-bit memories for WebAssembly, which this module needs: '
        + 'Chrome and Edge have them from version 133 on, Firefox from 134. Others run out/maskcull32.wasm.');
}

/** @param {string | URL} place */
async function bytesAt(place) {
    const answer = await fetch(place).catch((error) => {
        throw new MaskcullError('module', `The module at ${place} can't be loaded: ${error.message}.`);
    });
    if (answer.ok) return answer.arrayBuffer();
    throw new MaskcullError('module', `The module at ${place} can't be loaded, the server answers ${answer.status}: `
        + '`web/build` makes the one with a 64-bit memory, `web/build simd` that for other browsers too.');
}

/**
 * Compiles the module, from its address or its bytes. Once is enough for any number of frames.
 * @param {string | URL | BufferSource} [source] if it is left out, out/maskcull.wasm beside this file, or where the
 *     browser has no 64-bit memories out/maskcull32.wasm
 * @returns {Promise<WebAssembly.Module>}
 */
export async function loadModule(source) {
    const place = source ?? new URL(`out/maskcull${hasLargeMemories() ? '' : '32'}.wasm`, import.meta.url);
    const bytes = typeof place === 'string' || place instanceof URL ? await bytesAt(place) : place;
    demandEngine(ArrayBuffer.isView(bytes) ? new Uint8Array(bytes.buffer, bytes.byteOffset, bytes.byteLength)
        : new Uint8Array(bytes));
    return WebAssembly.compile(bytes).catch((error) => {
        throw new MaskcullError('module', `This isn't a module of WebAssembly: ${error.message}.`);
    });
}

/**
 * @param {WebAssembly.Module} module
 * @returns {Promise<any>}
 */
export async function start(module) {
    const { exports } = await WebAssembly.instantiate(module, {}).catch((error) => {
        throw error instanceof RangeError
            ? new MaskcullError('memory', `No memory is left for the module: ${error.message}.`)
            : new MaskcullError('module', `This isn't the module of maskcull: ${error.message}.`);
    });
    if (exports.maskcull_draw && exports.memory && exports.__heap_base) return exports;
    throw new MaskcullError('module', 'This isn\'t the module of maskcull: it lacks its calls.');
}

/** @param {number} number */
const isWhole = (number) => (number | 0) === number;

/**
 * How many elements of so many numbers an array has.
 * @param {string} name
 * @param {any} array
 * @param {Function[]} types
 * @param {number} each
 */
export function countOf(name, array, types, each) {
    if (!types.some((type) => array instanceof type)) {
        throw new MaskcullError('array', `The ${name} have to be ${types.map((type) => type.name).join(' or ')}.`);
    }
    if (array.length % each === 0) return array.length / each;
    throw new MaskcullError('array', `The ${name} are ${array.length} numbers, which is no multiple of ${each}.`);
}

/**
 * @param {ArrayLike<number>} indices
 * @param {number} vertexCount
 */
export function demandAmong(indices, vertexCount) {
    for (let k = 0; k < indices.length; k++) {
        if (indices[k] < vertexCount) continue;
        throw new MaskcullError('index', `Index ${indices[k]}, the one at place ${k}, is past the end: there are `
            + `${vertexCount} vertices, numbered from 0.`);
    }
}

const PAGE = 65536;
const SETUP_BYTES = 16;
const BOX_BYTES = 96;
const SUBTILE_BYTES = 16;
const TILE_BYTES = 100;
const VERTEX_BYTES = 12;
const TRIANGLE_BYTES = 12;
const DONE = 0;
const BAD_INDEX = 3;

/**
 * Newer engines count the pages of a 64-bit memory by BigInt, older ones by Number.
 * @param {WebAssembly.Memory} memory
 * @param {number} pages
 */
export function growBy(memory, pages) {
    try {
        memory.grow(/** @type {any} */ (BigInt(pages)));
    } catch (error) {
        if (!(error instanceof TypeError)) throw error;
        memory.grow(pages);
    }
}

/** The module's memory as numbers of 32 bits. It grows when more is needed. */
class Words {
    /** @param {WebAssembly.Memory} memory */
    constructor(memory) {
        this.memory = memory;
        this.signed = new Int32Array(memory.buffer);
        this.unsigned = new Uint32Array(memory.buffer);
    }

    /** @param {number} end the address before which there have to be bytes */
    reach(end) {
        const size = this.memory.buffer.byteLength;
        if (end <= size) return;
        try {
            growBy(this.memory, Math.ceil((end - size) / PAGE));
        } catch {
            const [has, needs] = [size, end].map((bytes) => (bytes / 1e6).toFixed(1));
            throw new MaskcullError('memory', `The module's memory is full: it has ${has} MB, and it needs ${needs}.`);
        }
        // The old views have no memory any more.
        this.signed = new Int32Array(this.memory.buffer);
        this.unsigned = new Uint32Array(this.memory.buffer);
    }
}

/**
 * A screen in pixels, its near distance, which triangles aren't drawn on it, and its grade.
 * @typedef {{ width: number, height: number, near: number, winding?: number, grade?: number }} Screen
 */

/** @param {number} winding */
function demandWinding(winding) {
    if ([KEEPS_BOTH, DROPS_CLOCKWISE, DROPS_COUNTERCLOCKWISE].includes(winding)) return;
    throw new MaskcullError('winding', `There is no winding ${winding}: it is 0, 1 or 2.`);
}

/**
 * @param {any} exports
 * @param {Screen} screen
 */
function demandSetup(exports, { width, height, near, winding = KEEPS_BOTH, grade = NARROW }) {
    if (!isWhole(width) || !isWhole(height) || exports.maskcull_tile_count(width, height) === 0) {
        throw new MaskcullError('screen', `A screen of ${width} by ${height} pixels can't be: the width is a multiple `
            + 'of 8 and the height one of 4, each above 0 and up to 2048.');
    }
    if (!isWhole(near) || near < 1 || near > 1024) {
        throw new MaskcullError('near', `A near distance of ${near} can't be: it is a whole number from 1 to 1024.`);
    }
    demandWinding(winding);
    if (![NARROW, WIDE].includes(grade)) {
        throw new MaskcullError('grade', `There is no grade ${grade}: it is 0 or 16.`);
    }
}

/**
 * The calls of maskcull.h for one screen, on tiles in a memory of its own. Numbers are as maskcull.h has them: x, y and
 * w of vertices in clip space, in a unit of your own, of which the near distance has from 1 to 1024.
 */
export class Calls {
    #exports;
    #words;
    // Where in the memory things lie. Calls take numbers of 64 bits as BigInt.
    #asked;
    #held;
    #tiles;
    #room;
    #setupAndTiles;
    #askedAt;
    #grade;
    // How many vertices and triangles there is room for.
    #vertexCount = 0;
    #triangleCount = 0;

    /**
     * @param {WebAssembly.Module} module
     * @param {Screen} screen
     */
    static async make(module, screen) {
        return new Calls(await start(module), screen);
    }

    /**
     * @param {any} exports of an instance of the module that nobody else uses
     * @param {Screen} screen
     */
    constructor(exports, screen) {
        demandSetup(exports, screen);
        const { width, height, near, winding = KEEPS_BOTH, grade = NARROW } = screen;
        // The module's own data end at __heap_base. After them lie the setup, what is tested, a subtile that is
        // answered, the tiles, and room for the vertices and triangles of a call.
        const setup = Math.ceil(Number(exports.__heap_base.value) / 16) * 16;
        this.width = width;
        this.height = height;
        this.tileCount = exports.maskcull_tile_count(width, height);
        this.#exports = exports;
        this.#words = new Words(exports.memory);
        this.#asked = setup + SETUP_BYTES;
        this.#held = this.#asked + BOX_BYTES;
        this.#tiles = this.#held + SUBTILE_BYTES;
        this.#room = this.#tiles + TILE_BYTES * this.tileCount;
        this.#setupAndTiles = [setup, this.#tiles, this.tileCount].map(BigInt);
        this.#askedAt = BigInt(this.#asked);
        this.#words.reach(this.#room);
        this.#grade = grade;
        this.#words.unsigned.set([width, height, near, winding + grade], setup / 4);
        this.clear();
    }

    /**
     * Sets which occluder triangles aren't drawn from now on.
     * @param {number} winding
     */
    setWinding(winding) {
        demandWinding(winding);
        this.#words.unsigned[Number(this.#setupAndTiles[0]) / 4 + 3] = winding + this.#grade;
    }

    /** Empties all tiles. */
    clear() {
        this.#exports.maskcull_clear(...this.#setupAndTiles.slice(1));
    }

    /**
     * Room in the module's memory for vertices and triangles. It is valid until room is made again, also by a draw or
     * by a test of a mesh.
     * @param {number} vertexCount
     * @param {number} triangleCount
     */
    room(vertexCount, triangleCount) {
        this.#vertexCount = vertexCount;
        this.#triangleCount = triangleCount;
        const triangles = this.#room + VERTEX_BYTES * vertexCount;
        const end = triangles + TRIANGLE_BYTES * triangleCount;
        this.#words.reach(end);
        return {
            vertices: this.#words.signed.subarray(this.#room / 4, triangles / 4),
            triangles: this.#words.unsigned.subarray(triangles / 4, end / 4),
        };
    }

    /**
     * Draws the first triangleCount triangles of the room that was made last.
     * @param {number} triangleCount
     */
    drawRoom(triangleCount) {
        if (!isWhole(triangleCount) || triangleCount < 0 || triangleCount > this.#triangleCount) {
            throw new MaskcullError('number', `There is room for ${this.#triangleCount} triangles, and not for `
                + `${triangleCount}.`);
        }
        this.#withRoom(this.#exports.maskcull_draw, triangleCount);
    }

    /**
     * Draws occluder triangles, after all that were drawn before.
     * @param {Int32Array} vertices x, y and w of each
     * @param {Uint32Array} triangles the numbers of three vertices each
     */
    draw(vertices, triangles) {
        this.drawRoom(this.#place(vertices, triangles));
    }

    /**
     * The verdict of the pixels from (x0, y0) to before (x1, y1) at distance w.
     * @param {number} x0
     * @param {number} y0
     * @param {number} x1
     * @param {number} y1
     * @param {number} w
     * @returns {number}
     */
    test(x0, y0, x1, y1, w) {
        if (!(isWhole(x0) && isWhole(y0) && isWhole(x1) && isWhole(y1) && isWhole(w))) {
            throw new MaskcullError('number', 'An area and its distance have to be whole numbers of 32 bits.');
        }
        const { signed } = this.#words;
        const place = this.#asked / 4;
        signed[place] = x0;
        signed[place + 1] = y0;
        signed[place + 2] = x1;
        signed[place + 3] = y1;
        const [setupAt, tilesAt, tileCount] = this.#setupAndTiles;
        return this.#exports.maskcull_test(setupAt, tilesAt, tileCount, this.#askedAt, w);
    }

    /**
     * The verdict of a box.
     * @param {Int32Array} corners x, y and w of its eight corners
     * @returns {number}
     */
    testBox(corners) {
        const count = countOf('corners', corners, [Int32Array], 3);
        if (count !== 8) throw new MaskcullError('array', `A box has eight corners, and this one ${count}.`);
        this.#words.signed.set(corners, this.#asked / 4);
        return this.#exports.maskcull_test_box(...this.#setupAndTiles, this.#askedAt);
    }

    /**
     * The verdict of a mesh.
     * @param {Int32Array} vertices x, y and w of each
     * @param {Uint32Array} triangles the numbers of three vertices each
     * @returns {number}
     */
    testMesh(vertices, triangles) {
        return this.#withRoom(this.#exports.maskcull_test_mesh, this.#place(vertices, triangles));
    }

    /**
     * What a subtile of a tile holds: zeros where there is none.
     * @param {number} tile
     * @param {number} subtile
     */
    subtile(tile, subtile) {
        this.#exports.maskcull_subtile(BigInt(this.#held), ...this.#setupAndTiles.slice(1), BigInt(tile), subtile);
        const [reference, working, mask] = this.#words.unsigned.subarray(this.#held / 4, this.#held / 4 + 3);
        return { reference, working, mask };
    }

    /** A copy of the tiles: 25 numbers each, as `maskcull_tile` has them. */
    tiles() {
        return this.#words.unsigned.slice(this.#tiles / 4, this.#room / 4);
    }

    /**
     * Copies vertices and triangles into room for them, and tells how many triangles there are.
     * @param {Int32Array} vertices
     * @param {Uint32Array} triangles
     */
    #place(vertices, triangles) {
        const vertexCount = countOf('vertices', vertices, [Int32Array], 3);
        const triangleCount = countOf('triangles', triangles, [Uint32Array], 3);
        const room = this.room(vertexCount, triangleCount);
        room.vertices.set(vertices);
        room.triangles.set(triangles);
        return triangleCount;
    }

    /**
     * Makes a call with the vertices in the room, and the first so many triangles.
     * @param {Function} call
     * @param {number} triangleCount
     * @returns {number}
     */
    #withRoom(call, triangleCount) {
        const vertexCount = this.#vertexCount, first = this.#room + VERTEX_BYTES * vertexCount;
        const mesh = [this.#room, vertexCount, first, triangleCount].map(BigInt);
        const status = call(...this.#setupAndTiles, ...mesh);
        if (status === DONE || status >= VISIBLE) return status;
        if (status === BAD_INDEX) {
            demandAmong(this.#words.unsigned.subarray(first / 4, first / 4 + 3 * triangleCount), vertexCount);
        }
        throw new MaskcullError('module', `This isn't the module of maskcull: a call answers ${status}.`);
    }
}
