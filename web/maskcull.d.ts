/** Verdicts: not hidden, or it can't be told; hidden; not on the screen. */
export const VISIBLE: 16;
export const OCCLUDED: 17;
export const OUTSIDE: 18;
export type Verdict = 16 | 17 | 18;

/** Windings: which occluder triangles aren't drawn, by how they run on the screen. */
export const KEEPS_BOTH: 0;
export const DROPS_CLOCKWISE: 1;
export const DROPS_COUNTERCLOCKWISE: 2;
export type Winding = 0 | 1 | 2;

/** Grades: whether nearness goes to 65535 or to 16777215, and so how finely distances are told apart. */
export const NARROW: 0;
export const WIDE: 16;
export type Grade = 0 | 16;

/** A screen in pixels, its near distance, which triangles aren't drawn on it, and its grade. */
export interface Screen {
    /** A multiple of 8, from 8 to 2048. */
    width: number;
    /** A multiple of 4, from 4 to 2048. */
    height: number;
    /**
     * For a Frame a number above 0: the near distance of the camera, since what the camera leaves out must not hide
     * anything. For Calls a whole number from 1 to 1024.
     */
    near: number;
    /** KEEPS_BOTH if it is left out. */
    winding?: Winding;
    /** For Calls, NARROW if it is left out. A Frame is narrow. */
    grade?: Grade;
}

/** Three numbers of vertices for each triangle. */
export type Indices = Uint16Array | Uint32Array;

/** What is wrong, in a sentence. */
export class MaskcullError extends Error {
    constructor(kind: string, sentence: string);
    kind: 'engine' | 'module' | 'memory' | 'screen' | 'near' | 'winding' | 'grade' | 'array' | 'index'
        | 'number';
}

/**
 * Compiles the module. If neither an address nor bytes are given, it is out/maskcull.wasm beside maskcull.js; or where
 * the browser has no 64-bit memories out/maskcull32.wasm, which has SIMD, and which the toolchain's verdict doesn't name.
 */
export function loadModule(source?: string | URL | BufferSource): Promise<WebAssembly.Module>;

/** A screen's tiles, for coordinates in floats. Matrices have 16 numbers, column by column, and lead to clip space. */
export class Frame {
    static make(module: WebAssembly.Module, screen: Screen): Promise<Frame>;
    /** The exports are those of an instance of the module that nobody else uses. */
    constructor(exports: WebAssembly.Exports, screen: Screen);

    /** The calls beneath, in units of 1/1024 of 8/7 of the near distance. */
    readonly calls: Calls;

    /** Empties all tiles. */
    clear(): void;

    /**
     * Draws occluder triangles, after all that were drawn before. Those with a point that is no number or further than
     * 16384 near distances are left out, and those that are seen too nearly edge-on to say how far they are.
     */
    draw(positions: Float32Array, indices: Indices, matrix: ArrayLike<number>): void;

    /**
     * The verdict of all within a box: the least x, y and z and the greatest ones. It is visible too if a corner is
     * nearer than 8/7 of the near distance and not all of the box is beside the screen or behind the eye.
     */
    testBox(bounds: ArrayLike<number>, matrix: ArrayLike<number>): Verdict;

    /** The verdicts of many boxes, of six numbers each, in the array that is given, or in a new one. */
    testBoxes(bounds: Float32Array, matrix: ArrayLike<number>, verdicts?: Uint8Array): Uint8Array;

    /** The verdict of a mesh. Each triangle is tested as the rectangle around it: sharper than a box, and slower. */
    testMesh(positions: Float32Array, indices: Indices, matrix: ArrayLike<number>): Verdict;
}

/** What a subtile holds, as maskcull_subtile_state has it. */
export interface Subtile {
    reference: number;
    working: number;
    mask: number;
}

/** The calls of maskcull.h for one screen, in whole numbers, on tiles in a memory of its own. */
export class Calls {
    static make(module: WebAssembly.Module, screen: Screen): Promise<Calls>;
    /** The exports are those of an instance of the module that nobody else uses. */
    constructor(exports: WebAssembly.Exports, screen: Screen);

    readonly width: number;
    readonly height: number;
    readonly tileCount: number;

    /** Empties all tiles. */
    clear(): void;

    /** Sets which occluder triangles aren't drawn from now on. */
    setWinding(winding: Winding): void;

    /** Draws occluder triangles, after all that were drawn before. A vertex is x, y and w. */
    draw(vertices: Int32Array, triangles: Uint32Array): void;

    /**
     * Room in the module's memory for vertices and triangles. It is valid until room is made again, also by a draw or
     * by a test of a mesh.
     */
    room(vertexCount: number, triangleCount: number): { vertices: Int32Array, triangles: Uint32Array };

    /** Draws the first triangleCount triangles of the room that was made last. */
    drawRoom(triangleCount: number): void;

    /** The verdict of the pixels from (x0, y0) to before (x1, y1) at distance w. */
    test(x0: number, y0: number, x1: number, y1: number, w: number): Verdict;

    /** The verdict of a box: x, y and w of its eight corners. */
    testBox(corners: Int32Array): Verdict;

    /** The verdict of a mesh. */
    testMesh(vertices: Int32Array, triangles: Uint32Array): Verdict;

    /** What a subtile of a tile holds: zeros where there is none. */
    subtile(tile: number, subtile: number): Subtile;

    /** A copy of the tiles: 25 numbers each, as maskcull_tile has them. */
    tiles(): Uint32Array;
}
