// What of a scene is hidden: the largest objects in the view are drawn as occluders, and then all objects are tested.
import { Frame, OCCLUDED, OUTSIDE, VISIBLE } from '../maskcull.js';

const MOST_TRIANGLES = 2048; // of occluders in a frame
// An object that is seen smaller than this, as a part of its distance, hides little.
const LEAST_SIZE = 0.02;

/** The middle of a box and half its diagonal. */
function ballAround([x0, y0, z0, x1, y1, z1]) {
    return [(x0 + x1) / 2, (y0 + y1) / 2, (z0 + z1) / 2, Math.hypot(x1 - x0, y1 - y0, z1 - z0) / 2];
}

export class Culling {
    /** The verdicts of the last frame, object by object. */
    verdicts;
    #frame;
    #objects;
    #bounds;
    #balls;

    /** On a screen of so many pixels. */
    static async make(module, scene, width, height) {
        const { near, winding } = scene;
        return new Culling(await Frame.make(module, { width, height, near, winding }), scene.objects);
    }

    constructor(frame, objects) {
        this.#frame = frame;
        this.#objects = objects;
        this.#bounds = Float32Array.from(objects.flatMap(({ bounds }) => bounds));
        this.#balls = objects.map(({ bounds }) => ballAround(bounds));
        this.verdicts = new Uint8Array(objects.length);
    }

    /** A copy of the tiles. */
    tiles() {
        return this.#frame.calls.tiles();
    }

    /** Finds the verdicts of all objects. Tells how long that took, and how much was drawn and found. */
    run(clipFromScene) {
        const start = performance.now(), chosen = this.#occluders(clipFromScene);
        this.#frame.clear();
        let triangles = 0;
        for (const { positions, indices } of chosen) {
            this.#frame.draw(positions, indices, clipFromScene);
            triangles += indices.length / 3;
        }
        const drawn = performance.now();
        this.#frame.testBoxes(this.#bounds, clipFromScene, this.verdicts);
        const counts = { [VISIBLE]: 0, [OCCLUDED]: 0, [OUTSIDE]: 0 };
        for (const verdict of this.verdicts) counts[verdict]++;
        const milliseconds = { draw: drawn - start, test: performance.now() - drawn };
        return { milliseconds, occluders: chosen.length, triangles, counts };
    }

    /** Occluders of the objects that are seen largest, the largest first. */
    #occluders(matrix) {
        const seen = [], wide = 1 + Math.hypot(matrix[0], matrix[4], matrix[8]);
        this.#balls.forEach(([x, y, z, radius], number) => {
            const w = matrix[3] * x + matrix[7] * y + matrix[11] * z + matrix[15];
            const across = Math.abs(matrix[0] * x + matrix[4] * y + matrix[8] * z + matrix[12]);
            const size = radius / Math.max(w, radius), isBeside = w < -radius || across > w + radius * wide;
            if (size > LEAST_SIZE && !isBeside) seen.push({ size, occluder: this.#objects[number].occluder });
        });
        seen.sort((one, other) => other.size - one.size);
        let triangles = 0;
        return seen.map(({ occluder }) => occluder).filter(({ indices }) => {
            triangles += indices.length / 3;
            return triangles <= MOST_TRIANGLES;
        });
    }
}
