// A small glb: a high wall, and small ones on both sides of it.

const FLOAT = 5126, SHORT = 5123;
const SMALL_WALLS = 40;

/** The high wall is 40 wide and 12 high. The small ones stand in four rows, two on each side of it. */
function wallNodes() {
    const small = Array.from({ length: SMALL_WALLS }, (_, k) => {
        const place = [3 * Math.floor(k / 4) - 13, 1, [-8, -4, 4, 8][k % 4]];
        return { mesh: 0, translation: place, scale: [0.15, 0.5, 1] };
    });
    return [{ mesh: 0, scale: [4, 3, 1] }, ...small];
}

function descriptionOf(indexCount, bytes) {
    const accessors = [{ bufferView: 0, componentType: FLOAT, count: 4, type: 'VEC3' },
        { bufferView: 1, componentType: SHORT, count: indexCount, type: 'SCALAR' }];
    const walls = wallNodes();
    return {
        asset: { version: '2.0' },
        scene: 0,
        scenes: [{ nodes: [0] }],
        nodes: [{ children: walls.map((_, k) => k + 1), rotation: [0, 0.6, 0, 0.8] }, ...walls],
        meshes: [{ primitives: [{ attributes: { POSITION: 0 }, indices: 1 }] }],
        accessors,
        bufferViews: [{ buffer: 0, byteOffset: 0, byteLength: 48 },
            { buffer: 0, byteOffset: 48, byteLength: 2 * indexCount }],
        buffers: [{ byteLength: bytes }],
    };
}

function chunkOf(kind, bytes, filler) {
    const whole = Buffer.concat([bytes, Buffer.alloc(-bytes.length & 3, filler)]), head = Buffer.alloc(8);
    head.writeUInt32LE(whole.length);
    head.write(kind, 4, 'latin1');
    return Buffer.concat([head, whole]);
}

/** With these indices into the four vertices of each wall. */
export function glbOfWalls(indices) {
    const positions = Float32Array.of(-5, 0, 0, 5, 0, 0, 5, 4, 0, -5, 4, 0);
    const binary = Buffer.concat([Buffer.from(positions.buffer), Buffer.from(Uint16Array.from(indices).buffer)]);
    const description = Buffer.from(JSON.stringify(descriptionOf(indices.length, binary.length)));
    const chunks = Buffer.concat([chunkOf('JSON', description, ' '), chunkOf('BIN\0', binary, 0)]);
    const head = Buffer.alloc(12);
    head.write('glTF', 0, 'latin1');
    head.writeUInt32LE(2, 4);
    head.writeUInt32LE(12 + chunks.length, 8);
    return Buffer.concat([head, chunks]);
}
