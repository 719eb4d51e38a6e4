// The programs of the picture: for triangles of objects, which go by the number of their object, and for tiles.

export const VERTICES = `#version 300 es
in vec3 position;
in uint object;
uniform mat4 clipFromScene;
out vec3 place;
flat out uint number;

void main() {
    place = position;
    number = object;
    gl_Position = clipFromScene * vec4(position, 1.0);
}`;

/** Objects in tones of their own, and the ground in another: lit from above and lost in the distance. */
export const SCENE = `#version 300 es
precision highp float;
in vec3 place;
flat in uint number;
uniform vec3 eye;
uniform vec3 sky;
uniform float far;
uniform uint count;
out vec4 colour;

void main() {
    vec3 normal = normalize(cross(dFdx(place), dFdy(place)));
    float light = 0.45 + 0.55 * dot(normal * normal, vec3(0.45, 1.0, 0.8));
    uint mixed = (number + 1u) * 2654435761u;
    vec3 tone = mix(vec3(0.80, 0.62, 0.48), vec3(0.62, 0.66, 0.72), float(mixed >> 24) / 255.0);
    tone = number < count ? tone : vec3(0.55, 0.58, 0.5);
    float haze = 1.0 - exp(-4.0 * distance(place, eye) / far);
    colour = vec4(mix(tone * light, sky, haze), 1.0);
}`;

/** Objects by their verdicts: 16 is visible, 17 hidden, 18 outside; what is no object is dark. */
export const ABOVE = `#version 300 es
precision highp float;
precision highp usampler2D;
flat in uint number;
uniform usampler2D verdicts;
uniform uint count;
out vec4 colour;

void main() {
    uint verdict = number < count ? texelFetch(verdicts, ivec2(number % 256u, number / 256u), 0).r : 0u;
    vec3 culled = verdict == 17u ? vec3(0.16, 0.36, 0.63) : vec3(0.76, 0.76, 0.73);
    vec3 tone = verdict == 16u ? vec3(0.93, 0.47, 0.13) : culled;
    colour = vec4(number < count ? tone : vec3(0.1), 1.0);
}`;

/** The number of an object, and one more, in three bytes. */
export const IDS = `#version 300 es
precision highp float;
flat in uint number;
out vec4 colour;

void main() {
    uvec3 bytes = uvec3(number + 1u) >> uvec3(0u, 8u, 16u) & 255u;
    colour = vec4(vec3(bytes) / 255.0, 1.0);
}`;

/** One triangle over all. */
export const SCREEN = `#version 300 es
void main() {
    vec2 corner = vec2(gl_VertexID == 1 ? 3.0 : -1.0, gl_VertexID == 2 ? 3.0 : -1.0);
    gl_Position = vec4(corner, 0.0, 1.0);
}`;

/** What is held at each sample of the tiles, from blue for far to yellow for near. */
export const TILES = `#version 300 es
precision highp float;
precision highp usampler2D;
uniform usampler2D tiles; // a tile is 25 numbers: 8 reference depths, 8 working depths, 8 masks, and its count
uniform int height;
out vec4 colour;

void main() {
    ivec2 pixel = ivec2(int(gl_FragCoord.x), height - 1 - int(gl_FragCoord.y));
    ivec2 tile = pixel / ivec2(32, 8), subtile = pixel / ivec2(8, 4) % ivec2(4, 2), corner = pixel % ivec2(8, 4);
    int first = 25 * tile.x + 4 * subtile.y + subtile.x;
    uint reference = texelFetch(tiles, ivec2(first, tile.y), 0).r;
    uint working = texelFetch(tiles, ivec2(first + 8, tile.y), 0).r;
    uint mask = texelFetch(tiles, ivec2(first + 16, tile.y), 0).r;
    bool isWorking = (mask >> uint(8 * corner.y + corner.x) & 1u) == 1u;
    uint nearness = isWorking ? max(reference, working) : reference;
    float share = log2(1.0 + float(nearness)) / 16.0;
    vec3 tone = mix(vec3(0.05, 0.1, 0.4), vec3(1.0, 0.9, 0.2), share);
    bool isEdge = corner.x == 0 || corner.y == 0;
    colour = vec4(isEdge ? tone * 0.85 : tone, nearness == 0u ? 0.0 : 0.85);
}`;
