// All that checks/web tests, behind web/build. A fault ends it.
//
//     node [--experimental-wasm-memory64] web/tests/all.mjs PROGRAM SCENES [MODULE]    a file's name in web/out
import { checkFaults, checkSafety } from './faults.mjs';
import { checkFirst } from './first.mjs';
import { checkChoice, checkModule, checkRoom } from './module.mjs';
import { checkRounding } from './rounding.mjs';
import { checkScenes } from './scenes.mjs';
import { checkStreet } from './street.mjs';

const [program, scenes] = process.argv.slice(2);
// Without it node 20 may hang: where nothing but a compilation is waited for, its main thread waits for all that other
// threads compile, and one of these may wait for the main thread to collect garbage.
const timer = setInterval(() => {}, 1000);
checkModule();
await checkChoice();
await checkRoom();
checkFirst();
await checkStreet();
await checkFaults();
await checkSafety();
await checkRounding();
await checkScenes(program, Number(scenes));
clearInterval(timer);
console.log('web: all agrees');
