// node check.mjs FILE.wasm PARTS [DIVISOR]: the check in WebAssembly; prints what main.c prints of these parts. run(bytes, ..) does it for a page.
export async function run(bytes, parts, divisor, print) {
  const { instance } = await WebAssembly.instantiate(bytes, {});
  const check = instance.exports;
  const memory = new Uint8Array(check.memory.buffer);
  const text = (at) => new TextDecoder().decode(memory.subarray(Number(at), memory.indexOf(0, Number(at))));
  for (let part = 0; part < parts; part++) {
    const rounds = Math.floor(check.check_rounds(part) / divisor);
    const hash = BigInt.asUintN(64, check.check_part(part, rounds)).toString(16).padStart(16, '0');
    print(text(check.check_name(part)).padEnd(13) + ' ' + String(rounds).padStart(6) + ' ' + hash);
  }
  print(`streams whose rows are the whole map's, and worked files: ${check.check_same()} of ${check.check_streams()}`);
}
if (typeof process !== 'undefined') {
  const { readFileSync } = await import('node:fs');
  const [file, parts, divisor = 1] = process.argv.slice(2);
  await run(readFileSync(file), Number(parts), Number(divisor), console.log);
}
